// Landtree in a page or in node: texts in, a text out. In node it runs commands too:
//
//     node clients/page/landtree.mjs run SCRIPT [--policy FILE --profile NAME] [--strict]
//     node clients/page/landtree.mjs check FILE [--policy FILE --profile NAME] [--quiet | --verbose | --as FORM]
//     node clients/page/landtree.mjs audit HISTORY
//     node clients/page/landtree.mjs why HISTORY NUMBER
//     node clients/page/landtree.mjs why COMMAND.. --policy FILE --profile NAME
//     node clients/page/landtree.mjs rights --policy FILE --profile NAME [--layers | --as json] [PATH..]
//     node clients/page/landtree.mjs learn --history FILE [--client N] [--never RIGHTS] [--beneath DIR].. [--most N]
//         [--name NAME]
//
// `--nodes N` goes with each --policy, `--abi N` with run and check, and `--history N` with run.

const encoder = new TextEncoder();
const decoder = new TextDecoder();

export const DONE = 0;
export const ENDED = 3;
const OUT_OF_MEMORY = 4;
const TOO_SHORT = 5;

// The forms of a report on checks and of a table of rights, by their numbers.
const REPORTS = ['usual', 'quiet', 'verbose', 'tap', 'junit', 'json'];
const TABLES = ['usual', 'layers', 'json'];

// WebAssembly would cut a number to 64 bits. One of more is out of every bound, as is the highest.
const HIGHEST = 2n ** 64n - 1n;
const bitsOf = (number) => (BigInt(number) === BigInt.asUintN(64, BigInt(number)) ? BigInt(number) : HIGHEST);

// The bytes that an instance may hold and still be asked again. Its memory never shrinks, and is full at 4 GiB.
const KEPT = 2 ** 28;

// Whether an instance has trapped, has no room, or names what its memory doesn't have; or a text is too long for a string.
function isOutOfMemory(error) {
  const isOfModule = error instanceof WebAssembly.RuntimeError || error instanceof RangeError;
  return isOfModule || error.code === 'ERR_STRING_TOO_LONG';
}

// A server may have unpacked the file already.
function unpacked(bytes) {
  const [first, second] = new Uint8Array(bytes);
  if (first !== 0x1f || second !== 0x8b) return bytes;
  return new Response(new Blob([bytes]).stream().pipeThrough(new DecompressionStream('gzip'))).arrayBuffer();
}

// Makes an instance of the module in the bytes of landtree.wasm.gz, packed or not.
export async function load(bytes) {
  const { module, instance } = await WebAssembly.instantiate(await unpacked(bytes), {});
  return new Landtree(instance.exports, () => new WebAssembly.Instance(module, {}).exports);
}

export class Landtree {
  #module;
  #another;
  #room;
  #out;
  #length;

  // Takes what an instance exports, and what returns the exports of another one.
  constructor(module, another) {
    this.#another = another;
    this.#begin(module);
  }

  #begin(module) {
    this.#module = module;
    this.#room = 65536;
    this.#out = this.#take(this.#room);
    this.#length = this.#take(8);
  }

  #take(size) {
    const at = this.#module.landtree_take(BigInt(size));
    if (at === 0n) throw new RangeError('no memory');
    return at;
  }

  // Lends a text: appends its place and its length.
  #lend(bytes, lent) {
    const at = this.#take(bytes.length);
    lent.push([at, BigInt(bytes.length)]);
    new Uint8Array(this.#module.memory.buffer, Number(at), bytes.length).set(bytes);
  }

  #answer(name, numbers, texts) {
    const lent = [];
    try {
      for (const it of texts) this.#lend(it, lent);
      for (;;) {
        const status = this.#module[name](...numbers, ...lent.flat(), this.#out, BigInt(this.#room), this.#length);
        const length = Number(new DataView(this.#module.memory.buffer).getBigUint64(Number(this.#length), true));
        if (status !== TOO_SHORT) {
          const text = new Uint8Array(this.#module.memory.buffer, Number(this.#out), length).slice();
          return { status, bytes: text, text: decoder.decode(text) };
        }
        const out = this.#take(length);
        this.#module.landtree_give(this.#out);
        [this.#out, this.#room] = [out, length];
      }
    } finally {
      for (const [at] of lent) this.#module.landtree_give(at);
    }
  }

  // An instance that has failed, or that holds too much, isn't asked again.
  #ask(name, numbers, texts) {
    const given = texts.map((it) => (typeof it === 'string' ? encoder.encode(it) : it));
    try {
      if (this.#module === null) this.#begin(this.#another());
      const told = this.#answer(name, numbers, given);
      if (told.status === OUT_OF_MEMORY || this.memory > KEPT) this.#module = null;
      return told;
    } catch (error) {
      if (!isOutOfMemory(error)) throw error;
      this.#module = null;
      return fault(OUT_OF_MEMORY, 'landtree: no memory\n');
    }
  }

  // The history's room of 0 is as much as the script may need.
  #numbers({ level = 0, nodes = 4096, history = 0 }) {
    return [level, nodes, history].map(bitsOf);
  }

  // The transcript of a script. An empty policy or profile isn't given.
  run({ policy = '', profile = '', script, strict = false, ...numbers }) {
    return this.#ask('landtree_run', [...this.#numbers(numbers), Number(Boolean(strict))], [policy, profile, script]);
  }

  // The saved history of such a run.
  history({ policy = '', profile = '', script, ...numbers }) {
    return this.#ask('landtree_history', this.#numbers(numbers), [policy, profile, script]);
  }

  // The report on a file of checks with this name and this text, in one of the forms of REPORTS.
  check({ policy = '', profile = '', name = 'checks', checks, form = 'usual', level = 0, nodes = 4096 }) {
    const numbers = [bitsOf(level), bitsOf(nodes), REPORTS.indexOf(form)];
    return this.#ask('landtree_check', numbers, [policy, profile, name, checks]);
  }

  // The bytes of the instance's memory, which never shrinks.
  get memory() {
    return this.#module?.memory.buffer.byteLength ?? 0;
  }

  policy(policy) {
    return this.#ask('landtree_policy', [], [policy]);
  }

  audit(history) {
    return this.#ask('landtree_audit', [], [history]);
  }

  whyEntry(history, number) {
    return this.#ask('landtree_why_entry', [bitsOf(number)], [history]);
  }

  // Why a policy's profile gets this answer to the last of its commands, after those before it.
  why({ policy, profile, commands, nodes = 4096 }) {
    return this.#ask('landtree_why', [bitsOf(nodes)], [policy, profile, commands.join('\n')]);
  }

  // The rights that a policy's profile is granted at these paths, or without any at the policy's nodes, in one of the
  // forms of TABLES.
  rights({ policy, profile, paths = [], form = 'usual', nodes = 4096 }) {
    const lines = paths.map((it) => `${it}\n`).join('');
    return this.#ask('landtree_rights', [bitsOf(nodes), TABLES.indexOf(form)], [policy, profile, lines]);
  }

  // The least profile for what a client did in a saved history, or a line on why nothing is learned. Numbers of 0 and
  // empty texts aren't given.
  learn({ client = 0, most = 0, never = '', beneath = [], name = '', history }) {
    return this.#ask('landtree_learn', [bitsOf(client), bitsOf(most)], [never, beneath.join('\n'), name, history]);
  }
}

// ---- in node

// An answer in the program's words, on standard error.
const fault = (status, text) => ({ status, bytes: encoder.encode(text), text, isFault: true });
const WRONG = fault(2, 'landtree: command line\n');
const NO_FILE = fault(1, 'landtree: file\n');
const NO_OUTPUT = fault(1, 'landtree: output\n');
const NO_MEMORY = fault(OUT_OF_MEMORY, 'landtree: no memory\n');

// What follows an option: each returns the value of a word, and undefined for a wrong one or none. An empty text or a 0
// stands for none that is given.
const any = (word) => word;
const text = (word) => word || undefined;
const line = (word) => (/[\r\n]/.test(word) ? undefined : text(word));
const number = (word) => (/^\+?0*[0-9]{1,15}$/.test(word) ? Number(word) : undefined);
const some = (word) => number(word) || undefined;
// Nothing follows these.
const FLAG = null;
// These may be told again.
const MANY = new Set([line]);

const PROFILE = { policy: any, profile: text, nodes: number };
// The commands: their options, and what answers them.
const COMMANDS = {
  __proto__: null,
  run: [{ ...PROFILE, abi: some, history: some, strict: FLAG }, run],
  check: [{ ...PROFILE, abi: some, quiet: FLAG, verbose: FLAG, as: any }, check],
  audit: [{}, audit],
  why: [PROFILE, why],
  rights: [{ ...PROFILE, layers: FLAG, as: any }, rights],
  learn: [{ history: any, client: some, never: text, beneath: line, most: some, name: text }, learn],
};

// Returns the words that aren't options, and the options by their names; null if a word is wrong.
function parse(words, kinds) {
  const [rest, options] = [[], { __proto__: null }];
  for (let i = 0; i < words.length; i++) {
    const name = words[i].startsWith('--') ? words[i].slice(2) : null;
    if (name === null) {
      rest.push(words[i]);
    } else {
      if (!Object.hasOwn(kinds, name) || (name in options && !MANY.has(kinds[name]))) return null;
      const value = kinds[name] === FLAG || kinds[name](words[++i]);
      if (value === undefined) return null;
      options[name] = MANY.has(kinds[name]) ? [...(options[name] ?? []), value] : value;
    }
  }
  return { rest, options };
}

// Reads the policy, if one is given, and puts the program's default of nodes. An empty text would be no policy; one of
// a line feed is as wrong as an empty file. As a policy `-` isn't standard input.
function setupOf(read, { policy, abi: level, nodes = 1024, ...options }) {
  if (policy === undefined) return { ...options, level, nodes };
  const bytes = read(policy === '-' ? './-' : policy);
  return { ...options, level, nodes, policy: bytes.length > 0 ? bytes : '\n' };
}

// If the opening is refused, the script isn't read.
function run(tree, read, [file, ...more], options) {
  if (file === undefined || more.length > 0) return WRONG;
  const setup = setupOf(read, options);
  const opened = tree.run({ ...setup, script: '' });
  return opened.status !== DONE || opened.text !== '' ? opened : tree.run({ ...setup, script: read(file) });
}

function check(tree, read, [file, ...more], { quiet, verbose, as, ...options }) {
  const forms = [quiet && 'quiet', verbose && 'verbose', as].filter(Boolean);
  if (file === undefined || more.length > 0 || forms.length > 1) return WRONG;
  if (as !== undefined && !['tap', 'junit', 'json'].includes(as)) return WRONG;
  return tree.check({ ...setupOf(read, options), name: file, checks: read(file), form: forms[0] });
}

function audit(tree, read, [file, ...more]) {
  return file === undefined || more.length > 0 ? WRONG : tree.audit(read(file));
}

// The words are a history and an entry's number, or with a policy the commands, the last of which is explained.
function why(tree, read, words, options) {
  const { policy, profile } = options;
  if (policy === undefined && profile === undefined) {
    const entry = words.length === 2 ? number(words[1]) : undefined;
    return entry === undefined ? WRONG : tree.whyEntry(read(words[0]), entry);
  }
  if (policy === undefined || profile === undefined || words.some((it) => line(it) === undefined)) return WRONG;
  return tree.why({ ...setupOf(read, options), commands: words });
}

function rights(tree, read, paths, { layers, as, ...options }) {
  if (options.policy === undefined || options.profile === undefined) return WRONG;
  if ((as ?? 'json') !== 'json' || paths.some((it) => line(it) === undefined)) return WRONG;
  return tree.rights({ ...setupOf(read, options), paths, form: as ?? (layers ? 'layers' : 'usual') });
}

function learn(tree, read, words, lesson) {
  if (words.length > 0 || lesson.history === undefined || lesson.client > 1e9) return WRONG;
  const told = tree.learn({ ...lesson, history: read(lesson.history) });
  // The text begins with the history's line, if it is about one.
  if (told.status === ENDED) return fault(ENDED, `${lesson.history}:${told.text.replace(/^(?![0-9])/, ' ')}`);
  if (told.status !== WRONG.status) return told;
  if (told.text.startsWith('--beneath ')) return fault(2, `${told.text}landtree: command line\n`);
  const isMany = /^[0-9]+ rules, /.test(told.text);
  if (!isMany) return WRONG;
  const many = told.text.trim();
  const more = many.endsWith(' 256 may be') ? '' : '--most 256, or ';
  return fault(2, `${many}: ${more}--beneath DIR\nlandtree: command line\n`);
}

// What the command answers, whose files `read` reads. Nothing is hinted, so `--terse` asks for nothing.
export function answer(tree, read, words) {
  const [command, ...told] = words.filter((it) => it !== '--terse');
  const [kinds, answerOf] = COMMANDS[command] ?? [];
  const parsed = kinds && parse(told, kinds);
  if (!parsed) return WRONG;
  try {
    return answerOf(tree, read, parsed.rest, parsed.options);
  } catch (error) {
    if (error.code === undefined) throw error;
    return error.code === 'ENOMEM' ? NO_MEMORY : NO_FILE;
  }
}

// Makes an instance of the module beside this file. If that fails, a line says why, and null comes back.
async function moduleBeside(fs) {
  try {
    return await load(fs.readFileSync(new URL('landtree.wasm.gz', import.meta.url)));
  } catch (error) {
    await write(fs, 2, encoder.encode(`landtree.wasm.gz: ${error.message}\n`));
    return null;
  }
}

// The comment at the head of this file.
function usage(fs) {
  const lines = fs.readFileSync(new URL(import.meta.url), 'utf8').split('\n');
  const head = lines.slice(0, lines.findIndex((it) => !it.startsWith('//')));
  return head.map((it) => `${it.replace(/^\/\/ ?/, '')}\n`).join('');
}

// Writes the bytes, and returns whether all could be written. A pipe that takes none for now is tried again.
async function write(fs, descriptor, bytes) {
  for (let done = 0; done < bytes.length; ) {
    try {
      const count = fs.writeSync(descriptor, bytes, done);
      if (count === 0) return false;
      done += count;
    } catch (error) {
      if (error.code !== 'EAGAIN') return false;
      await new Promise((next) => setTimeout(next, 10));
    }
  }
  return true;
}

async function answerTo(fs, words) {
  if (words.includes('--help')) return { status: DONE, bytes: encoder.encode(usage(fs)) };
  const tree = await moduleBeside(fs);
  return tree === null ? NO_FILE : answer(tree, (name) => fs.readFileSync(name === '-' ? 0 : name), words);
}

const isFaulty = ({ status, isFault = status !== DONE && status !== ENDED }) => isFault;

async function main(words) {
  const fs = await import('node:fs');
  let told = await answerTo(fs, words);
  if (!isFaulty(told) && !(await write(fs, 1, told.bytes))) told = NO_OUTPUT;
  if (isFaulty(told)) await write(fs, 2, told.bytes);
  process.exitCode = told.status;
}

// Returns whether node was started with this file, by whatever name. In a browser nothing was.
async function isStarted() {
  if (typeof process === 'undefined' || !process.argv?.[1]) return false;
  try {
    const fs = await import('node:fs');
    return fs.realpathSync(process.argv[1]) === fs.realpathSync(new URL(import.meta.url));
  } catch {
    return false;
  }
}

if (await isStarted()) await main(process.argv.slice(2));
