// What the page does. Each change runs the commands, or checks the checks, all anew: each reply or verdict is beside
// its line. A chosen reply is explained, and a chosen verdict leads to its line. A table has what the profile is
// granted. A button learns the least profile for the commands. The address has what is given, to be sent to somebody.
import { DONE, ENDED, load } from './landtree.mjs';
import { EXAMPLES } from './examples.mjs';

const at = (id) => document.getElementById(id);
const FIELDS = ['policy', 'profile', 'script'];
const KINDS = [...document.querySelectorAll('input[name="kind"]')];

let tree;
let chosen = -1;

const given = () => Object.fromEntries(FIELDS.map((id) => [id, at(id).value]));
const kind = () => KINDS.find((it) => it.checked).value;

// The lines of a text, each with its line feed, also the last.
const linesOf = (text) => text.replace(/[^\n]$/, '$&\n').match(/[^\n]*\n/g) ?? [];
// The script of the first so many lines, or of all.
const scriptOf = (text, count) => linesOf(text).slice(0, count).join('');
// The objects of an answer that has one on each line.
const objectsOf = (text) => text.split('\n').slice(0, -1).map((line) => JSON.parse(line));

// An element with these children, which may be texts.
function made(tag, ...children) {
  const it = document.createElement(tag);
  it.append(...children);
  return it;
}

// A line, and what comes of it, by whose class it is marked.
function rowOf(line, answer, name, onclick) {
  const marked = Object.assign(made('span', answer), { className: name });
  return made('li', Object.assign(made('button', made('span', line), marked), { onclick }));
}

// Shows why there is no answer, or nothing if there is one. Returns its text then, and how long it took.
function answered(ask) {
  const began = performance.now();
  const told = ask();
  const took = `${(performance.now() - began).toFixed(1)} ms`;
  const isThere = told.status === DONE || told.status === ENDED;
  at('fault').textContent = isThere ? '' : told.text.replace(/^landtree: /, '');
  return { ...told, text: isThere ? told.text : '', took };
}

// ---- commands, and their replies

// Why the line with this number, from 0, was answered so: it is the last entry of the history of a run up to there.
function why(number) {
  const it = given();
  const saved = tree.history({ ...it, script: scriptOf(it.script, number + 1) });
  if (saved.status !== DONE) return saved.text;
  const entries = saved.text.split('\n').length - 2;
  return tree.whyEntry(saved.bytes, entries).text;
}

function choose(number) {
  chosen = number;
  [...at('replies').children].forEach((row, i) => row.firstChild.setAttribute('aria-pressed', i === number));
  const reply = at('replies').children[number]?.dataset.reply ?? '';
  const isEntered = reply !== '' && !/^refused 2[123] /.test(reply);
  at('why').textContent = isEntered ? why(number) : '';
}

function rowOfReply(line, reply, number) {
  const row = rowOf(line.replace(/\n$/, ''), reply, reply.split(' ')[0], () => choose(number));
  row.dataset.reply = reply;
  return row;
}

function run(it) {
  const told = answered(() => tree.run({ ...it, script: scriptOf(it.script) }));
  const replies = told.text.split('\n').slice(0, -1);
  const lines = linesOf(it.script);
  at('replies').replaceChildren(...replies.map((reply, i) => rowOfReply(lines[i] ?? '', reply, i)));
  at('status').textContent = `${replies.length} replies in ${told.took}`;
  const denied = replies.findIndex((reply) => reply.startsWith('denied'));
  choose(chosen >= 0 && chosen < replies.length ? chosen : denied);
}

// ---- checks, and their verdicts

// Puts the cursor on the line with this number, from 1; 0 is the first one too.
function goTo(number) {
  const lines = linesOf(at('script').value);
  const start = lines.slice(0, Math.max(number - 1, 0)).join('').length;
  at('script').focus();
  at('script').setSelectionRange(start, start + (lines[number - 1] ?? '').replace(/\n$/, '').length);
}

function rowOfTest({ line, section, command, expected, got, passes }) {
  const verdict = passes ? 'passes' : `fails: expected ${expected}, got ${got}`;
  const place = `${line}: ${section ? `[${section}] ` : ''}`;
  return rowOf(place + command, verdict, passes ? 'passed' : 'failed', () => goTo(line));
}

function check({ script, ...it }) {
  const told = answered(() => tree.check({ ...it, checks: script, form: 'json' }));
  const tests = objectsOf(told.text);
  const sums = tests.pop();
  at('replies').replaceChildren(...tests.map(rowOfTest));
  at('status').textContent = sums === undefined ? 'nothing is checked'
    : `${sums.passed} passed, ${sums.failed} failed in ${told.took}`;
}

// ---- what the profile is granted

// A line on some rights; none without rights.
function grantOf(by, rights, name) {
  if (rights.length === 0) return [];
  return [Object.assign(made('p', made('b', `${by}:`), ` ${rights.join(', ')}`), { className: name })];
}

// What a layer does, from its rules nearest to the root on.
function layerLines({ unrestricted, rules, missing }) {
  return [
    ...grantOf('not restricted', unrestricted, 'free'),
    ...rules.flatMap(({ path, rights }) => grantOf(`rule on ${path}`, rights, 'ruled')),
    ...grantOf('by no rule', missing, 'missing'),
  ];
}

function cellOf(head, children) {
  const cell = made('td', ...children);
  cell.dataset.head = head;
  return cell;
}

function rightsRow({ path, kind, rights, layers }) {
  const head = Object.assign(made('th', path, made('small', kind)), { scope: 'row' });
  const all = rights.length ? rights.join(', ') : 'none';
  const cells = layers.map((it, i) => cellOf(`layer ${i + 1}`, layerLines(it)));
  return made('tr', head, cellOf('all layers grant', [made('p', all)]), ...cells);
}

// The table of what the profile is granted, if there is a policy that opens.
function showRights({ policy, profile }) {
  const told = tree.rights({ policy, profile, form: 'json' });
  const rows = told.status === DONE ? objectsOf(told.text) : [];
  at('granted').hidden = rows.length === 0;
  if (rows.length === 0) return at('rights').replaceChildren();
  const heads = ['node', 'all layers grant', ...rows[0].layers.map((_, i) => `layer ${i + 1}`)];
  const head = made('tr', ...heads.map((it) => Object.assign(made('th', it), { scope: 'col' })));
  at('rights').replaceChildren(made('table', made('thead', head), made('tbody', ...rows.map(rightsRow))));
}

// ---- the least profile

// What a policy begins with that has no nodes.
const HEAD = 'version = 2\nabi = 3\n';

// A profile's name that the policy doesn't have: learned, or learned-2, and so on.
function freeName(policy) {
  const isTaken = (name) => policy.includes(`profile.${name}.`);
  let [name, number] = ['learned', 1];
  while (isTaken(name)) name = `learned-${++number}`;
  return name;
}

function showLearned(text, name) {
  at('learned').textContent = text;
  at('learned').dataset.name = name;
  at('adopt').hidden = name === '';
}

// Learns what the commands need that are under no profile.
function learn() {
  const it = given();
  const saved = tree.history({ ...it, profile: '', script: scriptOf(it.script) });
  if (saved.status !== DONE) return showLearned(saved.text.replace(/^landtree: /, ''), '');
  const name = freeName(it.policy);
  const told = tree.learn({ name, history: saved.bytes });
  if (told.status === DONE) return showLearned(told.text, name);
  showLearned(`Nothing is learned: ${told.text.replace(/^[0-9]+: /, '')}`, '');
}

// Puts the profile behind the policy, and runs the commands under it.
function adopt() {
  const { name } = at('learned').dataset;
  at('policy').value = `${(at('policy').value || HEAD).trimEnd()}\n\n${at('learned').textContent}`;
  at('profile').value = name;
  act();
  at('policy').focus();
}

// ---- all of it

function act() {
  const [it, isChecks] = [given(), kind() === 'checks'];
  at('lines').textContent = isChecks ? 'Checks' : 'Commands';
  at('why').hidden = at('lesson').hidden = isChecks;
  showLearned('', '');
  (isChecks ? check : run)(it);
  showRights(it);
  history.replaceState(null, '', `#${new URLSearchParams({ kind: kind(), ...it })}`);
}

function show(values) {
  for (const id of FIELDS) at(id).value = values[id] ?? '';
  for (const it of KINDS) it.checked = it.value === (values.kind === 'checks' ? 'checks' : 'commands');
  chosen = -1;
  act();
}

try {
  tree = await load(await (await fetch('landtree.wasm.gz')).arrayBuffer());
  at('example').append(...EXAMPLES.map(({ name }) => new Option(name)));
  at('example').onchange = () => show(EXAMPLES[at('example').selectedIndex]);
  for (const id of FIELDS) at(id).oninput = act;
  for (const it of KINDS) it.onchange = act;
  at('learn').onclick = learn;
  at('adopt').onclick = adopt;
  const shared = Object.fromEntries(new URLSearchParams(location.hash.slice(1)));
  show(shared.script === undefined ? EXAMPLES[0] : shared);
  document.title = 'Landtree: ready';
} catch (error) {
  at('status').textContent = `this browser doesn't run the module: ${error.message}`;
}
