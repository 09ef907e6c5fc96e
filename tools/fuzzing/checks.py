"""Files of checks that `learn` learns from: under the profile all tests pass, and without any right of it one fails."""

import random
import re
from copy import deepcopy

from fuzzing.demands import Demands
from fuzzing.grammar import by_client, is_call, is_refused
from fuzzing.model import rights_of
from fuzzing.policies import NO_OPENING
from fuzzing.profiles import TRIED, Judged, Profile, text_of, under_nodes
from fuzzing.program import holds, same

# Parts the scripts of two files.
NEXT = "# next"
COMMAND_LINE = "landtree: command line\n"
# Why a line isn't denied that must be.
GRANTED = re.compile(r"granted by (\S+) (\w+), needed by (.*)")
NO_LAYER = "no single layer denies this and lets the others pass"
# What may have to be denied, of a path.
ASKING = "open r {}|open w {}|open wt {}|open wc {}/q|truncate {} 0|list {}|exec {}|unlink {}|rmdir {}|make fifo {}/q"
ASKING = f"{ASKING}|rename {{}} /q|link {{}} /q|exchange {{}} /a".split("|")


def scripts_of(lines):
    """The lines of each file's script."""
    scripts = [[]]
    for line in lines:
        if line == NEXT:
            scripts.append([])
        else:
            scripts[-1].append(line)
    return scripts


# The commands in which layers have a say.
DENIABLE = {"make", "open", "ftruncate", "truncate", "list", "exec", "unlink", "rmdir"}
DENIABLE |= {"rename", "rename_noreplace", "exchange", "link"}


def wanted(reply, number):
    """What a test says of its reply, in one of the ways."""
    if reply.startswith("denied "):
        return [" = denied", " = denied .."][number % 2]
    ways = [f" = {reply}", f" = {reply.split(' ')[0]} ..", " = allowed", f" = {reply}" if is_refused(reply) else ""]
    return ways[number % 4]


def denied(reply, number):
    """What a test says that has to be denied so."""
    right, place = reply.split(" ")[4:]
    return [" = denied", " = denied ..", f" = denied {right}", f" = denied {right} {place}", f" = {reply}"][number % 5]


class Checks:
    """A file of checks: its lines, and the tree in which those that needn't be denied were made. Its entries are
    counted after those of other files."""

    def __init__(self, case, file, script, entry):
        self.file, self.lines, self.commands, self.notes = file, ["# A file of checks."], [], {}
        answering, self.demands = Demands(case), Demands(case)
        self.demands.entry = entry
        for line in script:
            client, call = by_client(line)
            if client > len(answering.clients) or not is_call(call):
                continue
            reply = answering.answer(client, call)
            self.add(line, wanted(reply, len(self.lines)))
            self.commands.append((client, call))
            if not reply.startswith("denied "):
                same(self.demands.answer(client, call), reply, f"the reply to {line!r:.99} without the denied calls")
                self.notes[self.demands.entry] = self.note()

    def add(self, command, says):
        self.lines += [""] * (len(self.lines) % 5 == 0)
        self.lines.append(f"{command}{says}")
        self.last = command

    def note(self):
        return f"{self.file}:{len(self.lines)}: {self.last}"

    def write(self, *more):
        self.file.write_text("".join(f"{line}\n" for line in [*self.lines, *more]))

    def under(self, case, layer):
        """The tree behind all its calls, where the layer is on its client."""
        tree = Demands(case)
        places = {path: chain[-1].inode for path, chain in tree.places.items()}
        rules = {places[it["path"]]: rights_of(it["rights"]) for it in layer["rule"]}
        tree.clients[0].layers = [(rights_of(layer["handled"]), rules)]
        for client, call in self.commands:
            tree.answer(client, call)
        return tree


def joined(files):
    """What is asked in all files."""
    whole = files[0].demands
    for other in files[1:]:
        whole.asks += other.demands.asks
        whole.moves += other.demands.moves
        whole.is_strayed |= other.demands.is_strayed
    return whole


class Learning:
    """The command, on files in the policy's nodes."""

    def __init__(self, program, case, files):
        self.program, self.case, self.files = program, case, files
        self.names = [it.file for it in files]

    def ran(self, *words):
        return self.program.ran("learn", *self.names, *under_nodes(self.program, self.case), *self.case.words(), *words)

    def wants(self, status, error, *words):
        same(self.ran(*words), (status, "", error), "how learn ends")

    def checks(self, profile):
        return self.program.ran("check", *self.names, *under_nodes(self.program, self.case, profile))


def judge(program, case):
    if program.ran("run", "-", *under_nodes(program, case)) == NO_OPENING:
        return
    entry, files = 0, []
    for number, script in enumerate(scripts_of(case.lines)):
        files.append(Checks(case, program.room / f"{number}.check", script, entry))
        files[-1].write()
        entry = files[-1].demands.entry
    learning, demands, notes = Learning(program, case, files), joined(files), {}
    for it in files:
        notes |= it.notes
    ran = learning.ran()
    untested = [it.file for it in files if not it.commands]
    unmet = [it for right in case.ruled_out() for it in demands.failed(right, set())]
    if untested:
        holds(ran[:2] == (3, "") and f"no test in {untested[0]}\n" in ran[2], f"learn without a test ends {ran!r:.300}")
    elif unmet:
        why = "no layer of level 1" if case.abi == 1 else "no layer that may be learned"
        same(ran, (3, "", f"{notes[min(unmet)]}: {why} lets this pass\n"), "what no layer lets pass")
    else:
        same((ran[0], ran[2]), (0, ""), "how learn ends")
        judge_profile(learning, Judged(case, demands, Profile(case, ran[1])), notes)


def crowd_in(rules):
    """The directory, other than the root, that most of the rules' nodes are right in, and how many; or DIR."""
    above = [rule["path"].rpartition("/")[0] for rule in rules]
    crowd = max(filter(None, above), key=above.count, default="")
    return f"{crowd}, which has {above.count(crowd)}" if crowd and above.count(crowd) > 1 else "DIR"


def judge_profile(learning, judged, notes):
    profile = judged.profile
    judged.judge_rules(notes)
    judged.judge_beneath()
    judged.judge_least()
    tests = sum(len(it.commands) for it in learning.files)
    same(learning.checks(profile.text), (0, f"{tests} passed, 0 failed\n", ""), "the check under the profile")
    for path, right in profile.rights[:: len(profile.rights) // TRIED + 1]:
        status, out, _ = learning.checks(text_of(profile.without(path, right)))
        first = notes[min(judged.failed(path, right))]
        same((status, out.split("\n")[0]), (3, first), f"the check without {right} on {path}")
    rules = len(profile.rules)
    if rules > 1:
        many = f"{rules} rules, {rules - 1} may be: --most 256, or --beneath {crowd_in(profile.rules)}\n"
        learning.wants(2, many + COMMAND_LINE, "--most", str(rules - 1))
    judge_more(learning, judged, notes)


def judge_more(learning, judged, notes):
    """Lines that must be denied are added to the last file, and such as learning fails by."""
    profile, case, file = judged.profile, learning.case, learning.files[-1]
    rng = random.Random(learning.case.text())
    tree = file.under(case, profile.layer)
    paths = ["/", *(node.split(" ")[1] for node in case.policy)]
    let_through = []
    for number in range(8):
        call = rng.choice(ASKING).format(rng.choice(paths)).replace("//", "/")
        reply = deepcopy(tree).answer(1, call)
        if reply.startswith("denied "):
            file.add(call, denied(reply, number))
        else:
            let_through.append((call, reply))
    file.write()
    same(learning.ran(), (0, profile.text, ""), "what is learned with more lines that must be denied")
    for call, reply in [it for it in let_through if by_client(it[0])[1].split(" ")[0] in DENIABLE][:1]:
        file.write(f"{call} = denied ..")
        place = f"{file.file}:{len(file.lines) + 1}: "
        judge_let_through(learning.ran(), judged, notes, place, f"{place}{call}\nexpected denied ..\ngot {reply}\n")
    file.write("stat / = refused ..", "stat / = stat 2 ..")
    learning.wants(3, f"{file.file}:{len(file.lines) + 1}: stat /\nexpected refused ..\ngot stat 1 dir 0 1\n")
    for bad in ("stat", "stat / = ok"):
        file.write("stat / = refused ..", bad)
        status, out, error = learning.ran()
        is_told = error.startswith(f"{file.file}:{len(file.lines) + 2}:")
        same((status, out, is_told), (2, "", True), f"how learn ends at a bad line, which writes {error!r:.200}")


def judge_let_through(ran, judged, notes, place, head):
    """A line isn't denied that must be: each right that is said to grant it is in the profile, and needed so."""
    status, out, error = ran
    same((status, out, error[: len(head)]), (3, "", head), "how learn ends")
    for line in error[len(head) :].splitlines():
        told = GRANTED.fullmatch(line.removeprefix(place))
        holds(told or line == f"{place}{NO_LAYER}", f"why a line isn't denied: {line!r:.200}")
        if told:
            path, right, note = told.groups()
            needing = [notes[it] for it in judged.failed(path, right)]
            holds(note in needing, f"{right} on {path} is needed by {note!r}, and not by {needing!r:.300}")
