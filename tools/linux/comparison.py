"""One file of checks, run both ways: by the program, and by processes under the kernel's Landlock."""

import subprocess
from dataclasses import dataclass, field
from typing import NamedTuple

from fuzzing.grammar import CALLS, is_path
from fuzzing.policies import opening_calls, profile_calls
from linux.causes import DONE, NOT_ASKED, Seen, cause_of, is_asked
from linux.world import World

# What changes nothing but what its own reply tells.
LOOKS = ("list", "stat", "exec", "read")
AGREES, DIFFERS, SKIPPED = "agrees", "differs", "not compared"


class Test(NamedTuple):
    number: int
    client: int
    call: str

    def command(self):
        return self.call if self.client == 1 else f"@{self.client} {self.call}"


@dataclass
class Case:
    """The commands of a file of checks, the words that the program gets with them, and the policy's nodes and layers."""

    tests: list
    words: list
    nodes: list = field(default_factory=list)
    layers: list = field(default_factory=list)


class Row(NamedTuple):
    test: Test
    reply: str
    answer: str
    # One of the words above, or the name of a cause.
    verdict: str


class Refused(Exception):
    """A call of the policy is refused, so there is nothing to compare."""


class Talk:
    """A run of the program that is given its lines one at a time."""

    def __init__(self, program, words):
        pipes = {"stdin": subprocess.PIPE, "stdout": subprocess.PIPE}
        self.run = subprocess.Popen([program, "run", "-", *words], **pipes)

    def ask(self, line):
        self.run.stdin.write(f"{line}\n".encode("latin-1"))
        self.run.stdin.flush()
        return self.run.stdout.readline().decode("latin-1").removesuffix("\n")

    def __enter__(self):
        return self

    def __exit__(self, *_):
        self.run.communicate()


class Inodes:
    """Which number of an inode here is which one there: each has one partner, always the same."""

    def __init__(self):
        self.partner = {}

    def told(self, reply, answer):
        """The kernel's answer to stat with the tree's number for its own, where they are partners."""
        ours, theirs = reply.split(" "), answer.split(" ")
        if ours[0] != "stat" or theirs[0] != "stat":
            return answer
        one, other = ("tree", ours[1]), ("kernel", theirs[1])
        if self.partner.setdefault(one, other) == other and self.partner.setdefault(other, one) == one:
            theirs[1] = ours[1]
        return " ".join(theirs)


class Comparing:
    """While it goes on. From where the two have parted nothing more is compared."""

    def __init__(self, talk, world):
        self.talk, self.world, self.inodes, self.has_parted = talk, world, Inodes(), False
        self.named = set()

    def row(self, test):
        paths = [arg for form, arg in zip(CALLS[test.call.split(" ")[0]], test.call.split(" ")[1:]) if form == "path"]
        self.named |= set(filter(is_path, paths))
        kinds = [self.world.kind(path) for path in paths]
        reply = self.talk.ask(test.command())
        if reply.endswith(" BadLine") or self.has_parted:
            return Row(test, reply, "", SKIPPED)
        answer = self.world.answer(test.client, test.call) if is_asked(test.call) else NOT_ASKED
        seen = Seen(test.call, reply, self.inodes.told(reply, answer), kinds)
        if seen.word == "open" and kinds == ["dir"]:
            seen.listing = self.talk.ask(test._replace(call=f"list {paths[0]}").command())
        return self.judged(test, seen)

    def judged(self, test, seen):
        is_made = seen.word == "open" and seen.kinds == [None] and self.world.kind(seen.args[1]) is not None
        seen.leaves = is_made and seen.both_refuse()
        if seen.agrees():
            return Row(test, seen.reply, seen.answer, AGREES)
        verdict = cause_of(seen) or DIFFERS
        self.bring_together(test.client, seen, is_made)
        return Row(test, seen.reply, seen.answer, verdict)

    def bring_together(self, client, seen, is_made):
        """Undoes what one of the two did alone, where that can be done."""
        is_alone = seen.kernel == DONE and seen.tree != DONE
        if seen.word == "open" and (seen.leaves or is_alone):
            if is_alone:
                self.world.answer(client, f"close {seen.answer[3:]}")
            if is_made:
                self.world.answer(0, f"unlink {seen.args[1]}")
        elif seen.word == "ruleset" and is_alone:
            self.world.answer(client, "forget")
        elif seen.word not in LOOKS and DONE in (seen.kernel, seen.tree) and seen.answer != NOT_ASKED:
            self.has_parted = True

    def last(self, number):
        """Whether both have the same nodes in the end, by their paths."""
        test = Test(number, 1, "the nodes at the end")
        if self.has_parted:
            return Row(test, "", "", SKIPPED)
        for path in sorted(filter(is_path, self.named | set(self.world.paths()))):
            reply, answer = self.talk.ask(f"stat {path}"), self.world.stat(path)
            seen = Seen(f"stat {path}", reply, self.inodes.told(reply, answer), [self.world.kind(path)])
            if not seen.agrees() and not cause_of(seen):
                return Row(test, f"{path}: {reply}", seen.answer, DIFFERS)
        return Row(test, "", "", AGREES)


def compare(program, folder, case):
    """A row for each command, and one for the nodes at the end."""
    opening, profile = list(opening_calls({"node": case.nodes})), list(profile_calls(case.layers))
    entries = 100 + 3 * len(opening) + len(profile) + 6 * len(case.tests)
    words = [*case.words, "--history", str(min(entries, 1000000))]
    spawns = sum(test.call == "spawn" for test in case.tests)
    with World(folder, min(1 + spawns, 64)) as world, Talk(program, words) as talk:
        for client, call in [*((0, call) for call in opening), *((1, call) for call in profile)]:
            answer = world.answer(client, call)
            if answer.startswith("E"):
                raise Refused(f"{call:.99}: {answer}")
        it = Comparing(talk, world)
        rows = [it.row(test) for test in case.tests]
        return [*rows, it.last(case.tests[-1].number + 1 if case.tests else 1)]
