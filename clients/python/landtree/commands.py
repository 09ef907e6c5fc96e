"""The commands of the program, with their results as objects.

    for it in Commands().rights("policy.toml", "build", "/src/main.c"):
        print(it.path, it.rights)
"""

from __future__ import annotations

import json
import os
import re
import subprocess
from dataclasses import dataclass, field
from typing import Any, Dict, Iterable, List, Optional

from .errors import LandtreeError, ProgramFault, TimedOut
from .exported import Exported, exported_of
from .options import ExportOptions, File, LearnOptions
from .values import TREE_NODES, Rights

ASKED = re.compile(r"  +asked on (\S+) \((at|old|new)\): (\S+)")
CHANGE = re.compile(r"  +no layer would deny it with layer (\d+)(?: and a rule on (\S+)| handling): (\S+)")
VERDICT = re.compile(r"(legal|illegal at|bad line) (\d+)")
LEAST = re.compile("# least\\b")


@dataclass(frozen=True)
class Granted:
    """The rights that each layer of a profile grants on a path. `kind` is `missing` if nothing is there.

    For a missing path there is what a new file and a new directory there would be granted: none where its directory is
    missing too.
    """

    path: str
    kind: str
    rights: Rights
    new_file: Rights = Rights.NONE
    new_dir: Rights = Rights.NONE


@dataclass(frozen=True)
class Asked:
    """Rights that a call asks for on a path; `place` is "at", "old" or "new"."""

    path: str
    place: str
    rights: Rights


@dataclass(frozen=True)
class Change:
    """Rights to add to a layer: to a rule on a path, or to what it handles if the path is None."""

    layer: int
    path: Optional[str]
    rights: Rights


@dataclass(frozen=True)
class Why:
    """Why a call was answered so. With all `changes` no layer denies it; there are none if no layer does, or if no
    change that the tree accepts helps.

    `text` is all that the program has written.
    """

    call: str
    answered: str
    asked: List[Asked]
    changes: List[Change]
    text: str


@dataclass(frozen=True)
class Failure:
    """A test that failed: its file, its line, counted from 1, its command, the replies, and its section's name."""

    file: str
    line: int
    command: str
    expected: str
    got: str
    section: str = ""


@dataclass(frozen=True)
class Checked:
    """How many tests passed and failed. `told` is what the program has written beside that."""

    passed: int
    failed: int
    failures: List[Failure]
    told: str = ""

    @property
    def is_well(self) -> bool:
        return self.passed > 0 and self.failed == 0 and not self.told


@dataclass(frozen=True)
class Audited:
    """What an audit says: `legal`, `illegal at` or `bad line`, and the number of entries, of the entry or the line."""

    verdict: str
    number: int

    @property
    def is_legal(self) -> bool:
        return self.verdict == "legal"


@dataclass(frozen=True)
class Learned:
    """A learned profile, as text to be put after the nodes of a policy, and the program's hints on it."""

    profile: str
    hints: str

    @property
    def is_least(self) -> bool:
        """Says whether each layer over these rights that lets the checks pass grants at the start all this one does."""
        return LEAST.match(self.profile) is not None


@dataclass(frozen=True)
class Commands:
    """The program, by its path or as the PATH has it. `timeout` is how many seconds a command may last.

    Each method runs the program once. It raises `ProgramFault` if the program ends with a fault, with its status, its
    line and its hints, and `TimedOut`. An operating system's error, as of a program that isn't there, is an `OSError`.
    """

    program: File = "landtree"
    timeout: Optional[float] = None
    is_explaining: bool = field(default=True)

    def rights(self, policy: File, profile: str, *paths: str, nodes: int = 4_096) -> List[Granted]:
        """Returns what a profile grants on these paths, or on each node of the policy."""
        words = [f"--policy={os.fspath(policy)}", f"--profile={profile}", f"--nodes={nodes}", "--as=json", "--", *paths]
        return [granted_of(json.loads(line)) for line in self.run("rights", *words).splitlines()]

    def why(self, policy: File, profile: str, command: str) -> Why:
        """Explains a command under a profile, in a new tree of the policy."""
        return why_of(self.run("why", f"--policy={os.fspath(policy)}", f"--profile={profile}", "--", command))

    def why_entry(self, history: File, entry: int) -> Why:
        """Explains an entry of a saved history. Entries count from 1."""
        return why_of(self.run("why", "--", os.fspath(history), str(entry)))

    def check(
        self, files: Iterable[File], policy: Optional[File] = None, profile: Optional[str] = None, steps: bool = False
    ) -> Checked:
        """Runs files of checks under a profile, no layer or no policy, or schedules. No test that fails raises."""
        words = ["--schedule"] if steps else []
        words += [f"--policy={os.fspath(policy)}"] if policy is not None else []
        words += [f"--profile={profile}"] if profile is not None else []
        ended = self.ended("check", "--as=json", *words, "--", *(os.fspath(it) for it in files))
        if ended.returncode not in (0, 3) or not ended.stdout:
            raise fault_of(ended)
        return checked_of(ended.stdout, ended.stderr if ended.returncode else "")

    def audit(self, history: File) -> Audited:
        """Judges a saved history."""
        ended = self.ended("audit", "--", os.fspath(history))
        verdict = VERDICT.fullmatch(ended.stdout.strip())
        if ended.returncode not in (0, 3) or not verdict:
            raise fault_of(ended)
        return Audited(verdict[1], int(verdict[2]))

    def export(self, policy: File, profile: str, options: ExportOptions = ExportOptions()) -> Exported:
        """Returns a profile for the kernel. One without layers is a fault."""
        words = [f"--policy={os.fspath(policy)}", f"--profile={profile}", "--as=json", *options.words()]
        return exported_of(self.run("export", *words))

    def learn(self, files: Iterable[File], nodes: File, options: LearnOptions = LearnOptions()) -> Learned:
        """Returns a profile, with no right to spare, under which all tests of files of checks pass on a policy's nodes.

        Raises `ProgramFault` if there is none. A test that isn't answered as it says has one line there.
        """
        how = [f"--policy={os.fspath(nodes)}", f"--nodes={TREE_NODES}"]
        return self.learned(*how, *options.words(), "--", *(os.fspath(it) for it in files))

    def learn_history(self, history: File, options: LearnOptions = LearnOptions()) -> Learned:
        """Returns a profile, with no right to spare, under which the calls of a saved history get the same replies."""
        return self.learned(f"--history={os.fspath(history)}", *options.words())

    def learned(self, *words: str) -> Learned:
        ended = self.ended("learn", *words)
        if ended.returncode:
            raise unlearned_of(ended)
        return Learned(ended.stdout, ended.stderr)

    def version(self) -> str:
        return self.ended("--version").stdout.strip()

    def run(self, command: str, *words: str) -> str:
        """Returns what a command writes to standard output, if it ends well."""
        ended = self.ended(command, *words)
        if ended.returncode:
            raise fault_of(ended)
        return ended.stdout

    def ended(self, command: str, *words: str) -> "subprocess.CompletedProcess[str]":
        hints = ["--explain" if self.is_explaining else "--terse"] if command != "--version" else []
        call = [os.fspath(self.program), command, *hints, *words]
        try:
            return subprocess.run(
                call,
                stdin=subprocess.DEVNULL,
                capture_output=True,
                check=False,
                encoding="utf-8",
                errors="surrogateescape",
                timeout=self.timeout,
            )
        except subprocess.TimeoutExpired:
            raise TimedOut(f"{command}: no end within {self.timeout} seconds") from None


def fault_of(ended: "subprocess.CompletedProcess[str]") -> LandtreeError:
    """Returns the error for a command that ended with a fault.

    Its line is the one of standard error that begins with `landtree: `, or else the first. If there are hints alone,
    which are indented, it is the first line of standard output. The hints are all other lines of the same stream, but
    all of standard error in the last case.
    """
    lines = ended.stderr.splitlines()
    faults = [place for place, it in enumerate(lines) if it.startswith("landtree: ")]
    if faults:
        line = lines.pop(faults[0])
    elif lines and not lines[0].startswith("  "):
        line = lines.pop(0)
    else:
        line, *more = ended.stdout.splitlines() or [""]
        lines = lines or more
    return ProgramFault(ended.returncode, line, "\n".join(lines))


def granted_of(it: Dict[str, Any]) -> Granted:
    """Returns what an object of `rights --as json` says."""
    new = {one["kind"]: rights_of(one) for one in it.get("new", [])}
    none = Rights.NONE
    return Granted(it["path"], it["kind"] or "missing", rights_of(it), new.get("reg", none), new.get("dir", none))


def rights_of(it: Dict[str, Any]) -> Rights:
    return Rights.parse(",".join(it.get("rights", [])) or "none")


def why_of(text: str) -> Why:
    lines = text.splitlines()
    call = next((it for it in lines if not it.startswith("  ")), "")
    answered = next((it[len("answered ") :] for it in lines if it.startswith("answered ")), "")
    asked = [Asked(it[1], it[2], Rights.parse(it[3])) for it in map(ASKED.fullmatch, lines) if it]
    changes = [Change(int(it[1]), it[2], Rights.parse(it[3])) for it in map(CHANGE.fullmatch, lines) if it]
    return Why(call, answered, asked, changes, text)


def checked_of(report: str, told: str) -> Checked:
    """Returns what a report says: an object for each test, and one with the sums."""
    *tests, sums = [json.loads(line) for line in report.splitlines()]
    failures = [
        Failure(it["file"], it["line"], it["command"], it["expected"], it["got"], it.get("section", ""))
        for it in tests
        if not it["passes"]
    ]
    return Checked(sums["passed"], sums["failed"], failures, told)


def unlearned_of(ended: "subprocess.CompletedProcess[str]") -> LandtreeError:
    """Returns the error for a profile that wasn't learned. The first test that failed is one line.

    A reason before the line `landtree: command line`, as that there are too many rules, is the error's line too.
    """
    lines = ended.stderr.splitlines()
    if len(lines) > 2 and lines[1].startswith("expected ") and lines[2].startswith("got "):
        return ProgramFault(ended.returncode, f"{lines[0]}: {lines[1]}, {lines[2]}", "\n".join(lines[3:]))
    if lines[1:] == ["landtree: command line"]:
        return ProgramFault(ended.returncode, *lines)
    return fault_of(ended)
