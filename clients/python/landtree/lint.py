"""Looks in a policy for what its author may not want, and for what Landlock can't do."""

from __future__ import annotations

import os
from dataclasses import dataclass
from typing import Dict, Iterator, List, Optional, Sequence, Set, Tuple

from .commands import Commands, Granted
from .names import is_in
from .options import File
from .places import Mapped
from .policy import Layer, Policy, ancestors
from .policy_text import read_policy
from .reach import Reach, Replacement
from .trace import files_only_read
from .values import MAKE_RIGHTS, Rights, rights_of_level

# What no layer of the levels 1 to 3 restricts (docs/LINUX.md has the whole list).
OPEN = (
    "chmod, chown, utimes and setxattr change files that no layer lets a program write",
    "stat, access and readlink show files that no layer lets a program read",
    "TCP stays open: `exec --deny tcp` closes it, on a kernel of level 4",
    "signals to other processes stay open: `exec --deny signal` stops them, on a kernel of level 6",
    "UDP and UNIX sockets with a path stay open",
)


# How many paths a finding names.
SHOWN = 3
# Directories that others use too, and what a right on all of one reaches.
SHARED = {
    "/proc": (Rights.READ_FILE, "it reads all of /proc, so the command lines of other processes too"),
    "/tmp": (Rights.WRITE_FILE, "it writes what others have in /tmp: a TMPDIR of its own keeps that apart"),
    "/var/tmp": (Rights.WRITE_FILE, "it writes what others have in /var/tmp: a TMPDIR of its own keeps that apart"),
    "/dev/shm": (Rights.WRITE_FILE, "it writes what others share as memory in /dev/shm"),
}


@dataclass(frozen=True)
class Finding:
    """Something in a policy that its author may not want, and the place of it."""

    place: str
    text: str

    def __str__(self) -> str:
        return f"{self.place}: {self.text}"


@dataclass(frozen=True)
class OnlyRead:
    """The files that were there before a run, and that it read or executed and didn't change, as its log has it."""

    log: str
    paths: List[str]


@dataclass(frozen=True)
class Linted:
    """What was found in a policy, and what no layer of any policy can do."""

    findings: List[Finding]
    open: List[str]


def lint(
    file: File, commands: Commands = Commands(), *, seen: Optional[OnlyRead] = None, mapped: Mapped = Mapped()
) -> Linted:
    """Looks through each profile of the policy in a file. A policy with a fault raises `Fault` or `ProgramFault`.

    `seen` is what a run has only read from which the policy was learned. `mapped` says where the policy's paths are on
    this machine.
    """
    policy = read_policy(file)
    findings: List[Finding] = []
    if not policy.profiles:
        findings.append(Finding("the policy", "it has no profile"))
    for name, layers in policy.profiles.items():
        findings += profile_findings(policy, name, layers)
        if layers:
            findings += grant_findings(name, commands.rights(file, name))
            findings += replacement_findings(policy, name, layers)
            findings += own_findings(file, name, Reach.of(layers, mapped.real))
            findings += beyond_findings(name, layers, seen) if seen else []
    return Linted(findings, list(OPEN))


def profile_findings(policy: Policy, name: str, layers: List[Layer]) -> Iterator[Finding]:
    """Yields what the text of a profile shows."""
    place = f"profile {name}"
    if not layers:
        yield Finding(place, "it has no layer, so it denies nothing")
    for number, layer in enumerate(layers, 1):
        yield from layer_findings(policy.abi, f"{place}, layer {number}", layer)
        yield from rule_findings(f"{place}, layer {number}", layer)
    yield from move_findings(place, layers)


def layer_findings(abi: int, place: str, layer: Layer) -> Iterator[Finding]:
    level = rights_of_level(abi)
    if Rights.WRITE_FILE in layer.handled and Rights.TRUNCATE not in layer.handled and Rights.TRUNCATE in level:
        text = "write_file is handled and truncate isn't, so a file that may not be written can be emptied"
        yield Finding(place, text)
    # A layer restricts refer whether it handles it or not.
    left = level & ~layer.handled & ~Rights.REFER & ~Rights.TRUNCATE
    if left:
        yield Finding(place, f"it doesn't handle {left}, so it denies none of these anywhere")
    if layer.handled & ~level:
        yield Finding(place, f"level {abi} doesn't know {layer.handled & ~level}")


def rule_findings(place: str, layer: Layer) -> Iterator[Finding]:
    """Yields the rules whose rights other rules of the layer grant there too."""
    for number, rule in enumerate(layer.rules, 1):
        right, shared = SHARED.get(rule.path, (Rights.NONE, ""))
        if right and right in rule.rights:
            yield Finding(f"{place}, rule {number}", shared)
        others = {rule.path, "/", *ancestors(rule.path)}
        granted = Rights.NONE
        for other_number, other in enumerate(layer.rules, 1):
            # Of two rules on one path the later one is told.
            if other.path in others and (other.path != rule.path or other_number < number):
                granted |= other.rights
        if not rule.rights & ~granted:
            text = f"it adds nothing on {rule.path}: rules on it or above grant {rule.rights}"
            yield Finding(f"{place}, rule {number}", text)


def move_findings(place: str, layers: List[Layer]) -> Iterator[Finding]:
    """Yields whether files can be made and removed somewhere, but not moved between directories."""
    for number, layer in enumerate(layers, 1):
        granted = ~layer.handled
        for rule in layer.rules:
            granted |= rule.rights
        moves = any(it.rights & Rights.REFER for it in layer.rules)
        if granted & MAKE_RIGHTS and Rights.REMOVE_FILE in granted and not moves:
            text = "no rule has refer, so nothing moves from one directory to another (EXDEV), and `mv` copies"
            yield Finding(f"{place}, layer {number}", text)


def grant_findings(name: str, granted: List[Granted]) -> Iterator[Finding]:
    """Yields the files that may be written and also executed."""
    for it in granted:
        writes = it.rights & (Rights.WRITE_FILE | Rights.MAKE_REG)
        if it.kind in ("reg", "dir") and Rights.EXECUTE in it.rights and writes:
            what = "a file in it can be written" if it.kind == "dir" else "it can be written"
            yield Finding(f"profile {name}", f"{it.path}: {what} and then executed")


def replacement_findings(policy: Policy, name: str, layers: Sequence[Layer]) -> Iterator[Finding]:
    """Yields the paths of rules where a program may put something else, on which the next start grants more."""
    reach = Reach.of(layers)
    kinds = {"/": "dir", **{it.path: it.kind for it in policy.nodes}}
    paths = dict.fromkeys(rule.path for layer in layers for rule in layer.rules)
    found: Dict[Tuple[Replacement, Rights], List[str]] = {}
    for path in paths:
        for it in reach.replacements(path, kinds.get(path, "reg")):
            more = reach.rights(path) & ~reach.rights(it.directory)
            if more:
                found.setdefault((it, more), []).append(path)
                break
    for (it, more), those in found.items():
        why = f"{it.directory} grants {it.rights}, so a run may put something else there"
        yield Finding(f"profile {name}", f"{some_of(those)}: {why}, and the next start grants {more} on that")


def own_findings(file: File, name: str, reach: Reach) -> Iterator[Finding]:
    """Yields whether a program may change the policy's own file, by one of its names."""
    if any(reach.may_change(it, "reg") for it in names_of(file)):
        text = "it lets a run change this policy, and the next start uses what the policy says then"
        yield Finding(f"profile {name}", text)


def names_of(file: File) -> Set[str]:
    """Returns the path of a file, and that to which its links lead."""
    path = os.path.abspath(file)
    return {os.path.join(os.path.realpath(os.path.dirname(path)), os.path.basename(path)), os.path.realpath(path)}


def beyond_findings(name: str, layers: Sequence[Layer], seen: OnlyRead) -> Iterator[Finding]:
    """Yields each directory that may be written, with the files in it that a run has only read."""
    reach = Reach.of(layers)
    writable = [rule.path for layer in layers for rule in layer.rules if rule.rights & Rights.WRITE_FILE]
    found: Dict[str, List[str]] = {}
    for path in seen.paths:
        above = path[: path.rindex("/")] or "/"
        if Rights.WRITE_FILE in reach.rights(path):
            above = max((it for it in writable if is_in(path, it)), key=len, default="/")
            if above == path:
                continue  # A rule of its own: it is meant to be written.
        elif (Rights.REMOVE_FILE | Rights.MAKE_REG) & ~reach.rights(above):
            continue
        found.setdefault(above, []).append(path[len(above.rstrip("/")) + 1 :])
    for directory, those in found.items():
        text = f"{directory} may be written, where the run only read {some_of(those)} ({seen.log})"
        yield Finding(f"profile {name}", text)


def some_of(texts: Sequence[str]) -> str:
    first = ", ".join(texts[:SHOWN])
    return first if len(texts) <= SHOWN else f"{first} and {len(texts) - SHOWN:,} more"


def only_read(log: File) -> OnlyRead:
    """Returns what a run has only read. A log that `record` hasn't made is a `Fault`."""
    return OnlyRead(os.fspath(log), files_only_read(log))
