"""Confines this process by an exported profile, and becomes a program.

Nothing is enforced before every file of every rule is open and every ruleset is made. Whatever fails is a `Fault`, and
the program isn't run.
"""

from __future__ import annotations

import contextlib
import errno
import os
import signal
import stat
from dataclasses import dataclass, field
from typing import Dict, Iterator, List, Mapping, NoReturn, Optional, Sequence, Tuple

from . import landlock
from .directories import REAL_KINDS
from .errors import Fault
from .exported import Exported, ExportedLayer, ExportedRule
from .places import Mapped, closing, need_fit, opened_below, telling
from .values import FILE_RIGHTS, Rights

ALSO = Rights.EXECUTE | Rights.READ_FILE | Rights.READ_DIR
# The level of the ABI from which on each word can be denied.
LEVEL_OF_DENIED = {"tcp": 4, "ioctl_dev": 5, "signal": 6, "abstract_unix_socket": 6}
NO_ENTRY = (errno.ENOENT, errno.ENOTDIR)
NOT_CONFINED, NOT_RUN, NOT_THERE = 125, 126, 127


@dataclass
class Prepared:
    """Rulesets that can be enforced, and what of the profile they leave out."""

    rulesets: List[int] = field(default_factory=list)
    told: List[str] = field(default_factory=list)

    def enforce(self) -> None:
        """Makes each ruleset a layer of this thread, the first one oldest."""
        for ruleset in self.rulesets:
            try:
                landlock.restrict_self(ruleset)
            except OSError as error:
                raise Fault(f"the kernel enforces no layer: {error.strerror}") from None
        self.close()

    def close(self) -> None:
        for ruleset in self.rulesets:
            os.close(ruleset)
        self.rulesets.clear()


class Preparing:
    """Makes the rulesets of an exported profile for this machine."""

    def __init__(self, exported: Exported, mapped: Mapped) -> None:
        self.exported = exported
        self.mapped = mapped
        self.level = landlock.level()
        self.prepared = Prepared()

    def all(self) -> Prepared:
        if not self.level:
            raise Fault("the kernel has no Landlock, or it is switched off")
        if not self.exported.layers:
            raise Fault("the profile has no layer")
        try:
            for number, layer in enumerate(self.exported.layers, 1):
                self.make_layer(number, layer)
            if not self.prepared.rulesets:
                raise Fault("the kernel knows no right that the profile handles")
            self.make_denying()
        except BaseException:
            self.prepared.close()
            raise
        return self.prepared

    def make_layer(self, number: int, layer: ExportedLayer) -> None:
        known = Rights(int(layer.handled.value) & landlock.known_rights(self.level) & Rights.ALL.value)
        if known != layer.handled:
            self.lacks(f"layer {number}: the kernel is of level {self.level} and doesn't know {layer.handled & ~known}")
        if not known:
            return
        try:
            ruleset = landlock.create_ruleset(known.value)
        except OSError as error:
            raise Fault(f"layer {number}: the kernel makes no ruleset: {error.strerror}") from None
        self.prepared.rulesets.append(ruleset)
        for rule in layer.rules:
            self.add_rule(ruleset, f"layer {number}: {rule.path}", rule, known)
        for path in self.exported.also:
            with telling(f"layer {number}: {path}"), opened(path) as file:
                add(ruleset, file, ALSO & known & possible_on(file))

    def add_rule(self, ruleset: int, place: str, rule: ExportedRule, known: Rights) -> None:
        """Adds a rule of the profile to a ruleset that handles the `known` rights."""
        real, rest = self.mapped.place(rule.path)
        file_path = os.path.join(real, rest)
        place = place if file_path == rule.path else f"{place} ({file_path})"
        with telling(place):
            try:
                file = self.opened_rule(rule, real, rest)
            except OSError as error:
                if rule.path in self.mapped.optional and error.errno in NO_ENTRY:
                    self.prepared.told.append(f"{place}: it isn't there, so it has no rule")
                    return
                raise
            with closing(file):
                kind = REAL_KINDS.get(stat.S_IFMT(os.fstat(file).st_mode), "of no kind")
                if kind != rule.kind:
                    raise Fault(f"{place}: it is {kind}, and {rule.kind} is expected")
                beyond = rule.rights & ~possible_on(file)
                if beyond:
                    raise Fault(f"{place}: a rule on what is no directory can't have {beyond}")
                add(ruleset, file, rule.rights & known)

    def opened_rule(self, rule: ExportedRule, real: str, rest: str) -> int:
        """Opens the file of a rule, below a real directory, and returns its descriptor.

        No link below the root is followed, nor one on the path of a mapped directory, unless the profile is exported
        so. A link that is the file itself is opened, and not what it leads to.
        """
        if self.exported.follow:
            last = os.O_NOFOLLOW if rule.kind == "sym" else 0
            return os.open(os.path.join(real, rest), os.O_PATH | last)
        if self.mapped.is_mapped(rule.path):
            real, rest = "/", os.path.join(real, rest).strip("/")
        above, file = os.path.split(rest)
        with closing(opened_below(real, above)) as folder:
            return os.open(file, os.O_PATH | os.O_NOFOLLOW, dir_fd=folder) if file else os.dup(folder)

    def make_denying(self) -> None:
        """Makes the layer that denies what isn't a right of files in the policy's levels.

        Each layer denies moves between directories unless a rule allows them. This one has to, so that the profile's
        layers alone decide about moves.
        """
        words = [it for it in LEVEL_OF_DENIED if it in self.exported.deny]
        for word in [it for it in words if LEVEL_OF_DENIED[it] > self.level]:
            self.lacks(f"the kernel is of level {self.level}, and {word} can be denied from {LEVEL_OF_DENIED[word]} on")
            words.remove(word)
        if not words:
            return
        files = Rights.REFER.value | (landlock.IOCTL_DEV if "ioctl_dev" in words else 0)
        network = landlock.BIND_TCP | landlock.CONNECT_TCP if "tcp" in words else 0
        scopes = landlock.SCOPE_SIGNAL if "signal" in words else 0
        scopes |= landlock.SCOPE_ABSTRACT_UNIX_SOCKET if "abstract_unix_socket" in words else 0
        with telling(f"--deny {','.join(words)}"):
            ruleset = landlock.create_ruleset(files, network, scopes)
            self.prepared.rulesets.append(ruleset)
            with opened("/") as root:
                landlock.add_rule(ruleset, Rights.REFER.value, root)

    def lacks(self, text: str) -> None:
        """Takes what the kernel doesn't know: a fault, unless the profile is to be enforced as far as it goes."""
        if not self.exported.best_effort:
            raise Fault(text)
        self.prepared.told.append(text)


def possible_on(file: int) -> Rights:
    """Returns the rights that mean something for an open file."""
    return Rights.ALL if stat.S_ISDIR(os.fstat(file).st_mode) else FILE_RIGHTS


def add(ruleset: int, file: int, rights: Rights) -> None:
    if rights:
        landlock.add_rule(ruleset, rights.value, file)


@contextlib.contextmanager
def opened(path: str) -> Iterator[int]:
    with closing(os.open(path, os.O_PATH)) as file:
        yield file


def prepare(exported: Exported, maps: Sequence[Tuple[str, str]] = (), optional: Sequence[str] = ()) -> Prepared:
    """Makes the rulesets of a profile. `Prepared.enforce` enforces them on the calling thread, for good.

    `maps` has pairs of a policy's path and the real directory that stands for it; other paths are below the export's
    root. A rule's file that isn't there, is of another kind or has a link on its path is a `Fault`, but for a missing
    one of `optional`. So is a kernel that lacks a level, unless the profile is exported with `--best-effort`, and so
    are `maps` and `optional` that fit no rule.
    """
    mapped = Mapped(exported.root, tuple(maps), tuple(optional))
    need_fit(exported, mapped)
    return Preparing(exported, mapped).all()


def program_of(name: str, environment: Mapping[str, str]) -> str:
    """Returns the path of a program, as the PATH has it. It raises `OSError` if none can be executed."""
    search = [""] if "/" in name else environment.get("PATH", os.defpath).split(":")
    paths = [name if "/" in name else os.path.join(it or ".", name) for it in search]
    files = [it for it in paths if os.path.isfile(it)]
    for path in files:
        if os.access(path, os.X_OK):
            return path
    number = errno.EACCES if files else errno.ENOENT
    raise OSError(number, os.strerror(number))


def own_environment() -> Dict[str, str]:
    """Returns the environment of this process, without the variable that Python sets in a plain C locale."""
    environment = dict(os.environ)
    try:
        with open("/proc/self/environ", "rb") as file:
            first = file.read().split(b"\0")
    except OSError:
        return environment
    if not any(it.startswith(b"LC_CTYPE=") for it in first):
        environment.pop("LC_CTYPE", None)
    return environment


def become(words: Sequence[str], environment: Optional[Mapping[str, str]] = None) -> NoReturn:
    """Becomes a program, with the signals as they were before Python. It raises `OSError` if none can be run."""
    environment = own_environment() if environment is None else environment
    for it in ("SIGPIPE", "SIGXFZ", "SIGXFSZ"):
        if hasattr(signal, it):
            signal.signal(getattr(signal, it), signal.SIG_DFL)
    os.execve(program_of(words[0], environment), list(words), environment)
