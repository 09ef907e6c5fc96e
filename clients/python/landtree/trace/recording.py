"""Runs a program under strace, and keeps what was there before."""

from __future__ import annotations

import json
import operator
import os
import re
import subprocess
import time
from dataclasses import dataclass
from pathlib import Path
from typing import Any, Dict, Iterable, List, Mapping, Optional, Sequence

from .. import landlock
from ..confine import program_of
from ..errors import Fault
from ..values import KINDS, Rights
from .files import write_all
from .inventory import Entry, Inventory, inventory_of
from .log_file import MODE, LogFile
from .reader import NARROW, TRACED, read
from .runs import Run, Starter, run_traced
from .state import Trace

FORM = 1
# From 5.3 on strace has --seccomp-bpf, without which a program that opens many files is ten times slower.
OLDEST_STRACE = (5, 3)
VERSION = re.compile(r"strace -- version (\d+)\.(\d+)")
# A name that isn't there is no fault of the recording: these are the shell's words for it.
NOT_THERE, NOT_RUN = 127, 126


@dataclass(frozen=True)
class Recording:
    """A log of strace, and what is known of the moment when its program began.

    `status` is None until the program has ended. `signal` is the last one that asked this process to end meanwhile.
    """

    log: Path
    words: List[str]
    directory: str
    inventory: Inventory
    status: Optional[int] = None
    signal: Optional[int] = None

    @property
    def before(self) -> Path:
        return before_of(self.log)

    def save(self) -> None:
        """Writes what was there before the run beside the log, as one JSON object."""
        entries = {path: [it.kind, it.link, it.key] for path, it in self.inventory.entries.items()}
        data = {"form": FORM, "words": self.words, "directory": self.directory, "status": self.status}
        data.update(began=self.inventory.began, directories=self.inventory.directories, entries=entries)
        write_all([(self.before, json.dumps(data) + "\n")], mode=MODE)

    @classmethod
    def load(cls, log: "os.PathLike[str] | str") -> "Recording":
        """Reads what `save` has written. Anything else is a `Fault`."""
        before = before_of(Path(log))
        try:
            return cls._of(Path(log), json.loads(before.read_text(encoding="ascii")))
        except OSError as error:
            raise Fault(f"{before}: {error.strerror}; `record` makes it beside its log") from None
        except (AttributeError, KeyError, TypeError, ValueError, OverflowError, RecursionError):
            raise Fault(f"{before}: it isn't what `record` writes") from None

    @classmethod
    def _of(cls, log: Path, data: Dict[str, Any]) -> "Recording":
        if data["form"] != FORM:
            raise ValueError
        entries = {path: loaded_entry(*it) for path, it in data["entries"].items()}
        inventory = Inventory([str(it) for it in data["directories"]], float(data["began"]), entries)
        return cls(log, [str(it) for it in data["words"]], str(data["directory"]), inventory, data["status"])


def read_recorded(log: "os.PathLike[str] | str") -> Trace:
    """Returns what the calls of a log ask for that `record` has made. A log that it hasn't, or that was cut, is a
    `Fault`."""
    recording = Recording.load(log)
    try:
        return read(log, recording.inventory, recording.directory)
    except OSError as error:
        raise Fault(f"{os.fspath(log)}: {error.strerror}") from None


def loaded_entry(kind: Any, link: Any, key: Any) -> Entry:
    """Returns an entry as `save` has written it. Anything else is a ValueError or a TypeError."""
    if kind not in KINDS or not isinstance(link, str if kind == "sym" else type(None)):
        raise ValueError
    if key is None:
        return Entry(kind, link)
    device, inode = (operator.index(it) for it in key)
    return Entry(kind, link, (device, inode))


def before_of(log: Path) -> Path:
    return log.with_name(log.name + ".before")


def need_strace(strace: str = "strace") -> None:
    """Raises `Fault` if there is no strace here that can log a program."""
    try:
        told = subprocess.run([strace, "-V"], stdout=subprocess.PIPE, stderr=subprocess.DEVNULL, check=False).stdout
    except OSError as error:
        raise Fault(f"{strace}: {error.strerror}; Debian's package strace has it") from None
    found = VERSION.match(told.decode("utf-8", "replace"))
    if not found:
        raise Fault(f"{strace}: it doesn't say which version it is, and 5.3 or later is needed")
    if (int(found[1]), int(found[2])) < OLDEST_STRACE:
        raise Fault(f"{strace}: version {found[1]}.{found[2]}, and 5.3 or later is needed")


def strace_words(log: "os.PathLike[str] | str", calls: Sequence[str] = TRACED) -> List[str]:
    """Returns the words that log these calls of a program and of all whom it starts."""
    how = ["strace", "-f", "-y", "--seccomp-bpf", "-q", "-s", "64"]
    # A question mark: a strace that doesn't know the name takes it too.
    names = [f"?{it}" if it in NARROW else it for it in calls]
    return [*how, "-e", f"trace={','.join(names)}", "-o", os.fspath(log), "--"]


def record(
    words: Sequence[str],
    log: "os.PathLike[str] | str",
    changes: Iterable["os.PathLike[str] | str"] = (),
    *,
    never: Rights = Rights.NONE,
    environment: Optional[Mapping[str, str]] = None,
    traced: Sequence[str] = TRACED,
) -> Recording:
    """Runs a program with the streams of this process, and returns what was recorded.

    `never` is refer or nothing: refer keeps the program from moving and linking between directories (EXDEV), so that
    it does what it does without. A program that links its input into a directory where it may write needs write_file
    on that input too.

    `log` is a new file, and a file of its name with `.before` is made beside it. Both are there only when the program
    has ended: until then the log has no name, so the program can't replace it. If something else has one of the names
    then, that is a `Fault`. `changes` are the directories whose files the program may change: the working directory is
    always one of them, and so is that of TMPDIR. If nothing can be recorded, this raises `Fault`, the program isn't
    run, and no log is left.

    SIGTERM and SIGHUP go to the program and to all whom it has started. The recording ends when they have ended.
    """
    place = Path(log)
    for file in (place, before_of(place)):
        if os.path.lexists(file):
            raise Fault(f"{file}: it is there already")
    need_strace()
    directory = os.getcwd()
    directories = need_recordable(words, [directory, *changes], environment)
    layer = layer_of(never)
    inventory = inventory_of(directories, now())
    inventory.began = now()
    run = run_logged(place, words, traced, environment=environment, layer=layer)
    ended = Recording(place, list(words), directory, inventory, run.status, run.signal)
    try:
        ended.save()
    except Fault:
        place.unlink()
        raise
    return ended


def run_logged(
    place: Path,
    words: Sequence[str],
    calls: Sequence[str] = TRACED,
    *,
    directory: Optional[str] = None,
    environment: Optional[Mapping[str, str]] = None,
    layer: Optional[int] = None,
) -> Run:
    """Runs a program under strace to its end, and keeps the log of these calls in a new file.

    The file gets its name when the program has ended. `layer` is a ruleset whose layer the program is under.
    """
    with LogFile(place) as log, Starter(layer).ending() as starter:
        how = strace_words(log.path_of(starter.thread), calls)
        run = run_traced([*how, *words], directory=directory, environment=environment, starter=starter)
        log.keep()
    return run


def need_recordable(
    words: Sequence[str], changes: Iterable["os.PathLike[str] | str"], environment: Optional[Mapping[str, str]]
) -> List[str]:
    """Returns the real directories that a program may change. If one or the program isn't there, that is a `Fault`."""
    need_program(words, environment)
    return directories_of(changes, environment)


def layer_of(never: Rights) -> Optional[int]:
    """Returns a ruleset that denies these rights everywhere, or None if there are none."""
    if not never:
        return None
    if never != Rights.REFER:
        raise Fault(f"{never}: of all rights refer alone can be kept from a program while it is recorded")
    try:
        return landlock.create_ruleset(never.value)
    except OSError as error:
        raise Fault(f"the kernel makes no ruleset for refer: {error.strerror}") from None


def now() -> float:
    """Returns the time by the clock that dates files."""
    return time.clock_gettime(getattr(time, "CLOCK_REALTIME_COARSE", 5))


def directories_of(
    directories: Iterable["os.PathLike[str] | str"], environment: Optional[Mapping[str, str]]
) -> List[str]:
    """Returns real paths of directories, and of that for temporary files, none of them twice."""
    temporary = (os.environ if environment is None else environment).get("TMPDIR")
    named = [*directories, *([temporary] if temporary else [])]
    found: List[str] = []
    for it in named:
        path = os.path.realpath(it)
        if not os.path.isdir(path):
            raise Fault(f"{os.fspath(it)}: no directory")
        if path not in found:
            found.append(path)
    return found


def need_program(words: Sequence[str], environment: Optional[Mapping[str, str]]) -> None:
    """Raises `Fault` if no file has the program's name, so that nothing is recorded of it."""
    if not words:
        raise Fault("a program is needed")
    try:
        program_of(words[0], os.environ if environment is None else environment)
    except OSError:
        raise Fault(f"{words[0]}: no such program") from None
