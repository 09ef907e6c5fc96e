"""Records a program, learns its profile, and runs it once more under this profile.

The second run is made in a copy of the working directory, as that was before the first one. So it finds what the first
one found, and changes nothing of yours. Paths in that directory, as words of the program or values of variables, are
those of the copy then.
"""

from __future__ import annotations

import contextlib
import os
import shutil
import signal
import subprocess
import sys
import tempfile
from dataclasses import dataclass
from pathlib import Path
from typing import List, Optional, Sequence, Tuple

from .commands import Commands, Learned
from .confine import own_environment
from .denials import ENFORCED, denied_of, refused, traced_calls
from .errors import Fault, ProgramFault
from .exported import DENIABLE
from .names import encoded, is_in
from .options import LearnOptions
from .outputs import Input, differences, kept
from .trace.conversion import Converted, convert
from .trace.files import write_all
from .trace.recording import Recording, need_recordable, need_strace, record, strace_words
from .trace.runs import run_traced
from .values import Rights

PACKAGE = Path(__file__).resolve().parent.parent
# Runs this very package in another directory, without a change to the environment.
ENTRY = "import sys; sys.path.append(sys.argv.pop(1)); from landtree.__main__ import main; sys.exit(main())"
MOST_FILES, MOST_BYTES = 100_000, 1 << 30


@dataclass(frozen=True)
class Tour:
    """What came of it: both statuses, the policy's file and profile, the calls that the layers have denied, the streams
    to which both runs have written differently, and those of which this isn't known."""

    recorded: Recording
    converted: Converted
    learned: Learned
    policy: Path
    status: int
    denied: List[str]
    differ: List[str]
    unknown: List[str]

    @property
    def is_well(self) -> bool:
        """Says whether the program ran under the profile as it did before, as far as this is known."""
        return self.status == self.recorded.status and not self.denied and not self.differ


@dataclass(frozen=True)
class TourOptions:
    """`folder` is made for all that comes of the tour. `changes` are directories that the program may change, beside
    the working directory. `in_place` has the second run where the first one was."""

    folder: Path
    changes: Sequence[str] = ()
    learn: LearnOptions = LearnOptions()
    deny: Sequence[str] = ()
    in_place: bool = False


def tour(words: Sequence[str], options: TourOptions, commands: Commands = Commands()) -> Tour:
    """Makes the tour of a program. What can't be done is a `Fault`, before the program is run if that can be."""
    here = os.getcwd()
    need_program(commands)
    need_strace()
    need_fit(options, here)
    need_recordable(words, [here, *options.changes], own_environment())
    with tempfile.TemporaryDirectory(prefix="landtree-", dir=outside(here)) as name:
        room, typed = Path(name).resolve(), Input()
        copy = None if options.in_place else copied(here, room / "copy")
        folder = new_folder(options.folder)
        with kept(room, "first") as first:
            recorded = recorded_in(folder, words, options)
        converted = convert(recorded.log)
        learned = learn(folder, converted, options.learn, commands)
        policy = folder / "policy.toml"
        profile = f"{ending_note([recorded.status])}{learned.profile}"
        write_all([(policy, f"{converted.nodes}\n{profile}")])
        typed.rewind()
        confined = folder / "confined.log"
        with kept(room, "second") as second:
            status = run_confined(words, policy, options, commands, (confined, copy))
        there = os.fspath(copy) if copy else here
        denied = denied_of(confined, refused(recorded.log), lambda text: moved(text, there, here))
        back = (os.fsencode(there), os.fsencode(here))
        differ, unknown = differences(first, second, back)
    if differ and typed.is_used_up():
        differ.append("the first run may have read its input, so that the second one had the rest of it alone")
    return Tour(recorded, converted, learned, policy, status, denied, differ, unknown)


def ending_note(statuses: Sequence[Optional[int]]) -> str:
    """Returns a comment for a profile that is learned from runs of which some have failed, or nothing."""
    failed = dict.fromkeys(shell_status(it) for it in statuses if it)
    return "".join(f"# learned from a run that ended with {it}\n" for it in failed)


def shell_status(status: int) -> int:
    """Returns a status as a shell has it, also of a program that a signal has ended."""
    return status if status >= 0 else 128 - status


def need_program(commands: Commands) -> None:
    try:
        commands.version()
    except OSError as error:
        raise Fault(f"{os.fspath(commands.program)}: {error.strerror}") from None


def need_fit(options: TourOptions, here: str) -> None:
    """Raises `Fault` for options and names of directories that would fail after the program was run."""
    options.learn.need_fit()
    for it in options.deny:
        if it not in DENIABLE:
            raise Fault(f"--deny: {it!r}: some of {', '.join(DENIABLE)} are expected")
    if os.path.lexists(options.folder):
        raise Fault(f"{options.folder}: it is there already; --to names another directory")
    folder = os.path.realpath(options.folder)
    if not is_clean(folder):
        raise Fault(f"{folder}: its path isn't UTF-8, or has a control character; --to names another directory")
    if "=/" in here and not options.in_place:
        raise Fault(f"{here}: no copy can stand for a path with =/; --in-place needs none")


def is_clean(path: str) -> bool:
    """Says whether the program takes a file with this path: its comments have the names of files of checks."""
    try:
        return all(byte >= 0x20 and byte != 0x7F for byte in path.encode("utf-8"))
    except UnicodeEncodeError:
        return False


def new_folder(folder: Path) -> Path:
    try:
        folder.mkdir()
    except OSError as error:
        raise Fault(f"{folder}: {error.strerror}") from None
    return folder.resolve()


def recorded_in(folder: Path, words: Sequence[str], options: TourOptions) -> Recording:
    """Records the program into a new folder, which is removed if nothing is recorded."""
    try:
        never = Rights.of(options.learn.never) & Rights.REFER
        log, environment, traced = folder / "run.log", own_environment(), traced_calls(options.deny)
        recorded = record(words, log, options.changes, never=never, environment=environment, traced=traced)
    except BaseException:
        with contextlib.suppress(OSError):  # It isn't empty.
            folder.rmdir()
        raise
    if recorded.signal is not None:
        raise Fault(f"{recorded.log}: {signal.Signals(recorded.signal).name} came, so no profile is learned")
    return recorded


def outside(directory: str) -> str:
    """Returns a place for temporary files that isn't in a directory."""
    for place in (tempfile.gettempdir(), "/tmp", "/var/tmp"):
        if os.path.isdir(place) and "=/" not in place and not is_in(os.path.realpath(place), directory):
            return place
    raise Fault(f"{directory}: there is no place for a copy outside of it; --in-place needs none")


def moved(text: str, directory: str, copy: str) -> str:
    """Returns a path in a directory as that in its copy. Any other text stays as it is."""
    return f"{copy}{text[len(directory):]}" if is_in(text, directory) else text


def copied(directory: str, copy: Path) -> Path:
    """Copies a directory as it is, with times and links."""
    need_small(directory)
    words = ["cp", "-a", "--reflink=auto", "--", directory, os.fspath(copy)]
    ended = subprocess.run(words, stderr=subprocess.PIPE, check=False)
    if ended.returncode:
        line = ended.stderr.decode("utf-8", "replace").splitlines()[:1]
        raise Fault(f"{directory}: it can't be copied; --in-place needs no copy: {''.join(line)}")
    return copy


def need_small(directory: str) -> None:
    """Raises `Fault` if a directory is too large to be copied for a trial."""
    files = total = 0
    for folder, _, names in os.walk(directory):
        files += 1 + len(names)
        paths = (os.path.join(folder, it) for it in names)
        total += sum(os.lstat(it).st_size for it in paths if os.path.lexists(it))
        if files > MOST_FILES or total > MOST_BYTES:
            size = f"over {MOST_FILES:,} files or {MOST_BYTES:,} bytes"
            raise Fault(f"{directory}: it has {size}, too many for a copy; --in-place needs none")


def learn(folder: Path, converted: Converted, options: LearnOptions, commands: Commands) -> Learned:
    nodes, checks = folder / "nodes.toml", folder / "run.check"
    converted.write(nodes, checks)
    try:
        return commands.learn([checks], nodes, options)
    except ProgramFault as fault:
        again = f"`landtree learn {checks} --policy {nodes}` learns from this run again"
        raise Fault(f"{checks}: no profile is learned: {'; '.join([*fault.reasons, again])}") from None


def run_confined(
    words: Sequence[str], policy: Path, options: TourOptions, commands: Commands, places: Tuple[Path, Optional[Path]]
) -> int:
    """Runs the program under the learned profile, and logs it. `places` are the log and the copy in which it is run."""
    log, copy = places
    here = os.getcwd()
    there = os.fspath(copy or here)
    program = shutil.which(commands.program) or os.fspath(commands.program)
    call = [sys.executable, "-I", "-S", "-c", ENTRY, str(PACKAGE), "exec", f"--program={os.path.abspath(program)}"]
    call += ["--quiet", f"--policy={policy}", f"--profile={options.learn.name}"]
    layers = commands.export(policy, options.learn.name).layers
    paths = [rule.path for layer in layers for rule in layer.rules]
    call += [f"--optional={it}" for it in paths]
    call += [f"--deny={','.join(options.deny)}"] if options.deny else []
    call += [f"--map={encoded(here)}={copy}"] if copy and any(is_in(it, encoded(here)) for it in paths) else []
    traced = [*traced_calls(options.deny), ENFORCED]
    all_words = [*strace_words(log, traced), *call, "--", *(moved(it, here, there) for it in words)]
    environment = {name: moved(value, here, there) for name, value in own_environment().items()}
    return run_traced(all_words, directory=there, environment=environment).status
