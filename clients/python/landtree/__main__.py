"""The commands of this package: landtree-sandbox record, convert, learn, exec, try, lint."""

from __future__ import annotations

import argparse
import os
import shutil
import sys
from pathlib import Path
from typing import Callable, Dict, List, Optional, Sequence

from .command_line import COMMAND, TAKES_PROGRAM, parsed
from .commands import Commands
from .confine import NOT_CONFINED, NOT_RUN, NOT_THERE, NO_ENTRY, become, own_environment, prepare
from .errors import Fault, LandtreeError, ProgramFault
from .exported import Exported
from .lint import OnlyRead, beyond_findings, lint, names_of, only_read
from .options import ExportOptions, LearnOptions
from .places import Mapped
from .policy_text import read_policy
from .reach import Reach
from .tour import PACKAGE, Tour, TourOptions, ending_note, need_program, shell_status, tour
from .trace import convert, record
from .trace.conversion import names_beside
from .trace.recording import Recording, before_of

FOUND, USAGE = 3, 2


def say(text: str) -> None:
    """Writes a line to standard error. Bytes that steer a terminal are written as \\x and two digits."""
    shown = "".join(it if it.isprintable() else f"\\x{ord(it) & 255:02x}" for it in text.strip().replace("\n", "; "))
    print(f"landtree: {shown}", file=sys.stderr, flush=True)


def told(fault: LandtreeError) -> str:
    return ": ".join(fault.reasons[:2]) if isinstance(fault, ProgramFault) else str(fault)


# ---- the commands, each of which returns its status


def run_record(options: argparse.Namespace) -> int:
    ended = record(options.words, options.to, options.changes, never=options.never, environment=own_environment())
    status = shell_status(ended.status or 0)
    say(f"{ended.log}: the program has ended with status {status}")
    return status


def run_convert(options: argparse.Namespace) -> int:
    nodes, checks = names_beside(options.log, options.nodes, options.checks)
    converted = convert(options.log, whole=options.whole)
    converted.write(nodes, checks, replace=options.replace)
    for line in converted.told():
        say(line)
    say(f"{nodes}, {checks}: {converted.commands} commands, of {converted.calls} calls that ask for rights")
    return 0


def run_exec(options: argparse.Namespace) -> int:
    words, environment = options.words, own_environment()
    if not words:
        raise Fault("a program is needed")
    exported = commands_of(options).export(options.policy, options.profile, export_options(options))
    try:
        prepared = prepare(exported, options.map, options.optional)
    except Fault as fault:
        raise Fault(f"{options.policy}: profile {options.profile}: {fault}") from None
    for line in [] if options.quiet else [*prepared.told, *own_lines(exported, options)]:
        say(line)
    prepared.enforce()
    try:
        become(words, environment)
    except OSError as error:
        say(f"{words[0]}: {error.strerror}")
        return NOT_THERE if error.errno in NO_ENTRY else NOT_RUN


def own_lines(exported: Exported, options: argparse.Namespace) -> List[str]:
    """Returns a line if the program may change the policy, the program landtree or this package."""
    reach = Reach.of(exported.layers, Mapped(exported.root, options.map).real)
    program = shutil.which(options.program) or options.program
    used = [(it, "reg") for file in (options.policy, program) for it in sorted(names_of(file))]
    used += [(str(PACKAGE / "landtree"), "dir")]
    changed = ", ".join(path for path, kind in used if reach.may_change(path, kind))
    return [f"the profile lets the program change {changed}: the next start uses what is there then"] if changed else []


def export_options(options: argparse.Namespace) -> ExportOptions:
    chosen = {it: getattr(options, it) for it in ("also", "checked", "follow", "best_effort")}
    return ExportOptions(root=options.root, deny=options.deny, **chosen)


def run_learn(options: argparse.Namespace) -> int:
    commands = commands_of(options)
    need_program(commands)
    learned = commands.learn(options.files, options.policy, learn_options(options))
    sys.stdout.write(f"{ending_note([status_beside(it) for it in options.files])}{learned.profile}")
    for line in learned.hints.splitlines():
        say(line)
    return 0


def status_beside(checks: str) -> Optional[int]:
    """Returns the status with which a program has ended, if its recording is beside the checks under their name."""
    try:
        return Recording.load(Path(checks).with_suffix(".log")).status
    except Fault:
        return None


def learn_options(options: argparse.Namespace) -> LearnOptions:
    return LearnOptions(options.name, options.never, options.beneath, options.most)


def run_try(options: argparse.Namespace) -> int:
    learning = learn_options(options)
    chosen = TourOptions(Path(options.to), options.changes, learning, options.deny, options.in_place)
    came = tour(options.words, chosen, commands_of(options))
    for line in [*tour_lines(came), *beyond_lines(came, options.name)]:
        say(line)
    if not came.is_well and not options.in_place:
        say("the second run was in a copy of the working directory; --in-place has it in the directory itself")
    return shell_status(came.recorded.status or 0) or (0 if came.is_well else FOUND)


def tour_lines(came: Tour) -> List[str]:
    """Returns what is said of a tour."""
    rules = came.learned.profile.count(".layer.rule]]")
    is_least = came.is_well and came.learned.is_least
    all_grant = "at the start each layer over these rights that lets it run so grants all that this one grants"
    least = f", and {all_grant}" if is_least else ""
    lines = [*came.converted.told(), *(it.strip() for it in came.learned.hints.splitlines())]
    lines += [f"it would be denied now: {it}" for it in came.denied] + came.differ + came.unknown
    first, second = shell_status(came.recorded.status or 0), shell_status(came.status)
    lines.append(f"without a layer the program has ended with status {first}, under the profile with {second}")
    lines.append(f"{came.policy}: the profile has {rules} rules{least}")
    return lines


def beyond_lines(came: Tour, name: str) -> List[str]:
    """Returns a line for each directory that the profile lets the program write, where the run only read files."""
    layers, seen = read_policy(came.policy).profiles[name], read_before(came.recorded.log)
    return [f"{came.policy}: {it}" for it in beyond_findings(name, layers, seen)] if seen else []


def read_before(log: Path) -> Optional[OnlyRead]:
    """Returns what a run has only read, if there is its recording. One from which that isn't known has a line."""
    try:
        return only_read(log) if log.exists() and before_of(log).exists() else None
    except Fault as fault:
        say(f"it isn't known which files a run has only read: {fault}")
        return None


def run_lint(options: argparse.Namespace) -> int:
    log = options.log
    seen = only_read(log) if log else read_before(Path(options.policy).with_name("run.log"))
    mapped = Mapped(options.root or "/", options.map)
    linted = lint(options.policy, commands_of(options), seen=seen, mapped=mapped)
    for finding in linted.findings:
        print(f"{options.policy}: {finding}")
    for line in linted.open:
        print(f"no policy can forbid: {line}")
    return FOUND if linted.findings else 0


def commands_of(options: argparse.Namespace) -> Commands:
    return Commands(options.program)


COMMANDS: Dict[str, Callable[[argparse.Namespace], int]] = {
    "record": run_record,
    "convert": run_convert,
    "learn": run_learn,
    "exec": run_exec,
    "try": run_try,
    "lint": run_lint,
}


def need_safe_modules(command: str) -> None:
    """Raises `Fault` if Python takes modules from the working directory, where a confined program may leave some."""
    here = "" if sys.flags.isolated else os.path.realpath(os.getcwd())
    if here and here in [os.path.realpath(it) for it in sys.path]:
        why = "Python takes modules from the working directory here, and a confined program may leave some there"
        raise Fault(f"{why}: use the command {COMMAND} {command}")


def main(words: Optional[Sequence[str]] = None) -> int:
    words = sys.argv[1:] if words is None else words
    # A program that isn't run because of these words isn't to be taken for one that ended so.
    fails_with = NOT_CONFINED if words[:1] and words[0] in TAKES_PROGRAM else USAGE
    try:
        options = parsed(words)
        need_safe_modules(options.command)
        return COMMANDS[options.command](options)
    except SystemExit as end:
        return 0 if not end.code else fails_with
    except LandtreeError as fault:
        say(told(fault))
    except (OSError, ValueError) as error:
        reason = error.strerror if isinstance(error, OSError) else str(error)
        name = os.fsdecode(error.filename) if isinstance(error, OSError) and error.filename else ""
        say(f"{name}: {reason}" if name else f"{reason}")
    except KeyboardInterrupt:
        say("interrupted")
    return fails_with


if __name__ == "__main__":
    sys.exit(main())
