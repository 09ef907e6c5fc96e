"""Calls that make processes, execute programs, change the working directory, or change what paths mean."""

from __future__ import annotations

from typing import Dict, Optional

from .events import Ask, Event, command, lasting
from .holders import Place, Process
from .lives import CLONES, UNFOLLOWED
from .loaders import USUAL_LOADER, interpreter_of, is_script
from .log import Call, descriptor_of, string_of
from .openings import DIRECTORY, Handler
from .state import Trace
from .tree import Node, Spot, Unknown

# The kernel follows so many interpreters of interpreters.
MOST_INTERPRETERS = 5
# Calls after which paths mean something else, or that name files in no way that a log shows.
UNLIKE = {
    "chroot": "changes what paths mean",
    "pivot_root": "changes what paths mean",
    "mount": "changes what paths mean",
    "move_mount": "changes what paths mean",
    "umount": "changes what paths mean",
    "umount2": "changes what paths mean",
    "open_tree": "opens files by no path that can be followed",
    "open_by_handle_at": "opens a file without its path",
    "io_uring_setup": "makes calls that no log has",
    "setns": "may change what paths mean",
    "swapon": "opens a file that the log doesn't show as opened",
    "acct": "opens a file that the log doesn't show as opened",
    "uselib": "opens a file that the log doesn't show as opened",
    "mq_open": "opens a message queue, on which no policy can have a rule: under a profile it is denied",
}
NAMESPACES = ("CLONE_NEWNS", "CLONE_NEWUSER", "CLONE_NEWPID")


def on_execve(trace: Trace, call: Call, process: Process) -> None:
    path = string_of(call.arguments[0])
    executing(trace, call, process, process.place.node, path)


def on_execveat(trace: Trace, call: Call, process: Process) -> None:
    path = string_of(call.arguments[1])
    if path == "":
        found = descriptor_of(call.arguments[0])
        path = found.path if found and not found.is_deleted else None
    executing(trace, call, process, trace.start_of(call, process, call.arguments[0]), path)


def executing(trace: Trace, call: Call, process: Process, start: Optional[Node], path: Optional[str]) -> None:
    if not call.is_done and call.error not in ("ENOEXEC", "ETXTBSY"):
        return  # Other errors come before the layers are asked.
    program: Optional[Spot] = None
    is_program = True
    for _ in range(MOST_INTERPRETERS):
        spot = executed(trace, call, process, start, path)
        if spot is None or spot.node is None:
            break
        true_path = trace.tree.path_of(spot)
        chain, shown = lasting(trace.tree.chain(spot.directory, spot.node), true_path)
        asks = [Ask("execute", chain), Ask("read_file", chain)]
        expected = "" if shown == true_path else DIRECTORY
        trace.add(Event(call.line, [command("exec", shown, expected=expected)], asks, named=[chain]))
        program = spot if is_program else program
        is_program = is_script(true_path)
        path = interpreter(trace, call, true_path)
        if path is None:
            break
    if call.is_done:
        process.files = process.files.executed()
        process.program = program


def executed(
    trace: Trace, call: Call, process: Process, start: Optional[Node], path: Optional[str]
) -> Optional[Spot]:
    """Returns the file that is executed, or notes that it isn't known."""
    why = ""
    try:
        spot = trace.find(process, start, path) if path else None
    except Unknown as reason:
        spot, why = None, f": {reason}"
    if spot is None or spot.node is None:
        trace.note(call, f"it isn't known which file is executed: {path or call.arguments[0]}{why}")
    return spot


def interpreter(trace: Trace, call: Call, path: str) -> Optional[str]:
    """Returns what the kernel opens beside the program, which the log doesn't show."""
    try:
        return interpreter_of(path)
    except OSError:
        trace.note(call, f"{path} can't be read any more: it is taken for a program whose loader is {USUAL_LOADER}")
        return USUAL_LOADER


def on_chdir(trace: Trace, call: Call, process: Process) -> None:
    if not call.is_done:
        return
    path, why = string_of(call.arguments[0]), ""
    try:
        spot = trace.find(process, process.place.node, path) if path else None
    except Unknown as reason:
        spot, why = None, f": {reason}"
    if spot is None:
        trace.note(call, f"it isn't known which directory chdir names: {call.arguments[0]}{why}")
    process.place.move((spot.node or trace.tree.infer(spot, "dir")) if spot else None, call.line)


def on_fchdir(trace: Trace, call: Call, process: Process) -> None:
    if not call.is_done:
        return
    node = trace.start_of(call, process, call.arguments[0])
    if node is None:
        trace.note(call, f"it isn't known which directory fchdir names: {call.arguments[0]}")
    process.place.move(node, call.line)


def on_clone(trace: Trace, call: Call, process: Process) -> None:
    if call.result is not None and call.result > 0:
        birth = trace.lives.birth_of(call.result)
        if birth is not None and birth.line == call.line:
            trace.process(call.result, call.line)
    if call.is_done and has(call, UNFOLLOWED):
        trace.note(call, f"{call.name} starts a process that strace doesn't follow: nothing that it does is known")
    note_namespaces(trace, call)


def on_unshare(trace: Trace, call: Call, process: Process) -> None:
    note_namespaces(trace, call)
    if call.is_done and (has(call, "CLONE_FS") or has(call, "CLONE_NEWNS")):
        process.place = Place(process.place.node, process.place.since)
    if call.is_done and has(call, "CLONE_FILES"):
        process.files = process.files.copied()


def has(call: Call, flag: str) -> bool:
    return any(flag in it for it in call.arguments)


def note_namespaces(trace: Trace, call: Call) -> None:
    if call.is_done and any(has(call, it) for it in NAMESPACES):
        trace.note(call, f"{call.name} may change what paths mean")


def on_unlike(trace: Trace, call: Call, process: Process) -> None:
    if call.is_done:
        trace.note(call, f"{call.name} {UNLIKE[call.name]}")


HANDLERS: Dict[str, Handler] = {
    "execve": on_execve,
    "execveat": on_execveat,
    "chdir": on_chdir,
    "fchdir": on_fchdir,
    "unshare": on_unshare,
    **{it: on_clone for it in CLONES},
    **{it: on_unlike for it in UNLIKE},
}
