"""Calls that open files, and those on descriptors."""

from __future__ import annotations

import posixpath
import re
from typing import Callable, Dict, List, Optional, Set

from .events import Ask, Command, Event, command, lasting
from .holders import Opened, Process
from .log import Call, Descriptor, descriptor_of, string_of
from .state import Trace, returned_of
from .tree import Node, Spot, Unknown

Handler = Callable[[Trace, Call, Process], None]
# The reply to an open of a directory, which is refused only after the layers were asked.
DIRECTORY = "refused 6 EISDIR"
SPECIAL = "refused 18 ENXIO"


def mode_of(flags: Set[str]) -> str:
    """Returns the letters for reading and writing that an open has."""
    reads, writes = flags & {"O_RDONLY", "O_RDWR"}, flags & {"O_WRONLY", "O_RDWR"}
    return ("r" if reads else "") + ("w" if writes else "")


def asked_of(mode: str) -> List[str]:
    rights = {"r": "read_file", "w": "write_file", "t": "truncate"}
    return [rights[it] for it in mode if it in rights]


def on_open(trace: Trace, call: Call, process: Process) -> None:
    opening(trace, call, process, (None, call.arguments[0]), flags_of(call.arguments[1]))


def on_creat(trace: Trace, call: Call, process: Process) -> None:
    opening(trace, call, process, (None, call.arguments[0]), {"O_WRONLY", "O_CREAT", "O_TRUNC"})


def on_openat(trace: Trace, call: Call, process: Process) -> None:
    opening(trace, call, process, (call.arguments[0], call.arguments[1]), flags_of(call.arguments[2]))


def on_openat2(trace: Trace, call: Call, process: Process) -> None:
    found = re.search(r"flags=([^,}]+)", call.arguments[2])
    flags = flags_of(found[1] if found else "O_RDONLY")
    # A path of RESOLVE_IN_ROOT begins at the descriptor, whatever it is.
    place = (call.arguments[0], "" if "RESOLVE_IN_ROOT" in call.arguments[2] else call.arguments[1])
    opening(trace, call, process, place, flags)


def flags_of(text: str) -> Set[str]:
    return set(text.split("|"))


def opening(
    trace: Trace, call: Call, process: Process, place: "tuple[Optional[str], str]", flags: Set[str]
) -> None:
    """Takes an open of a path from a directory (`place`), by these flags.

    What strace says of the new descriptor is taken rather than where the path seems to lead.
    """
    if not trace.passed(call):
        return
    returned = returned_of(call)
    if returned is not None and is_no_file(returned):
        forget(call, process)  # A pipe or a socket: nothing is asked.
        return
    guess, why = guessed(trace, call, process, place, flags)
    path = true_path(returned, flags)
    true = trace.at_path(path) if path else None
    if guess is None and true is None:
        trace.note(call, f"it isn't known which file {call.name} has opened: {', '.join(call.arguments[:2])}{why}")
        forget(call, process)
    elif guess is None or path is None or trace.tree.path_of(guess) == path:
        open_spot(trace, call, process, guess or true, flags)
    else:
        expected = trace.tree.path_of(guess)
        if not (path.startswith("/proc/") and expected.startswith("/proc/")):
            trace.note(call, f"it has opened {path}, where {expected} was expected")
        open_spot(trace, call, process, true, flags)


def is_no_file(returned: Descriptor) -> bool:
    """Says whether an open has found a pipe, a socket or a file of no file system, as by a link of /proc."""
    return returned.path is None or returned.path.startswith("/memfd:")


def true_path(returned: Optional[Descriptor], flags: Set[str]) -> Optional[str]:
    """Returns the path of what was opened, if strace shows it: of a file without a name that of its directory."""
    if returned is None or returned.path is None:
        return None
    if "O_TMPFILE" in flags:
        return posixpath.dirname(returned.path)
    return None if returned.is_deleted else returned.path


def guessed(
    trace: Trace, call: Call, process: Process, place: "tuple[Optional[str], str]", flags: Set[str]
) -> "tuple[Optional[Spot], str]":
    """Returns where a path seems to lead, or why that isn't known."""
    path = string_of(place[1]) if place[1] else None
    start = trace.start_of(call, process, place[0])
    try:
        return (trace.find(process, start, path, "O_NOFOLLOW" not in flags) if path is not None else None), ""
    except Unknown as reason:
        return None, f": {reason}"


def open_spot(trace: Trace, call: Call, process: Process, spot: Optional[Spot], flags: Set[str]) -> None:
    """Takes an open of what is at a spot, or of a file that it makes there."""
    if spot is None:
        forget(call, process)
        return
    if "O_PATH" in flags:
        remember(call, process, Opened(trace.tree.path_of(spot), spot.node, spot=spot), flags)
        return
    if "O_TMPFILE" in flags:
        open_nameless(trace, call, process, spot, flags)
        return
    if spot.node is None and not call.is_done:
        return  # It could not be made, as on a full disk.
    is_made = spot.node is None and "O_CREAT" in flags
    node = spot.node or (Node("reg") if is_made else trace.tree.infer(spot, "dir" if "O_DIRECTORY" in flags else "reg"))
    if is_made:
        trace.tree.put(spot.directory, spot.name, node)
    path = trace.tree.path_of(Spot(spot.directory, spot.name, node))
    chain, shown = lasting(trace.tree.chain(spot.directory, node), path)
    mode = mode_of(flags)
    is_cut = "O_TRUNC" in flags and node.kind == "reg"
    mode += ("t" if is_cut else "") + ("cx" if is_made and "O_EXCL" in flags else "c" if is_made else "")
    # A file that is made has nothing to cut, so that isn't asked for. The next time it will be.
    rights = ["read_dir"] if node.kind == "dir" else asked_of(mode.replace("t", "") if is_made else mode)
    commands = opening_commands(node.kind, mode, shown, shown == path)
    event = Event(call.line, commands, [Ask(it, chain) for it in rights], named=[chain])
    if is_made:
        above = trace.tree.chain(spot.directory)
        event.asks.append(Ask("make_reg", above))
        event.again = [Ask("truncate", above)] if is_cut and "O_EXCL" not in flags else []
        event.made, event.changed = node, [node]
    trace.add(event)
    remember(call, process, Opened(path, node, chain, event, Spot(spot.directory, spot.name, node)), flags)


def opening_commands(kind: str, mode: str, path: str, is_lasting: bool) -> List[Command]:
    """Returns the commands of an open; `is_lasting` says whether the path is that of the file, and not of /proc."""
    if kind == "dir":
        return [command("list", path)]
    if not is_lasting:
        return [command("open", mode, path, expected=DIRECTORY)]
    if kind != "reg":
        return [command("open", mode, path, expected=SPECIAL)]
    return [command("open", mode, path, expected="fd 0"), command("close", "0")]


def open_nameless(trace: Trace, call: Call, process: Process, spot: Spot, flags: Set[str]) -> None:
    """Takes an open by O_TMPFILE, which asks for its rights on the directory."""
    chain = trace.tree.chain(spot.directory, spot.node)
    path, mode = trace.tree.path_of(spot), mode_of(flags)
    asks = [Ask(right, chain) for right in asked_of(mode)]
    event = trace.add(Event(call.line, [command("open", mode, path, expected=DIRECTORY)], asks, named=[chain]))
    remember(call, process, Opened(path, Node("reg"), chain, event), flags)


def remember(call: Call, process: Process, opened: Opened, flags: Set[str]) -> None:
    if call.is_done and call.result is not None:
        process.files.put(call.result, opened, "O_CLOEXEC" in flags)


def forget(call: Call, process: Process) -> None:
    """Has the new descriptor stand for nothing that is known."""
    if call.is_done and call.result is not None:
        process.files.close(call.result)


def on_ftruncate(trace: Trace, call: Call, process: Process) -> None:
    """Takes a cut by a descriptor, which the kernel allows or denies by what the opening has found."""
    found = descriptor_of(call.arguments[0])
    if not call.is_done or found is None or found.number is None:
        return
    if found.path is None or found.path.startswith("/memfd:"):
        return
    opened = process.files.opened.get(found.number)
    if opened is None:
        # One that was open before the program began keeps no layer. One that came over a socket may.
        trace.note(call, f"it isn't known how descriptor {found.number} of {found.path} was opened, which is cut here")
    elif opened.event and not any(it.right == "truncate" for it in opened.event.asks):
        is_named = opened.node is not None and opened.chain[-1:] == (opened.node,) and opened.node.kind == "reg"
        expected = "" if is_named else DIRECTORY
        path = lasting(opened.chain, opened.path)[1] if is_named else opened.path
        opened.event.asks.append(Ask("truncate", opened.chain))
        opened.event.commands.append(command("truncate", path, "0", expected=expected))


def on_copy(trace: Trace, call: Call, process: Process) -> None:
    """Takes a copy of a descriptor: dup, dup2 and dup3."""
    copying(call, process, "O_CLOEXEC" in "".join(call.arguments[2:]))


def on_fcntl(trace: Trace, call: Call, process: Process) -> None:
    """Takes a copy of a descriptor by F_DUPFD, and what F_SETFD says of its end."""
    word, found = call.arguments[1], descriptor_of(call.arguments[0])
    if word.startswith("F_DUPFD"):
        copying(call, process, word == "F_DUPFD_CLOEXEC")
    elif word == "F_SETFD" and call.is_done and found is not None and found.number in process.files.opened:
        process.files.mark(found.number or 0, "FD_CLOEXEC" in call.arguments[2])


def copying(call: Call, process: Process, is_closing: bool) -> None:
    found = descriptor_of(call.arguments[0])
    if call.is_done and found is not None and found.number is not None and call.result is not None:
        if found.number != call.result:
            process.files.put(call.result, process.files.opened.get(found.number), is_closing)


def on_close(trace: Trace, call: Call, process: Process) -> None:
    found = descriptor_of(call.arguments[0])
    if found is not None and found.number is not None:
        process.files.close(found.number)


def on_close_range(trace: Trace, call: Call, process: Process) -> None:
    if not call.is_done:
        return
    if "UNSHARE" in call.arguments[2]:
        process.files = process.files.copied()
    first, last = (int(it, 0) for it in call.arguments[:2])
    for number in [it for it in process.files.opened if first <= it <= last]:
        if "CLOEXEC" in call.arguments[2]:
            process.files.mark(number, True)
        else:
            process.files.close(number)


HANDLERS: Dict[str, Handler] = {
    "open": on_open,
    "creat": on_creat,
    "openat": on_openat,
    "openat2": on_openat2,
    "ftruncate": on_ftruncate,
    "ftruncate64": on_ftruncate,
    "dup": on_copy,
    "dup2": on_copy,
    "dup3": on_copy,
    "fcntl": on_fcntl,
    "fcntl64": on_fcntl,
    "close": on_close,
    "close_range": on_close_range,
}
