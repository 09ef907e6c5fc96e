"""Calls that make files, remove, cut and move them."""

from __future__ import annotations

import re
from typing import Dict, List, Optional, Tuple

from .events import Ask, Event, Move, command
from .holders import Process
from .log import Call, string_of
from .openings import Handler
from .state import Trace
from .tree import Chain, Node, Spot, Unknown

NOT_EMPTY = "refused 7 ENOTEMPTY"
KIND_OF_MODE = {"S_IFIFO": "fifo", "S_IFSOCK": "sock", "S_IFCHR": "char", "S_IFBLK": "block"}
# A directory from which a path begins, as the call names it (None is the working directory), and the path.
Named = Tuple[Optional[str], str]


def find(trace: Trace, call: Call, process: Process, place: Named, follow: bool = False) -> Optional[Spot]:
    """Returns the spot that a call names, or notes that it isn't known."""
    path = string_of(place[1])
    start = trace.start_of(call, process, place[0])
    if path is not None and not follow:
        path = path.rstrip("/") or "/"  # A slash at the end says that it is a directory: no link is followed.
    why = ""
    try:
        spot = trace.find(process, start, path, follow) if path is not None else None
    except Unknown as reason:
        spot, why = None, f": {reason}"
    if spot is None:
        trace.note(call, f"it isn't known which file {call.name} names: {place[1]}{why}")
    return spot


# ---- making


def making(trace: Trace, call: Call, process: Process, place: Named, node: Node) -> None:
    spot = find(trace, call, process, place) if call.is_done else None
    if spot is None:
        return
    asks = [Ask(f"make_{node.kind}", trace.tree.chain(spot.directory))]
    trace.tree.put(spot.directory, spot.name, node)
    made = command("make", node.kind, trace.tree.path(spot.directory, spot.name))
    trace.add(Event(call.line, [made], asks, made=node, changed=[node]))


def on_mkdir(trace: Trace, call: Call, process: Process) -> None:
    making(trace, call, process, (None, call.arguments[0]), Node("dir"))


def on_mkdirat(trace: Trace, call: Call, process: Process) -> None:
    making(trace, call, process, (call.arguments[0], call.arguments[1]), Node("dir"))


def on_symlink(trace: Trace, call: Call, process: Process) -> None:
    making(trace, call, process, (None, call.arguments[1]), Node("sym", link=string_of(call.arguments[0])))


def on_symlinkat(trace: Trace, call: Call, process: Process) -> None:
    link = string_of(call.arguments[0])
    making(trace, call, process, (call.arguments[1], call.arguments[2]), Node("sym", link=link))


def on_mknod(trace: Trace, call: Call, process: Process) -> None:
    making(trace, call, process, (None, call.arguments[0]), Node(kind_of(call.arguments[1])))


def on_mknodat(trace: Trace, call: Call, process: Process) -> None:
    making(trace, call, process, (call.arguments[0], call.arguments[1]), Node(kind_of(call.arguments[2])))


def kind_of(mode: str) -> str:
    return next((kind for text, kind in KIND_OF_MODE.items() if text in mode), "reg")


def on_bind(trace: Trace, call: Call, process: Process) -> None:
    """Takes the bind of a socket to a path. Other addresses, abstract ones too, name no file."""
    found = re.search(r'sun_path=("(?:[^"\\]|\\.)*")', ", ".join(call.arguments))
    if found:
        making(trace, call, process, (None, found[1]), Node("sock"))


# ---- removing


def removing(trace: Trace, call: Call, process: Process, place: Named, is_directory: bool) -> None:
    spot = find(trace, call, process, place) if can_be_said(trace, call) else None
    if spot is None:
        return
    node = spot.node or trace.tree.infer(spot, "dir" if is_directory else "reg")
    above = trace.tree.chain(spot.directory)
    named = [trace.tree.chain(spot.directory, node)]
    if call.error == "ENOTEMPTY":
        named += content(trace, node)
    word, right = ("rmdir", "remove_dir") if is_directory else ("unlink", "remove_file")
    gone = command(word, trace.tree.path(spot.directory, spot.name), expected=expected_of(call))
    changed = [node] if call.is_done else []
    trace.add(Event(call.line, [gone], [Ask(right, above)], named=named, changed=changed))
    if call.is_done:
        trace.tree.put(spot.directory, spot.name, None)


def can_be_said(trace: Trace, call: Call) -> bool:
    """Says whether the layers were asked and a check can have the reply. Notes it if only the latter isn't so."""
    if call.is_done or call.error == "ENOTEMPTY":
        return True
    if trace.passed(call):
        trace.note(call, f"no check can say that {call.name} fails with {call.error}: {', '.join(call.arguments)}")
    return False


def content(trace: Trace, node: Node) -> List[Chain]:
    """Returns the chain of something in a directory that isn't empty."""
    inside = trace.tree.first_in(node)
    return [(*trace.tree.chain(node), inside)] if inside else []


def expected_of(call: Call) -> str:
    return NOT_EMPTY if call.error == "ENOTEMPTY" else ""


def on_unlink(trace: Trace, call: Call, process: Process) -> None:
    removing(trace, call, process, (None, call.arguments[0]), False)


def on_rmdir(trace: Trace, call: Call, process: Process) -> None:
    removing(trace, call, process, (None, call.arguments[0]), True)


def on_unlinkat(trace: Trace, call: Call, process: Process) -> None:
    is_directory = "AT_REMOVEDIR" in call.arguments[2]
    removing(trace, call, process, (call.arguments[0], call.arguments[1]), is_directory)


# ---- cutting and moving


def on_truncate(trace: Trace, call: Call, process: Process) -> None:
    spot = find(trace, call, process, (None, call.arguments[0]), True) if call.is_done else None
    if spot is None:
        return
    node = spot.node or trace.tree.infer(spot, "reg")
    chain = trace.tree.chain(spot.directory, node)
    cut = command("truncate", trace.tree.path(spot.directory, spot.name), "0")
    trace.add(Event(call.line, [cut], [Ask("truncate", chain)], named=[chain]))


def removed(node: Node) -> str:
    return "remove_dir" if node.kind == "dir" else "remove_file"


def moving(trace: Trace, call: Call, process: Process, old: Named, new: Named, flags: str) -> None:
    first = find(trace, call, process, old) if can_be_said(trace, call) else None
    second = find(trace, call, process, new) if first else None
    if first is None or second is None:
        return
    if "RENAME_WHITEOUT" in flags:
        trace.note(call, f"{call.name} leaves a whiteout, which no policy can say")
    if second.node is None and call.is_done:
        note_unknown(trace, call, second)
    is_exchange = "RENAME_EXCHANGE" in flags
    node = first.node or trace.tree.infer(first, "reg")
    other = second.node or (trace.tree.infer(second, "reg") if is_exchange else None)
    event = move_event(trace, call, Spot(first.directory, first.name, node), Spot(second.directory, second.name, other))
    if is_exchange and other:
        add_way_back(trace, event, first, Spot(second.directory, second.name, other))
    word = "exchange" if is_exchange else "rename_noreplace" if "RENAME_NOREPLACE" in flags else "rename"
    paths = [trace.tree.path(it.directory, it.name) for it in (first, second)]
    event.commands = [command(word, *paths, expected=expected_of(call))]
    trace.add(event)
    if call.is_done and node is not other:
        event.changed = [it for it in (node, other) if it]
        trace.tree.put(second.directory, second.name, node)
        trace.tree.put(first.directory, first.name, other if is_exchange else None)


def note_unknown(trace: Trace, call: Call, spot: Spot) -> None:
    """Notes that nothing is known of what a move may have replaced, once for each directory."""
    place = spot.directory.start
    if place is not None and not trace.tree.inventory.covers(place) and place not in trace.unlisted:
        trace.unlisted.add(place)
        path = trace.tree.path(spot.directory, spot.name)
        trace.note(call, f"it isn't known whether {path} was there before; `record --changes {place}` would list that")


def move_event(trace: Trace, call: Call, first: Spot, second: Spot) -> Event:
    """Returns what a node asks for that moves from a spot to another one, and may replace what is there."""
    node, other = first.node, second.node
    assert node is not None
    left, entered = trace.tree.chain(first.directory), trace.tree.chain(second.directory)
    event = Event(call.line, [], [Ask(removed(node), left), Ask(f"make_{node.kind}", entered)])
    event.named = [trace.tree.chain(first.directory, node)]
    if other is not None:
        event.asks.append(Ask(removed(other), entered))
        event.named.append(trace.tree.chain(second.directory, other))
        if call.error == "ENOTEMPTY":
            event.named += content(trace, other)
    if first.directory is not second.directory:
        event.asks += [Ask("refer", left), Ask("refer", entered)]
        event.moves.append(Move(node.kind, trace.tree.chain(first.directory, node), entered))
    return event


def add_way_back(trace: Trace, event: Event, first: Spot, second: Spot) -> None:
    """Adds what an exchange asks for the node that comes back."""
    other = second.node
    assert other is not None
    left = trace.tree.chain(first.directory)
    event.asks.append(Ask(f"make_{other.kind}", left))
    if first.directory is not second.directory:
        event.moves.append(Move(other.kind, trace.tree.chain(second.directory, other), left))


def on_rename(trace: Trace, call: Call, process: Process) -> None:
    moving(trace, call, process, (None, call.arguments[0]), (None, call.arguments[1]), "")


def on_renameat(trace: Trace, call: Call, process: Process) -> None:
    old, new = (call.arguments[0], call.arguments[1]), (call.arguments[2], call.arguments[3])
    moving(trace, call, process, old, new, "".join(call.arguments[4:]))


HANDLERS: Dict[str, Handler] = {
    "mkdir": on_mkdir,
    "mkdirat": on_mkdirat,
    "symlink": on_symlink,
    "symlinkat": on_symlinkat,
    "mknod": on_mknod,
    "mknodat": on_mknodat,
    "bind": on_bind,
    "truncate": on_truncate,
    "truncate64": on_truncate,
    "unlink": on_unlink,
    "unlinkat": on_unlinkat,
    "rmdir": on_rmdir,
    "rename": on_rename,
    "renameat": on_renameat,
    "renameat2": on_renameat,
}
