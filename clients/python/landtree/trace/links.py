"""Calls that give a file one name more."""

from __future__ import annotations

from typing import Dict, Optional

from .events import Ask, Event, Move, command
from .holders import Opened, Process
from .log import Call, descriptor_of, string_of
from .namings import Named, find
from .openings import Handler
from .state import Trace
from .tree import Spot, Unknown


def linking(trace: Trace, call: Call, process: Process, old: Named, new: Named, flags: str) -> None:
    if not call.is_done:
        return
    opened = opened_of(trace, process, old, flags)
    second = find(trace, call, process, new)
    if second is None:
        return
    if opened is not None and opened.is_nameless:
        link_nameless(trace, call, opened, second)
        return
    first = source(trace, call, process, old, flags)
    if first is None:
        return
    node = first.node or trace.tree.infer(first, "reg")
    left, entered = trace.tree.chain(first.directory), trace.tree.chain(second.directory)
    own = trace.tree.chain(first.directory, node)
    event = Event(call.line, [], [Ask(f"make_{node.kind}", entered)], named=[own], changed=[node])
    if first.directory is not second.directory:
        event.asks += [Ask("refer", left), Ask("refer", entered)]
        event.moves.append(Move(node.kind, own, entered))
    paths = [trace.tree.path(it.directory, it.name) for it in (first, second)]
    event.commands = [command("link", *paths)]
    trace.add(event)
    trace.tree.put(second.directory, second.name, node)


def is_empty(old: Named, flags: str) -> bool:
    """Says whether a link is made of the descriptor itself, and not of a path that begins there."""
    return string_of(old[1]) == "" and "AT_EMPTY_PATH" in flags


def source(trace: Trace, call: Call, process: Process, old: Named, flags: str) -> Optional[Spot]:
    """Returns the file that gets the link, or notes that it isn't known."""
    if not is_empty(old, flags):
        return find(trace, call, process, old, "AT_SYMLINK_FOLLOW" in flags)
    found = descriptor_of(old[0] or "")
    spot = trace.at_path(found.path) if found and found.path and not found.is_deleted else None
    if spot is None:
        trace.note(call, f"it isn't known which file {call.name} names: {old[0]}")
    return spot


def opened_of(trace: Trace, process: Process, old: Named, flags: str) -> Optional[Opened]:
    """Returns the open file that a link is made of, if it is named by a descriptor."""
    if is_empty(old, flags):
        found = descriptor_of(old[0] or "")
        return process.files.opened.get(found.number) if found and found.number is not None else None
    path = string_of(old[1]) if "AT_SYMLINK_FOLLOW" in flags else None
    try:
        link = trace.find(process, None, path, False) if path else None
    except Unknown:
        return None
    holder = trace.processes.get(link.node.holder) if link and link.node and link.node.holder is not None else None
    return holder.files.opened.get(int(link.name)) if holder and link and link.name.isdigit() else None


def link_nameless(trace: Trace, call: Call, opened: Opened, second: Spot) -> None:
    """Takes the link that gives its first name to a file of O_TMPFILE."""
    assert opened.node is not None
    path = trace.tree.path(second.directory, second.name)
    entered = trace.tree.chain(second.directory)
    if opened.chain[-1] is not second.directory:
        trace.note(call, f"no policy can say that a file without a name in {opened.path} gets the name {path}")
    trace.tree.put(second.directory, second.name, opened.node)
    opened.spot = Spot(second.directory, second.name, opened.node)
    asks = [Ask("make_reg", entered)]
    made = command("make", "reg", path)
    trace.add(Event(call.line, [made], asks, made=opened.node, changed=[opened.node]))


def on_link(trace: Trace, call: Call, process: Process) -> None:
    linking(trace, call, process, (None, call.arguments[0]), (None, call.arguments[1]), "")


def on_linkat(trace: Trace, call: Call, process: Process) -> None:
    old, new = (call.arguments[0], call.arguments[1]), (call.arguments[2], call.arguments[3])
    linking(trace, call, process, old, new, call.arguments[4])


HANDLERS: Dict[str, Handler] = {"link": on_link, "linkat": on_linkat}
