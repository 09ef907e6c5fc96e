"""Drops events that ask for nothing that others don't ask for.

A right that is asked on the beginning of a chain needs a rule there, which grants it on the whole chain too. So of
the asks of one right only those count whose chain has no shorter one as its beginning. `landtree learn` learns the same
from the events that are kept.
"""

from __future__ import annotations

from typing import Dict, Hashable, List, Optional, Sequence, Set, Tuple

from .events import Ask, Event
from .tree import Chain, Node

# Rights of files: a hint of `learn` tells if a directory needs one only for what is made there.
FILE_WORDS = ("execute", "write_file", "read_file", "truncate")
# A chain as the paths that its nodes had when the program began. Nodes that came later hold no rule.
Places = Tuple[str, ...]


def places_of(chain: Chain) -> Places:
    return tuple(it.start for it in chain if it.start is not None)


def least_asks(events: Sequence[Event]) -> Set[Tuple[str, Places]]:
    """Returns the asks that no other ask implies."""
    chains: Dict[str, Set[Places]] = {}
    for event in events:
        for ask in event.asks:
            chains.setdefault(ask.right, set()).add(places_of(ask.chain))
    return {
        (right, chain)
        for right, all_chains in chains.items()
        for chain in all_chains
        if not any(chain[:length] in all_chains for length in range(1, len(chain)))
    }


def slimmed(events: Sequence[Event]) -> List[Event]:
    """Returns the events that ask for all that all of them ask for, in their order.

    With an event come those that make, move or remove what it names.
    """
    least = least_asks(events)
    seen: Set[Hashable] = set()
    kept: Set[int] = set()
    for place, event in enumerate(events):
        new = needs_of(event, least) - seen
        if new and event.commands:
            seen |= new
            kept.add(place)
    return [events[it] for it in sorted(with_needed(events, kept))]


def needs_of(event: Event, least: Set[Tuple[str, Places]]) -> Set[Hashable]:
    """Returns the asks of an event that count, its moves, and what it would ask for the next time."""
    asks = {(ask.right, places_of(ask.chain)) for ask in event.asks}
    of_files = [it for it in event.asks if it.right in FILE_WORDS and it.chain[-1].start]
    below = {("below", *it) for it in (granting(ask, least) for ask in of_files) if it}
    moves = {(move.kind, places_of(move.own), places_of(move.into)) for move in event.moves}
    again = {("again", it.right, places_of(it.chain)) for it in event.again}
    return {*(asks & least), *below, *moves, *again}


def granting(ask: Ask, least: Set[Tuple[str, Places]]) -> Optional[Tuple[str, Places]]:
    """Returns the ask that implies this one of a file which was there, so that one such file is known below it."""
    places = places_of(ask.chain)
    return next(((ask.right, places[:it]) for it in range(1, len(places)) if (ask.right, places[:it]) in least), None)


def with_needed(events: Sequence[Event], kept: Set[int]) -> Set[int]:
    """Returns these places of events, and those of the events that change what these name."""
    changing: Dict[Node, List[int]] = {}
    for place, event in enumerate(events):
        for node in {*event.changed, *([event.made] if event.made else [])}:
            changing.setdefault(node, []).append(place)
    all_kept, waiting = set(kept), list(kept)
    while waiting:
        for node in nodes_of(events[waiting.pop()]):
            new = [it for it in changing.pop(node, []) if it not in all_kept]
            all_kept.update(new)
            waiting += new
    return all_kept


def nodes_of(event: Event) -> Set[Node]:
    """Returns all nodes that an event names."""
    chains = [ask.chain for ask in event.asks] + event.named
    chains += [chain for move in event.moves for chain in (move.own, move.into)]
    return {node for chain in chains for node in chain} | {*event.changed}
