"""Files that a recorded program only read."""

from __future__ import annotations

import os
from typing import Dict, Iterable, List, Set

from ..names import encoded
from .events import Event
from .recording import read_recorded
from .tree import Node

READING, WRITING = ("execute", "read_file"), ("write_file", "truncate")


def files_only_read(log: "os.PathLike[str] | str") -> List[str]:
    """Returns the regular files that the program of a recording opened or executed, and neither wrote, cut, moved nor
    removed. They were there when it began. The paths are spelled as a policy does it, and in order.

    A log that `convert` doesn't take is a `Fault`.
    """
    return only_read(read_recorded(log).events)


def only_read(events: Iterable[Event]) -> List[str]:
    """Returns the files that these events only read, as `files_only_read` does."""
    found: Dict[Node, str] = {}
    others: Set[Node] = set()
    for event in events:
        others.update(event.changed)
        for ask in event.asks:
            node = ask.chain[-1]
            if ask.right in READING and node.kind == "reg" and node.start and node.is_lasting:
                found[node] = encoded(node.start)
            elif ask.right in WRITING:
                others.add(node)
    return sorted(path for node, path in found.items() if node not in others)
