"""The nodes of a policy and the file of checks that come of a log's events."""

from __future__ import annotations

from typing import Dict, Iterable, List, Sequence

from ..directories import Node
from ..errors import Fault
from ..names import encoded
from ..policy import Policy
from ..values import DIRECTORY_NAMES, TREE_NODES
from .events import Event, starts_of
from .tree import Tree


def first_nodes(events: Iterable[Event]) -> List[Node]:
    """Returns what the events name of the files that were there when the program began, each after its directory."""
    kinds = starts_of(events)
    return [Node(encoded(path), kinds[path]) for path in sorted(kinds, key=lambda it: it.split("/"))]


def directories_of(path: str) -> List[str]:
    """Returns the directories above a path, the root as an empty text."""
    names = path.split("/")
    return ["/".join(names[:length]) for length in range(1, len(names))]


def beside_made(events: Sequence[Event], nodes: Sequence[Node], tree: Tree) -> List[Node]:
    """Returns a file that was in each directory in which files are made, if no node is there.

    `landtree learn` tells that what is granted there for new files reaches such a file too.
    """
    known = {above or "/" for it in nodes for above in directories_of(it.path)}
    making = (it.chain[-1] for event in events for it in event.asks if it.right.startswith("make_"))
    directories = [it for it in dict.fromkeys(making) if it.start is not None and it.is_lasting]
    beside = [tree.first_old(it) for it in directories if encoded(it.start or "") not in known]
    return [Node(encoded(it.start), it.kind) for it in beside if it is not None and it.start is not None]


def nodes_text(nodes: Sequence[Node]) -> str:
    """Returns the policy that has these nodes and no profile."""
    return Policy(abi=3, nodes=list(nodes)).dumps()


def checks_text(events: Iterable[Event]) -> str:
    return "".join(f"{command.text}\n" for event in events for command in event.commands)


def need_room(log: str, nodes: Sequence[Node], events: Sequence[Event]) -> None:
    """Raises `Fault` if the tree can't have these nodes and those that the events make."""
    made = sum(event.made is not None for event in events)
    count = 1 + len(nodes) + made
    if count > TREE_NODES:
        raise Fault(f"{log}: the checks need {count:,} nodes, and a tree has at most {TREE_NODES:,}")
    names: Dict[str, int] = {}
    for node in nodes:
        above = node.path.rpartition("/")[0] or "/"
        names[above] = names.get(above, 0) + 1
    for above, number in names.items():
        if number > DIRECTORY_NAMES:
            raise Fault(f"{log}: the checks need {number:,} names in {above}, and {DIRECTORY_NAMES:,} may be there")
