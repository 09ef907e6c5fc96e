"""The tree of files as it was when the program began, read as it is asked for, and as the program changes it."""

from __future__ import annotations

import posixpath
import re
from dataclasses import dataclass, field
from typing import Callable, Dict, List, Optional, Tuple

from ..names import encoded, unfit
from .inventory import Entry, Inventory

MOST_LINKS = 40
PROC = "/proc"
DESCRIPTORS = re.compile(r"/proc/(\d+)(?:/task/(\d+))?/fd")
OWN_PLACE = re.compile(r"/proc/(\d+)(?:/task/(\d+))?")
PLACES = ("cwd", "exe", "root")
# Directories of a process in /proc; everything else there is taken for a file.
DIRECTORIES = ("attr", "fd", "fdinfo", "map_files", "net", "ns", "task")


@dataclass(eq=False)
class Node:
    """A file. `start` is its path when the program began, None if it came since.

    `names` has what is known of a directory: None stands for a name that isn't there. `is_lasting` says whether a rule
    may be on it: none may be on what is in a process's own directory of /proc. `holder` is the process of a link there
    that leads to what this process has. `is_changed` says that a link may have led elsewhere when the program ran.
    """

    kind: str
    start: Optional[str] = None
    link: Optional[str] = None
    is_lasting: bool = True
    names: Dict[str, Optional["Node"]] = field(default_factory=dict)
    parent: Optional["Node"] = None
    name: str = ""
    holder: Optional[int] = None
    is_changed: bool = False


Chain = Tuple[Node, ...]


@dataclass(frozen=True)
class Spot:
    """Where a path leads: a directory, a name in it, and what has that name, if anything."""

    directory: Node
    name: str
    node: Optional[Node]


class Unknown(Exception):
    """Raised if it isn't known where a path leads. Its text says why."""


# Returns what a process, by its number, has as its `cwd`, `exe` or `root`, or open under a number; None if that isn't
# known.
Held = Callable[[int, str], Optional[Spot]]


def names_of(path: str) -> List[str]:
    return [it for it in path.split("/") if it not in ("", ".")]


def fits(path: str) -> bool:
    """Says whether a policy can have a real path."""
    return not unfit(encoded(path))


def passing_node(where: str, name: str) -> Node:
    """Returns a node of a process's own directory in /proc, which another process doesn't find there."""
    found = DESCRIPTORS.fullmatch(where) if name.isdigit() else OWN_PLACE.fullmatch(where) if name in PLACES else None
    if found:
        return Node("sym", f"{where}/{name}", is_lasting=False, holder=int(found[2] or found[1]))
    is_directory = where == PROC or name in DIRECTORIES or where.endswith("/task")
    return Node("dir" if is_directory else "reg", f"{where}/{name}", is_lasting=False)


class Tree:
    """The tree. `shared` has each pair of paths that were two names of one file when the program began."""

    def __init__(self, inventory: Inventory, held: Held) -> None:
        self.inventory = inventory
        self.held = held
        self.root = Node("dir", "/")
        self.shared: List[Tuple[str, str]] = []
        self._first_paths: Dict[Tuple[int, int], str] = {}

    def find(self, start: Node, path: str, own: str = "", follow: bool = True) -> Optional[Spot]:
        """Returns where a path leads that a process names, or None if a directory on the way isn't there.

        Links are followed, the last one if `follow` says so or a slash comes after it. `own` is the process's place in
        /proc, if one names the path. If it isn't known where a link leads, this raises `Unknown`.
        """
        here = self.root if path.startswith("/") else start
        ahead = names_of(path)[::-1]
        is_directory = path.endswith(("/", "/."))
        links = 0
        while ahead:
            name = ahead.pop()
            if here.kind != "dir":
                return None
            if name == "..":
                here = here.parent or here
                continue
            node = self.look(here, name, own)
            if node and node.kind == "sym" and (ahead or follow or is_directory):
                links += 1
                if links > MOST_LINKS:
                    raise Unknown(f"it leads through over {MOST_LINKS} links")
                if node.is_changed:
                    raise Unknown(f"the link {self.path(here, name)} has changed since the program began")
                if node.holder is not None:
                    spot = self._held_by(node)
                    if not ahead:
                        return spot
                    here = spot.node or here
                    continue
                target = node.link or ""
                is_directory = is_directory or (not ahead and target.endswith(("/", "/.")))
                here = self.root if target.startswith("/") else here
                ahead += names_of(target)[::-1]
                continue
            if not ahead:
                return Spot(here, name, node)
            if node is None:
                return None
            here = node
        return self.spot_of(here)

    def _held_by(self, link: Node) -> Spot:
        """Returns what a link of /proc leads to, and not to a name."""
        spot = self.held(link.holder or 0, posixpath.basename(link.start or ""))
        if spot is None or spot.node is None:
            raise Unknown(f"it isn't known what {link.start} leads to")
        return spot

    def spot_of(self, directory: Node) -> Spot:
        """Returns where a directory is."""
        return Spot(directory.parent or directory, directory.name, directory)

    def look(self, directory: Node, name: str, own: str = "") -> Optional[Node]:
        """Returns what has this name in a directory, as a process sees it whose place in /proc is its `own`."""
        if directory.start == PROC and name in ("self", "thread-self"):
            link = own if name == "thread-self" else own.split("/")[0]
            return Node("sym", f"{PROC}/{name}", link or "none", is_lasting=False)
        if name in directory.names:
            return directory.names[name]
        if directory.start is None:
            return None
        path = f"{directory.start.rstrip('/')}/{name}"
        if not directory.is_lasting or (directory.start == PROC and name.isdigit()):
            node: Optional[Node] = passing_node(directory.start, name)
        else:
            entry = self.inventory.entry(path)
            node = self._first_node(path, entry) if entry else None
        self.put(directory, name, node)
        return node

    def _first_node(self, path: str, entry: Entry) -> Node:
        if entry.key:
            # A policy's nodes have one name each, so the other names of a file are nodes of their own.
            other = self._first_paths.setdefault(entry.key, path)
            if other != path:
                self.shared.append((other, path))
        return Node(entry.kind, path, entry.link, is_changed=entry.is_changed)

    def put(self, directory: Node, name: str, node: Optional[Node]) -> None:
        """Gives a node a name, or takes the name away."""
        directory.names[name] = node
        if node is not None and node.kind == "dir":
            node.parent, node.name = directory, name

    def infer(self, spot: Spot, kind: str) -> Node:
        """Adds what must have been at a spot when the program began, though it isn't there any more."""
        start = spot.directory.start
        node = Node(kind, f"{start.rstrip('/')}/{spot.name}" if start else None)
        self.put(spot.directory, spot.name, node)
        return node

    def first_in(self, directory: Node) -> Optional[Node]:
        """Returns something that lies in a directory, if it is known and a policy can have its path."""
        for node in directory.names.values():
            if node is not None and (node.start is None or fits(node.start)):
                return node
        return self._unseen_in(directory)

    def first_old(self, directory: Node) -> Optional[Node]:
        """Returns something that lay in a directory when the program began, and lies there yet, as `first_in` does."""
        for node in directory.names.values():
            start = node.start if node is not None else None
            if start and posixpath.dirname(start) == directory.start and fits(start):
                return node
        return self._unseen_in(directory)

    def _unseen_in(self, directory: Node) -> Optional[Node]:
        """Returns something that lay in a directory when the program began, and that no call has named."""
        start = (directory.start or "").rstrip("/")
        names = self.inventory.names_in(directory.start) if directory.start else []
        name = next((it for it in names if it not in directory.names and fits(f"{start}/{it}")), None)
        return None if name is None else self.look(directory, name)

    def chain(self, directory: Node, node: Optional[Node] = None) -> Chain:
        """Returns the nodes from the root to a directory, and further to a node in it."""
        nodes = [directory]
        while nodes[-1].parent is not None:
            nodes.append(nodes[-1].parent)
        nodes.reverse()
        return tuple(nodes if node is None or node is directory else [*nodes, node])

    def path(self, directory: Node, name: str = "") -> str:
        """Returns the path of a directory, or of a name in it."""
        names = [name] if name else []
        while directory.parent is not None:
            names.append(directory.name)
            directory = directory.parent
        return "/" + "/".join(reversed(names))

    def path_of(self, spot: Spot) -> str:
        return "/" if spot.node is self.root else self.path(spot.directory, spot.name)
