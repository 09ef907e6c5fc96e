"""The state while a log is read: the processes, and the files as these have changed them."""

from __future__ import annotations

from typing import Dict, List, Optional, Set

from .events import AFTER_POLICY, Event, Note
from .holders import Files, Place, Process
from .inventory import Inventory
from .lives import Birth, Lives
from .log import Call, Descriptor, End, descriptor_of
from .misfits import Misfits
from .tree import Node, Spot, Tree, Unknown


class Trace:
    """The state while a log is read, and what has come of it so far."""

    def __init__(self, inventory: Inventory, directory: str, lives: Lives) -> None:
        self.tree = Tree(inventory, self.held)
        self.directory = directory
        self.lives = lives
        self.processes: Dict[int, Process] = {}
        self.events: List[Event] = []
        self.misfits = Misfits()
        self.notes: List[Note] = []
        # Directories of which a note has said that they weren't listed before.
        self.unlisted: Set[str] = set()

    def note(self, call: Call, text: str) -> None:
        self.notes.append(Note(call.line, text))

    def add(self, event: Event) -> Event:
        """Takes an event, unless a policy can't have the names of what it asks for."""
        misfit = self.misfits.first_of(event)
        if misfit:
            self.notes.append(Note(event.line, f"no policy can have {misfit}; what is asked for there isn't learned"))
        else:
            self.events.append(event)
        return event

    # ---- processes

    def process(self, number: int, line: int) -> Process:
        """Returns a process, which has at first what its parent has or shares with it."""
        if number in self.processes:
            return self.processes[number]
        # Parents first: the calls that have started them may all be under way yet.
        lineage: Dict[int, Optional[Birth]] = {}
        above: Optional[int] = number
        while above is not None and above not in self.processes and above not in lineage:
            birth = lineage[above] = self.lives.birth_of(above)
            above = birth.parent if birth else None
        for it, birth in reversed(lineage.items()):
            parent = self.processes.get(birth.parent) if birth else None
            if birth is not None and parent is not None:
                self.processes[it] = self.child(it, parent, birth.flags)
            else:
                self.processes[it] = Process(it, it, Place(self.first_place(it, line)), Files())
        return self.processes[number]

    def child(self, number: int, parent: Process, flags: str) -> Process:
        place = parent.place if "CLONE_FS" in flags else Place(parent.place.node, parent.place.since)
        files = parent.files if "CLONE_FILES" in flags else parent.files.copied()
        group = parent.group if "CLONE_THREAD" in flags else number
        return Process(number, group, place, files, parent.program)

    def first_place(self, number: int, line: int) -> Optional[Node]:
        """Returns the working directory of a process that no call has started: the first one alone has a known one."""
        if not self.lives.is_first(number):
            self.notes.append(Note(line, f"it isn't known who has started process {number}, nor where"))
            return None
        spot = self.at_path(self.directory)
        return spot.node if spot else None

    def end(self, end: End) -> None:
        """Takes the end of a process: from now on its number is that of another one."""
        ended = self.processes.pop(end.process, None)
        self.lives.end(end.process)
        if ended is not None and end.heir is not None:
            ended.number = end.heir
            self.processes[end.heir] = ended

    def held(self, number: int, name: str) -> Optional[Spot]:
        """Returns what a process has as its `cwd`, `exe` or `root`, or open under a number, if that is known."""
        process = self.processes.get(number)
        if process is None:
            return None
        if name == "root":
            return self.tree.spot_of(self.tree.root)
        if name == "cwd":
            return self.tree.spot_of(process.place.node) if process.place.node else None
        if name == "exe":
            return present(process.program)
        opened = process.files.opened.get(int(name))
        if opened and opened.node and opened.node.kind == "dir":
            return self.tree.spot_of(opened.node)
        return present(opened.spot) if opened else None

    # ---- paths

    def find(self, process: Process, start: Optional[Node], path: str, follow: bool = True) -> Optional[Spot]:
        """Returns where a path leads from a directory, or None if a directory on the way isn't there.

        If it isn't known where it leads, this raises `Unknown`.
        """
        if start is None and not path.startswith("/"):
            raise Unknown("it isn't known in which directory it begins")
        return self.tree.find(start or self.tree.root, path, process.own, follow)

    def at_path(self, path: str) -> Optional[Spot]:
        """Returns where a path without links leads."""
        try:
            return self.tree.find(self.tree.root, path, follow=False)
        except Unknown:
            return None

    def directory_at(self, path: str) -> Optional[Node]:
        """Returns the directory at a path without links, if it is known."""
        spot = self.at_path(path)
        return spot.node if spot and spot.node and spot.node.kind == "dir" else None

    def start_of(self, call: Call, process: Process, argument: Optional[str]) -> Optional[Node]:
        """Returns the directory from which a relative path of a call begins; None stands for the working directory.

        What strace says is taken rather than what the calls before it say.
        """
        if argument is None:
            return process.place.node
        found = descriptor_of(argument)
        if found is None:
            return None
        shown = self.directory_at(found.path) if found.path and not found.is_deleted else None
        if found.number is None:
            return self.place_of(call, process, shown)
        return self.directory_of(call, process, found, shown)

    def place_of(self, call: Call, process: Process, shown: Optional[Node]) -> Optional[Node]:
        """Returns the working directory of a call, of which strace has `shown` this one."""
        place = process.place
        if shown is None:
            return place.node
        # strace has looked when the call began. A thread may have gone elsewhere meanwhile.
        if place.since <= call.began and not self.is_same(shown, place.node):
            if place.node is not None:
                paths = [self.tree.path(it) for it in (shown, place.node)]
                self.note(call, f"its working directory is {paths[0]}, where {paths[1]} was expected")
            place.move(shown, call.line)
        return shown

    def directory_of(self, call: Call, process: Process, found: Descriptor, shown: Optional[Node]) -> Optional[Node]:
        """Returns the directory of a descriptor of a call, of which strace has `shown` this one."""
        opened = process.files.opened.get(found.number if found.number is not None else -1)
        node = opened.node if opened and opened.node and opened.node.kind == "dir" else None
        if shown is None:
            return node
        if node is not None and not self.is_same(shown, node):
            paths = [self.tree.path(it) for it in (shown, node)]
            self.note(call, f"its descriptor {found.number} is {paths[0]}, where {paths[1]} was expected")
        return shown

    def is_same(self, one: Node, other: Optional[Node]) -> bool:
        return other is not None and (one is other or self.tree.path(one) == self.tree.path(other))

    def passed(self, call: Call) -> bool:
        """Says whether the layers were asked, and have let the call through."""
        return call.is_done or call.error in AFTER_POLICY


def present(spot: Optional[Spot]) -> Optional[Spot]:
    """Returns a spot if it still has what it had."""
    return spot if spot and spot.node and spot.directory.names.get(spot.name) is spot.node else None


def returned_of(call: Call) -> Optional[Descriptor]:
    """Returns what strace says of the descriptor that a call has returned."""
    return descriptor_of(f"{call.result}{call.returned}") if call.is_done and call.returned else None
