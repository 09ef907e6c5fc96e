"""What a process has: its working directory, its open files, and the program that it executes."""

from __future__ import annotations

from dataclasses import dataclass, field
from typing import Dict, Optional, Set

from .events import Event
from .tree import Chain, Node, Spot


@dataclass
class Opened:
    """A file that a process has open: its path and chain when it was opened, and the event of that, if it has one.

    `spot` is where it was, or None of a file without a name.
    """

    path: str
    node: Optional[Node] = None
    chain: Chain = ()
    event: Optional[Event] = None
    spot: Optional[Spot] = None

    @property
    def is_nameless(self) -> bool:
        """Says whether it is a file of O_TMPFILE, whose chain is that of its directory."""
        return self.node is not None and bool(self.chain) and self.chain[-1] is not self.node


@dataclass
class Place:
    """The working directory of a process, which threads share: None if it isn't known. `since` is the line from which
    it has been that."""

    node: Optional[Node]
    since: int = 0

    def move(self, node: Optional[Node], line: int) -> None:
        self.node, self.since = node, line


@dataclass
class Files:
    """What a process has open, by numbers, which threads share. `closing` are those that an execution closes."""

    opened: Dict[int, Opened] = field(default_factory=dict)
    closing: Set[int] = field(default_factory=set)

    def copied(self) -> "Files":
        return Files(dict(self.opened), set(self.closing))

    def put(self, number: int, opened: Optional[Opened], is_closing: bool = False) -> None:
        """Has a number stand for a file, or for something else."""
        self.close(number)
        if opened is not None:
            self.opened[number] = opened
            self.mark(number, is_closing)

    def mark(self, number: int, is_closing: bool) -> None:
        (self.closing.add if is_closing else self.closing.discard)(number)

    def close(self, number: int) -> None:
        self.opened.pop(number, None)
        self.closing.discard(number)

    def executed(self) -> "Files":
        """Returns what is open after an execution."""
        return Files({number: it for number, it in self.opened.items() if number not in self.closing})


@dataclass
class Process:
    """A process or a thread. `group` is the number of the process whose thread it is, or its own."""

    number: int
    group: int
    place: Place
    files: Files
    program: Optional[Spot] = None

    @property
    def own(self) -> str:
        """Its place in /proc, as `/proc/thread-self` has it."""
        return f"{self.group}/task/{self.number}"
