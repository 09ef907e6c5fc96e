"""What the calls of a log ask for, as commands of a script."""

from __future__ import annotations

from dataclasses import dataclass, field
from typing import Dict, Iterable, Iterator, List, Optional, Sequence, Tuple

from ..names import encoded
from .tree import Chain, Node

# With these a call fails after the layers were asked, so it asks for its rights all the same. Other errors come before.
AFTER_POLICY = {"ENXIO", "ENOTEMPTY", "ENODEV", "ENOEXEC", "EBUSY", "EMLINK", "ENOSPC"}


@dataclass(frozen=True)
class Command:
    """A line of a file of checks, and the reply that must come if it isn't plain success.

    A word that begins with a slash is a real path, which `text` spells as a policy does.
    """

    words: Tuple[str, ...]
    expected: str = ""

    @property
    def paths(self) -> List[str]:
        return [it for it in self.words if it.startswith("/")]

    @property
    def text(self) -> str:
        line = " ".join(encoded(it) if it.startswith("/") else it for it in self.words)
        return f"{line} = {self.expected}" if self.expected else line


def command(*words: str, expected: str = "") -> Command:
    return Command(words, expected)


@dataclass(frozen=True)
class Ask:
    """A right that a call asks for, and the nodes of which one must have a rule with it."""

    right: str
    chain: Chain


@dataclass(frozen=True)
class Move:
    """A node that gets a name in another directory: its kind, its own chain, and that of the directory."""

    kind: str
    own: Chain
    into: Chain


@dataclass
class Event:
    """What one call asks for.

    `named` has the chains of all that the commands name, `made` the node that came by the call, and `changed` the nodes
    whose names it has changed. `again` is what it would ask for beside that if what it makes was there.
    """

    line: int
    commands: List[Command]
    asks: List[Ask]
    moves: List[Move] = field(default_factory=list)
    named: List[Chain] = field(default_factory=list)
    made: Optional[Node] = None
    changed: List[Node] = field(default_factory=list)
    again: List[Ask] = field(default_factory=list)

    @property
    def chains(self) -> Iterator[Chain]:
        """The chains of all that it names and asks for."""
        yield from self.named
        yield from (it.chain for it in self.asks)
        yield from (chain for it in self.moves for chain in (it.own, it.into))


@dataclass(frozen=True)
class Note:
    """Something that no policy can say, or that is only guessed, and the line of the log that shows it."""

    line: int
    text: str


def starts_of(events: Iterable[Event]) -> Dict[str, str]:
    """Returns the paths of all that the events name and that was there when the program began, with their kinds."""
    nodes = dict.fromkeys(node for event in events for chain in event.chains for node in chain)
    return {it.start: it.kind for it in nodes if it.start is not None and it.start != "/" and it.is_lasting}


def lasting(chain: Sequence[Node], path: str) -> Tuple[Chain, str]:
    """Returns the beginning of a chain on which rules may be, and its path: all of it, but for a process's /proc."""
    kept = tuple(node for node in chain if node.is_lasting)
    if len(kept) == len(chain):
        return kept, path
    return kept, "/" + "/".join(path.strip("/").split("/")[: len(kept) - 1])
