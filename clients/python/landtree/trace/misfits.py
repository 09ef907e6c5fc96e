"""Paths that no policy can have, since they or a name of theirs are too long as a policy spells them."""

from __future__ import annotations

from typing import Dict, Set

from ..names import encoded, unfit
from .events import Event
from .tree import Node


class Misfits:
    """Which paths don't fit, and the nodes that do, for all that were asked for so far."""

    def __init__(self) -> None:
        self._known: Dict[str, str] = {}
        self._fit: Set[Node] = set()

    def first_of(self, event: Event) -> str:
        """Returns the first path of an event that doesn't fit, and why, or an empty text."""
        for command in event.commands:
            for path in command.paths:
                if self.why(path):
                    return self.why(path)
        for chain in event.chains:
            for node in reversed(chain):
                if node in self._fit:
                    break  # What is above it was looked at with it.
                if node.start is not None and node.is_lasting and self.why(node.start):
                    return self.why(node.start)
                self._fit.add(node)
        return ""

    def why(self, path: str) -> str:
        """Returns the beginning of a path that doesn't fit, with the reason, or an empty text."""
        if path not in self._known:
            self._known[path] = reason_of(path)
        return self._known[path]


def reason_of(path: str) -> str:
    names = encoded(path).split("/")
    if not unfit("/".join(names)):
        return ""
    beginnings = ("/".join(names[:length]) for length in range(2, len(names) + 1))
    beginning = next(it for it in beginnings if unfit(it))
    return f"{beginning}: {unfit(beginning)}"
