"""Which call of a log has started which process.

Numbers are used again, so what a log says of a number is of one process until that has ended, and then of another one.
"""

from __future__ import annotations

import os
from dataclasses import dataclass
from typing import Dict, List, Optional, Sequence

from .log import Call, Log, entries

CLONES = ("clone", "clone3", "fork", "vfork")
# A child that is started so isn't followed by strace.
UNFOLLOWED = "CLONE_UNTRACED"


@dataclass(frozen=True)
class Birth:
    """The call that has started a process: the line where it ended, who made it, and its words."""

    line: int
    began: int
    parent: int
    flags: str


def birth_in(call: Call) -> Optional[Birth]:
    """Returns the birth that a call is, if it has started a process that strace follows."""
    if call.name not in CLONES or call.result is None or call.result <= 0:
        return None
    flags = " ".join(call.arguments)
    return None if UNFOLLOWED in flags else Birth(call.line, call.began, call.process, flags)


class Lives:
    """The lives of each number in a log, in their order: how each began, None if the log doesn't show it."""

    def __init__(self, file: "os.PathLike[str] | str") -> None:
        self._over: Dict[int, int] = {}
        log = Log(os.fspath(file), CLONES)
        made: Dict[int, List[Birth]] = {}
        for call in entries(log):
            birth = birth_in(call) if isinstance(call, Call) else None
            if birth is not None and isinstance(call, Call) and call.result is not None:
                made.setdefault(call.result, []).append(birth)
        self._first = next(iter(log.starts), None)
        self.births = {number: matched(lines, made.get(number, [])) for number, lines in log.starts.items()}

    def birth_of(self, number: int) -> Optional[Birth]:
        """Returns how the present life of a number began."""
        lives, over = self.births.get(number, []), self._over.get(number, 0)
        return lives[over] if over < len(lives) else None

    def is_first(self, number: int) -> bool:
        """Says whether a number is now that of the process with which the log begins."""
        return number == self._first and not self._over.get(number)

    def end(self, number: int) -> None:
        self._over[number] = self._over.get(number, 0) + 1


def matched(starts: Sequence[int], births: Sequence[Birth]) -> List[Optional[Birth]]:
    """Returns the birth of each life of a number, of which each is the last that began before the life's first line.

    The call ends after that line if the child was faster, or had to end first, as after vfork.
    """
    waiting = sorted(births, key=lambda it: it.began)
    found: List[Optional[Birth]] = []
    place = 0
    for start in starts:
        first = place
        while place < len(waiting) and waiting[place].began < start:
            place += 1
        found.append(waiting[place - 1] if place > first else None)
    return found
