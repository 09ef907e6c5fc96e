"""How a session ends, and the errors of its calls."""

from __future__ import annotations

import errno
import os
from typing import Any, List, NamedTuple, Optional, Sequence, Tuple

from .values import Rights

SHOWN = 200


def shown(text: str) -> str:
    """Returns a text for a message, cut where it is long."""
    return text if len(text) <= SHOWN else f"{text[:SHOWN]}.."


def replied(call: str, reply: str) -> str:
    """Returns a call and its reply as a file of checks has them."""
    return f"{shown(call)} = {reply}" if call else reply


class Ended(NamedTuple):
    """How a session ended.

    `status` is the program's, and below 0 if a signal ended it. `line` is the program's fault line on standard error,
    and `hints` are the lines after it. Of a connection `status` is None. Its `line` says what broke it, and is empty if
    it was closed from here.
    """

    status: Optional[int]
    line: str
    hints: str = ""

    @property
    def is_well(self) -> bool:
        return self.status == 0 or (self.status is None and not self.line)


class LandtreeError(Exception):
    """The class of all errors of this package, but of what can't be sent (`ValueError` and `TypeError`)."""


class Denied(LandtreeError, PermissionError):
    """Raised if a layer of the client forbids the call.

    `name` is "EACCES" or "EXDEV", and `errno` is the system's number for it. `layer` counts from 1, the oldest. `right`
    is a set of one right. `place` is "at", "old" or "new", and `path` is the call's path at that place; it is None for
    a call on a descriptor. `call` is the command that was sent, and `reply` is its reply.
    """

    def __init__(
        self, name: str, layer: int, right: Rights, place: str, call: str = "", paths: Sequence[str] = ()
    ) -> None:
        number = {"EACCES": errno.EACCES, "EXDEV": errno.EXDEV}[name]
        old, new = (*paths, None, None)[:2]
        super().__init__(number, os.strerror(number), old, None, new)
        self.name, self.layer, self.right, self.place, self.call = name, layer, right, place, call
        self.path = new if place == "new" else old
        self._paths = tuple(paths)

    @property
    def reply(self) -> str:
        return f"denied {self.name} layer {self.layer} {self.right} {self.place}"

    def __str__(self) -> str:
        return replied(self.call, self.reply)

    def __reduce__(self) -> Tuple[Any, ...]:
        return type(self), (self.name, self.layer, self.right, self.place, self.call, self._paths)


class Refused(LandtreeError):
    """Raised if the call is refused for another reason.

    `number` is Landtree's number for the `name`, not the system's. `call` and `reply` are as in `Denied`.
    """

    def __init__(self, number: int, name: str, call: str = "") -> None:
        super().__init__(number, name, call)
        self.number, self.name, self.call = number, name, call

    @property
    def reply(self) -> str:
        return f"refused {self.number} {self.name}"

    def __str__(self) -> str:
        return replied(self.call, self.reply)


class OpeningRefused(Refused):
    """Raised if the first client's connect, or a call of its profile, is refused, so that there is no session.

    `hints` are the program's lines on which call of the profile that is. A connection has none.
    """

    def __init__(self, number: int, name: str, hints: str = "") -> None:
        super().__init__(number, name)
        self.args = (number, name, hints)
        self.hints = hints

    def __str__(self) -> str:
        return "\n".join(filter(None, [self.reply, self.hints]))


class ProgramFault(LandtreeError):
    """Raised if the program, or the connection to it, has ended, so that no call is answered.

    `status`, `line` and `hints` are those of `Ended`.
    """

    def __init__(self, status: Optional[int], line: str, hints: str = "") -> None:
        super().__init__(status, line, hints)
        self.status, self.line, self.hints = status, line, hints

    @property
    def reasons(self) -> List[str]:
        """The line and the hints, for a message that names the program already."""
        lines = [self.line.replace("landtree: ", "", 1), *self.hints.splitlines()]
        return [it.strip() for it in lines if it and not it.startswith("landtree: ")]

    def __str__(self) -> str:
        what = "session has ended" if self.status is None else f"program has ended with status {self.status}"
        return "\n".join(filter(None, [f"the {what}" + (f": {self.line}" if self.line else ""), self.hints]))


class TimedOut(LandtreeError, TimeoutError):
    """Raised if a call gets no reply within the session's `timeout`. The session makes no further call."""


class BadReply(LandtreeError):
    """Raised if what the program answered is no reply to this call."""

    def __init__(self, reply: str, call: str = "") -> None:
        super().__init__(reply, call)
        self.reply, self.call = reply, call

    def __str__(self) -> str:
        return f"the program answered {shown(self.reply)!r}" + (f" to {shown(self.call)}" if self.call else "")


class Fault(LandtreeError):
    """Raised if a command of this package can't do its work. Its text is one line that names the file and the place."""
