"""Lines over a stream socket, with deadlines."""

from __future__ import annotations

import contextlib
import math
import select
import socket
import time
from typing import Optional

from .values import REPLY_BYTES

LONGEST_TIMEOUT = 1_000_000


class Cut(Exception):
    """Raised in a wait if the session is being closed."""


class Late(Exception):
    """Raised in a wait if its deadline has passed."""


class NoLine(Exception):
    """Raised if what came is no single line of at most `REPLY_BYTES` bytes."""

    def __init__(self, received: bytes) -> None:
        super().__init__(received)
        self.received = received


class Deadline:
    """The moment after so many seconds from now, or never."""

    def __init__(self, seconds: Optional[float]) -> None:
        self._moment = None if seconds is None else time.monotonic() + seconds

    def milliseconds(self) -> Optional[int]:
        """Returns how long it is until then, as `poll` takes it."""
        return None if self._moment is None else max(0, math.ceil((self._moment - time.monotonic()) * 1_000))


def seconds_of(timeout: Optional[float]) -> Optional[float]:
    """Returns a time-out as it is, if it is one."""
    if timeout is not None and (isinstance(timeout, bool) or not 0 < timeout <= LONGEST_TIMEOUT):
        raise ValueError(f"a timeout is None, or over 0 and up to 1,000,000 seconds: {timeout}")
    return timeout


class Channel:
    """A stream socket that carries lines.

    A wait in `ask` ends at its deadline, and at once when `cut` is called. `is_owed` says that a reply has not been
    read, and `broke` what ended the stream.
    """

    def __init__(self, stream: socket.socket) -> None:
        self.is_owed = False
        self.broke = ""
        self._stream = stream
        self._stream.setblocking(False)
        self._alarm, self._bell = socket.socketpair()
        self._bell.setblocking(False)
        self._is_cut = False
        self._is_finishing = False
        self._received = bytearray()

    def cut(self) -> None:
        """Ends each wait in `ask`, now and later. Any thread may call this."""
        self._is_cut = True
        with contextlib.suppress(OSError):  # It is closed, or rings already.
            self._bell.send(b"!")

    def ask(self, line: bytes, deadline: Deadline) -> bytes:
        """Sends a line and returns the one that comes, or its beginning if the stream ends."""
        if self._is_cut:
            raise Cut
        self.is_owed = True
        try:
            self._send(line, deadline)
        except OSError as error:
            self.broke = str(error.strerror)  # What was written before can still be read.
        try:
            reply = self._line(deadline)
        except OSError as error:
            reply, self.broke = b"", str(error.strerror)
        if not reply.endswith(b"\n"):
            self.broke = self.broke or "the program has closed it"
        self.is_owed = False
        return reply

    def finish(self, deadline: Deadline) -> bytes:
        """Sends no more, and returns the line that comes, or what comes of it before the stream ends."""
        self._is_finishing = True
        self._stream.shutdown(socket.SHUT_WR)
        return self._line(deadline)

    def shut(self) -> None:
        """Ends the stream, also for other processes that have it."""
        with contextlib.suppress(OSError):  # It has ended.
            self._stream.shutdown(socket.SHUT_RDWR)

    def free(self) -> None:
        """Closes the descriptors of this process."""
        for it in (self._stream, self._alarm, self._bell):
            it.close()

    def _send(self, line: bytes, deadline: Deadline) -> None:
        while line:
            try:
                line = line[self._stream.send(line) :]
            except BlockingIOError:
                self._wait(select.POLLOUT, deadline)

    def _line(self, deadline: Deadline) -> bytes:
        searched = 0
        while self._received.find(b"\n", searched) < 0 and len(self._received) < REPLY_BYTES:
            searched = len(self._received)
            self._wait(select.POLLIN, deadline)
            with contextlib.suppress(BlockingIOError):
                piece = self._stream.recv(65_536)
                if not piece:
                    return bytes(self._received)
                self._received += piece
        line = bytes(self._received)
        if line.find(b"\n") + 1 != len(line) or len(line) > REPLY_BYTES:
            raise NoLine(line)
        self._received.clear()
        return line

    def _wait(self, event: int, deadline: Deadline) -> None:
        poll = select.poll()
        poll.register(self._stream, event)
        if not self._is_finishing:
            poll.register(self._alarm, select.POLLIN)
        ready = poll.poll(deadline.milliseconds())
        if self._is_cut and not self._is_finishing:
            raise Cut
        if not ready:
            raise Late
