"""Ways to a program: a child that is run, or a connection to one that is serving."""

from __future__ import annotations

import contextlib
import os
import socket
import subprocess
import tempfile
import threading
import weakref
from typing import List, Optional, Tuple, Union

from .channel import Channel, Cut, Deadline, Late, NoLine
from .errors import BadReply, Ended, LandtreeError, ProgramFault, TimedOut, shown

# Seconds that a program has for a reply that is still owed when its session is closed, and for its end when its session
# was dropped.
GRACE = 2.0
ERROR_BYTES = 65_536
# How the hint on the first line of a session begins, which is the package's own probe (session.py).
HINT_ON_PROBE = "  -:1:"


class Program:
    """The program as a child, whose standard input and output are one end of the channel."""

    def __init__(self, words: List[str]) -> None:
        with contextlib.ExitStack() as unless_run:
            self._errors = unless_run.enter_context(tempfile.TemporaryFile())
            ours, theirs = socket.socketpair()
            unless_run.enter_context(ours)
            with theirs:
                pipe = theirs.fileno()
                self._child = subprocess.Popen(words, stdin=pipe, stdout=pipe, stderr=self._errors)
            unless_run.pop_all()
        self.channel = Channel(ours)

    def end(self, patience: Optional[float]) -> Ended:
        """Ends the session and waits for the program, which is killed after so many seconds.

        It is killed too if a reply is owed and doesn't come within `GRACE` seconds.
        """
        is_well = not self.channel.is_owed or self._gives_what_it_owes(patience)
        self.channel.shut()
        try:
            status = self._child.wait(patience if is_well else 0)
            killed = ""
        except subprocess.TimeoutExpired:
            self._child.kill()
            status = self._child.wait()
            killed = "killed, as it did not answer or end in time"
        line, hints = self._told()
        return Ended(status, line or killed, hints)

    def free(self) -> None:
        self.channel.free()
        self._errors.close()

    def _gives_what_it_owes(self, patience: Optional[float]) -> bool:
        """Says whether the reply that is owed, or the end of the stream, comes in time."""
        try:
            self.channel.finish(Deadline(GRACE if patience is None else min(GRACE, patience)))
        except OSError:
            return True
        except (Late, NoLine):
            return False
        return True

    def _told(self) -> Tuple[str, str]:
        """Returns the last line on standard error that isn't indented, and the lines after it.

        What is said of the package's own probe is left out: nobody else has written that line.
        """
        size = self._errors.seek(0, os.SEEK_END)
        self._errors.seek(max(0, size - ERROR_BYTES))
        lines = self._errors.read().decode("utf-8", "replace").splitlines()
        if size > ERROR_BYTES:
            lines = lines[1:]  # The first one is cut.
        lines = [it for it in lines if not it.startswith(HINT_ON_PROBE)]
        after = max((place for place, line in enumerate(lines, 1) if not line.startswith("  ")), default=0)
        return "".join(lines[:after][-1:]), "\n".join(lines[after:])


class Peer:
    """A program that is serving on this machine, at the other end of a connection."""

    def __init__(self, port: int, timeout: Optional[float]) -> None:
        try:
            stream = socket.create_connection(("127.0.0.1", port), timeout)
        except socket.timeout:
            raise TimedOut(f"no connection to port {port} within {timeout:g} seconds") from None
        stream.setsockopt(socket.IPPROTO_TCP, socket.TCP_NODELAY, 1)
        self.channel = Channel(stream)

    def end(self, patience: Optional[float]) -> Ended:
        """Ends the session and waits until the program has closed the connection, but for so many seconds at most.

        It doesn't wait if a reply is owed.
        """
        if not self.channel.is_owed and not self.channel.broke:
            self.channel.broke = self._what_breaks(Deadline(patience))
        self.channel.shut()
        return Ended(None, self.channel.broke)

    def free(self) -> None:
        self.channel.free()

    def _what_breaks(self, deadline: Deadline) -> str:
        """Returns what keeps the connection from ending well, if anything."""
        try:
            unasked = self.channel.finish(deadline)
        except OSError as error:
            return str(error.strerror)
        except Late:
            return "the program has not closed it in time"
        except NoLine as error:
            unasked = error.received
        return "the program sent what no call asked for" if unasked else ""


class Transport:
    """Sends lines to a program and returns their replies. Threads may share it.

    `timeout` is the most seconds that a call may wait for its reply, and `close` for the end; None is no limit.
    """

    def __init__(self, way: Union[Program, Peer], timeout: Optional[float]) -> None:
        self.timeout = timeout
        self.way = way
        self._lock = threading.RLock()  # A signal may call `close` in a call of the same thread.
        self._ended: Optional[Ended] = None
        self._process = os.getpid()
        self._drop = weakref.finalize(self, end_dropped, way, self._process)

    def send(self, line: str) -> str:
        """Sends a line and returns its reply's, both without their line feeds."""
        if os.getpid() != self._process:
            raise LandtreeError("the session is that of the process that opened it, and no call of a fork is made")
        with self._lock:
            if self._ended:
                raise ProgramFault(*self._ended)
            if self.way.channel.is_owed:
                raise LandtreeError("an earlier call was left before its reply came, so no further one can be made")
            reply = self._ask(line)
            if not reply.endswith(b"\n"):
                raise ProgramFault(*self._end(GRACE))
            return reply[:-1].decode("ascii", "replace")

    def _ask(self, line: str) -> bytes:
        timeout = self.timeout
        try:
            return self.way.channel.ask(line.encode("ascii") + b"\n", Deadline(timeout))
        except Cut:
            raise ProgramFault(None, "it was closed during the call") from None
        except Late:
            raise TimedOut(f"{shown(line)}: no reply within {timeout:g} seconds") from None
        except NoLine as error:
            self._end(0)
            raise BadReply(error.received.decode("ascii", "replace"), line) from None

    def close(self) -> Ended:
        """Ends the session, waits until it has ended, and returns how; it may have ended before.

        A call under way in another thread raises `ProgramFault`. In a fork this closes the fork's descriptors alone.
        """
        if os.getpid() != self._process:
            self.way.free()
            return Ended(None, "")
        self.way.channel.cut()
        with self._lock:
            return self._end(self.timeout)

    def _end(self, patience: Optional[float]) -> Ended:
        if not self._ended:
            self._ended = self.way.end(patience)
        self._drop.detach()
        self.way.free()
        return self._ended


def end_dropped(way: Union[Program, Peer], process: int) -> None:
    """Ends a session that nobody has any more. In a fork this closes the fork's descriptors alone."""
    if os.getpid() == process:
        way.end(GRACE)
    way.free()
