"""Sessions with a tree."""

from __future__ import annotations

import os
from types import TracebackType
from typing import Optional, Type, Union

from .channel import seconds_of
from .client import Client, error_of, whole
from .errors import BadReply, OpeningRefused, ProgramFault, Refused
from .transports import Peer, Program, Transport

File = Union[str, bytes, "os.PathLike[str]", "os.PathLike[bytes]"]

# It spells no command, so a session answers that it is a bad line, whatever the tree is like, and has no entry for it.
# Neither a connect nor a call of a profile is ever refused so.
PROBE = "opened?"
PROBED = "refused 23 BadLine"


def look_whether_opened(transport: Transport) -> None:
    reply = transport.send(PROBE)
    if reply != PROBED:
        error = error_of(reply)
        if isinstance(error, Refused):
            raise OpeningRefused(error.number, error.name, transport.close().hints)
        raise BadReply(reply)


class Landtree:
    """A session with a tree; `client` is its first client.

    A session belongs to the process that opened it. One that is dropped without `close` ends too. Two sessions over
    connections to one program are clients of one tree.
    """

    def __init__(self, transport: Transport) -> None:
        self._transport = transport
        self.client = Client(transport, 1)

    @classmethod
    def run(
        cls,
        program: File = "landtree",
        *,
        nodes: Optional[int] = None,
        abi: Optional[int] = None,
        history: Optional[int] = None,
        policy: Optional[File] = None,
        profile: Optional[str] = None,
        save: Optional[File] = None,
        timeout: Optional[float] = None,
    ) -> Landtree:
        """Starts the program, by its path or as the PATH has it, with the options of `landtree run`.

        `policy` and `save` are files. `timeout` is how many seconds each wait may last: for the opening, for a reply
        and for the end. None is no limit. This raises `OpeningRefused` if the first client can't connect or its profile
        is refused, `ProgramFault` if the program has ended, as it does for a policy with a fault, and `TimedOut`.
        """
        numbers = {"nodes": nodes, "abi": abi, "history": history}
        texts = {"policy": policy, "profile": profile, "save": save}
        words = [os.fsdecode(program), "run", "-", "--explain"]
        words += [f"--{name}={whole(it)}" for name, it in numbers.items() if it is not None]
        words += [f"--{name}={os.fsdecode(it)}" for name, it in texts.items() if it is not None]
        timeout = seconds_of(timeout)
        return cls._opened(Transport(Program(words), timeout))

    @classmethod
    def connect(cls, port: int, *, timeout: Optional[float] = None) -> Landtree:
        """Connects to the program that is serving on this port of this machine (`landtree serve --port PORT`).

        `timeout` is as for `run`. If all workers serve others, this waits until one is free. It raises `OpeningRefused`
        as `run` does, `ProgramFault` if the program closes the connection, `OSError` if nobody listens, and `TimedOut`.
        The program may close a connection that is silent for long (`--idle`). Then the next call raises `ProgramFault`.
        """
        port = whole(port)
        if not 1 <= port <= 65_535:
            raise ValueError(f"a port is from 1 to 65,535: {port}")
        timeout = seconds_of(timeout)
        return cls._opened(Transport(Peer(port, timeout), timeout))

    @classmethod
    def _opened(cls, transport: Transport) -> Landtree:
        try:
            look_whether_opened(transport)
        except BaseException:
            transport.close()
            raise
        return cls(transport)

    @property
    def timeout(self) -> Optional[float]:
        """How many seconds each wait may last, for a reply or for the end. None is no limit. It can be set anew."""
        return self._transport.timeout

    @timeout.setter
    def timeout(self, seconds: Optional[float]) -> None:
        self._transport.timeout = seconds_of(seconds)

    def close(self) -> Optional[int]:
        """Ends the session, waits for the program and returns its status; it may have ended before.

        A connection has no status: this waits until the program has closed it, and returns None. A call under way in
        another thread isn't waited for: it raises `ProgramFault`. A program that doesn't end within the `timeout` is
        killed. So is one that owes a reply and doesn't give it within two seconds.
        """
        return self._transport.close().status

    def __enter__(self) -> Landtree:
        return self

    def __exit__(
        self, kind: Optional[Type[BaseException]], error: Optional[BaseException], trace: Optional[TracebackType]
    ) -> None:
        """Ends the session. If nothing else was raised, a bad end raises `ProgramFault`: a status other than 0, or a
        connection that broke."""
        ended = self._transport.close()
        if not ended.is_well and error is None:
            raise ProgramFault(*ended)
