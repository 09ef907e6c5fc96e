"""A client of the tree: the lines of its calls and of their replies."""

from __future__ import annotations

import operator
import os
import re
from types import TracebackType
from typing import Callable, List, Match, Optional, Pattern, Type, Union

from .errors import BadReply, Denied, LandtreeError, Refused
from .transports import Transport
from .values import CALL_BYTES, DIRECTORY_NAMES, KINDS, NAME_BYTES, SINGLE_RIGHTS, WORD_BYTES, Rights, Stat

Path = Union[str, "os.PathLike[str]"]
Bytes = Union[bytes, bytearray, memoryview]

# ---- replies

NUMBER = "(0|[1-9][0-9]{0,19})"
NAME = f"[!-.0-~]{{1,{NAME_BYTES}}}"
OK = re.compile("ok")
FD = re.compile(f"fd {NUMBER}")
DATA = re.compile(f"data (?:-|((?:[0-9a-f]{{2}}){{1,{CALL_BYTES}}}))")
NAMES = re.compile(f"names((?: {NAME}){{0,{DIRECTORY_NAMES}}})")
FOUND = re.compile(f"stat {NUMBER} ({'|'.join(KINDS)}) {NUMBER} {NUMBER}")
RULESET = re.compile(f"ruleset {NUMBER}")
CLIENT = re.compile(f"client {NUMBER}")
REFUSED = re.compile(f"refused {NUMBER} ([A-Za-z0-9]+)")
DENIED = re.compile(f"denied (EACCES|EXDEV) layer {NUMBER} ({'|'.join(map(str, SINGLE_RIGHTS))}) (at|old|new)")


def error_of(reply: str, call: str = "") -> LandtreeError:
    """Returns the error for a reply that isn't what its call asks for."""
    refused, denied = REFUSED.fullmatch(reply), DENIED.fullmatch(reply)
    if refused:
        return Refused(int(refused[1]), refused[2], call)
    if denied:
        # Of the words of a command, only paths begin with a slash.
        paths = [word for word in call.split(" ") if word.startswith("/")]
        return Denied(denied[1], int(denied[2]), Rights.parse(denied[3]), denied[4], call, paths)
    return BadReply(reply, call)


# ---- words of commands


def whole(number: int) -> int:
    """Returns the number as a plain int. True and False are no numbers."""
    if isinstance(number, bool):
        raise ValueError(f"a number is wanted: {number}")
    return int(operator.index(number))


def number_word(number: int) -> str:
    number = whole(number)
    if not 0 <= number < 2**64:
        raise ValueError(f"a number is from 0 to 2^64 - 1: {number}")
    return str(number)


def path_word(path: Path) -> str:
    """Returns the path as it is, if a line can have it. The tree says whether it is a path."""
    path = os.fspath(path)
    if not re.fullmatch(f"[!-~]{{1,{WORD_BYTES}}}", path):
        raise ValueError(f"a path is sent as 1 to 8,000 printed ASCII characters, none of them a space: {path!r}")
    return path


def kind_word(kind: str) -> str:
    if kind not in KINDS:
        raise ValueError(f"a kind is one of {', '.join(KINDS)}: {kind!r}")
    return kind


def mode_word(mode: str) -> str:
    if not re.fullmatch("(r|w|rw)t?(cx?)?", mode):
        raise ValueError(f"a mode is r, w or rw, then t or not, then c, cx or neither: {mode!r}")
    return mode


def rights_word(rights: Rights) -> str:
    if not isinstance(rights, Rights):
        raise TypeError(f"rights are of the class Rights: {rights!r}")
    return str(rights)


def data_word(data: Bytes) -> str:
    view = memoryview(data)
    if view.nbytes > CALL_BYTES:
        raise ValueError(f"a write has at most 4,096 bytes, and these are {view.nbytes}; write_all makes several")
    return view.hex() or "-"


def is_listing(names: List[str]) -> bool:
    """Says whether a directory may list these names: they rise, and none stands for a directory itself."""
    return all(one < next for one, next in zip(names, names[1:])) and not {".", ".."} & {*names}


class Descriptor(int):
    """The number of an open file. After `with` its block closes it: `with client.open("r", "/f") as file: ..`."""

    def __new__(cls, number: int, client: Client) -> Descriptor:
        descriptor = super().__new__(cls, number)
        descriptor._client = client
        return descriptor

    _client: Client

    def __enter__(self) -> Descriptor:
        return self

    def __exit__(
        self, kind: Optional[Type[BaseException]], error: Optional[BaseException], trace: Optional[TracebackType]
    ) -> None:
        """Closes it. What the block has raised is more than that this fails."""
        try:
            self._client.close(self)
        except LandtreeError:
            if error is None:
                raise


class Client:
    """A client of the tree; `number` is its place in the session, the first one being 1.

    Each method makes one call, and takes the words of its command in their order. A path is a `str` or a `pathlib`
    path. Any method may raise `Denied`, `Refused`, `ProgramFault`, `TimedOut` or `BadReply`. Only `read_all` and
    `write_all` make several calls.
    """

    def __init__(self, transport: Transport, number: int) -> None:
        self._transport = transport
        self.number = number

    def __repr__(self) -> str:
        return f"<landtree.Client {self.number}>"

    def _ask(self, form: Pattern[str], *words: str, fits: Callable[[Match[str]], bool] = bool) -> Match[str]:
        """Makes a call, and returns the match of its reply with this form, if what it says fits the call."""
        speaker = [] if self.number == 1 else [f"@{self.number}"]
        call = " ".join([*speaker, *words])
        reply = self._transport.send(call)
        match = form.fullmatch(reply)
        if not match or not fits(match):
            raise error_of(reply, call)
        return match

    def make(self, kind: str, path: Path) -> None:
        """Makes an empty node of one of the `KINDS`."""
        self._ask(OK, "make", kind_word(kind), path_word(path))

    def open(self, mode: str, path: Path) -> Descriptor:
        """Opens a file and returns the descriptor; the mode is r, w or rw, with t, c or cx behind it."""
        return Descriptor(int(self._ask(FD, "open", mode_word(mode), path_word(path))[1]), self)

    def read(self, descriptor: int, offset: int, count: int) -> bytes:
        """Returns the bytes from the offset on. A count of over 4,096 is refused with EINVAL."""
        words = [number_word(it) for it in (descriptor, offset, count)]
        fits = lambda match: len(match[1] or "") <= 2 * count  # noqa: E731
        return bytes.fromhex(self._ask(DATA, "read", *words, fits=fits)[1] or "")

    def read_all(self, descriptor: int) -> bytes:
        """Returns all bytes of a file, by as many reads as it takes; other clients' calls may come between them."""
        data = b""
        while True:
            piece = self.read(descriptor, len(data), CALL_BYTES)
            data += piece
            if len(piece) < CALL_BYTES:
                return data

    def write(self, descriptor: int, offset: int, data: Bytes) -> int:
        """Puts at most 4,096 bytes in from the offset on, and returns how many they are."""
        words = [number_word(descriptor), number_word(offset), data_word(data)]
        return int(self._ask(re.compile(f"wrote ({memoryview(data).nbytes})"), "write", *words)[1])

    def write_all(self, descriptor: int, offset: int, data: Bytes) -> int:
        """Puts any number of bytes in, by as many writes as it takes, and returns how many they are.

        Other clients' calls may come between them, and where one is refused, those before it are made.
        """
        data = memoryview(data).tobytes()
        for start in range(0, len(data), CALL_BYTES):
            self.write(descriptor, offset + start, data[start : start + CALL_BYTES])
        return len(data)

    def ftruncate(self, descriptor: int, size: int) -> None:
        """Cuts an open file to this size, or fills it with zero bytes."""
        self._ask(OK, "ftruncate", number_word(descriptor), number_word(size))

    def close(self, descriptor: int) -> None:
        """Gives a descriptor back. (`Landtree.close` ends the session.)"""
        self._ask(OK, "close", number_word(descriptor))

    def truncate(self, path: Path, size: int) -> None:
        """Cuts a file to this size, or fills it with zero bytes."""
        self._ask(OK, "truncate", path_word(path), number_word(size))

    def list(self, path: Path) -> List[str]:
        """Returns the names in a directory, rising by bytes."""
        fits = lambda match: is_listing(match[1].split())  # noqa: E731
        return self._ask(NAMES, "list", path_word(path), fits=fits)[1].split()

    def stat(self, path: Path) -> Stat:
        """Returns the inode, the kind, the size and the number of links of a node."""
        _, inode, kind, size, links = self._ask(FOUND, "stat", path_word(path))[0].split()
        return Stat(int(inode), kind, int(size), int(links))

    def exec(self, path: Path) -> None:
        """Looks whether a file may be executed; nothing is."""
        self._ask(OK, "exec", path_word(path))

    def unlink(self, path: Path) -> None:
        """Takes away the name of what is no directory."""
        self._ask(OK, "unlink", path_word(path))

    def rmdir(self, path: Path) -> None:
        """Takes away an empty directory."""
        self._ask(OK, "rmdir", path_word(path))

    def rename(self, old: Path, new: Path) -> None:
        """Brings a node to a new name, in the place of what has that name."""
        self._ask(OK, "rename", path_word(old), path_word(new))

    def rename_noreplace(self, old: Path, new: Path) -> None:
        """Brings a node to a new name, which must not be there."""
        self._ask(OK, "rename_noreplace", path_word(old), path_word(new))

    def exchange(self, old: Path, new: Path) -> None:
        """Has two nodes change their names."""
        self._ask(OK, "exchange", path_word(old), path_word(new))

    def link(self, old: Path, new: Path) -> None:
        """Gives a node, which is no directory, one name more."""
        self._ask(OK, "link", path_word(old), path_word(new))

    def ruleset(self, rights: Rights) -> int:
        """Makes a ruleset that handles these rights, and returns its number."""
        return int(self._ask(RULESET, "ruleset", rights_word(rights))[1])

    def allow(self, ruleset: int, path: Path, rights: Rights) -> None:
        """Adds a rule to a ruleset: these rights on the node of this path and on everything beneath it."""
        self._ask(OK, "allow", number_word(ruleset), path_word(path), rights_word(rights))

    def confine(self, ruleset: int) -> None:
        """Makes the ruleset, as it is now, the newest layer of this client."""
        self._ask(OK, "confine", number_word(ruleset))

    def spawn(self) -> Client:
        """Returns a new client with the layers of this one and copies of its descriptors."""
        return Client(self._transport, int(self._ask(CLIENT, "spawn")[1]))
