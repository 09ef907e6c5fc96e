"""Reads the log of `strace -f -y`: the calls, in the order in which they ended.

A log is refused as a whole if a line isn't one of strace's, or if a process has no end in it: then it was cut.
"""

from __future__ import annotations

import os
import re
from dataclasses import dataclass, field
from typing import Collection, Dict, Iterator, List, Optional, Set, Tuple, Union

from ..errors import Fault, shown

HEAD = re.compile(r"(\d+) +(.*)", re.S)
CALL = re.compile(r"([a-z_0-9]+)\(")
RESUMED = re.compile(r"<\.\.\. ([a-z_0-9]+) resumed>(.*)", re.S)
UNFINISHED = re.compile(r"(.*?) ?<unfinished \.\.\.>(?:\) += \?)?", re.S)
RESULT = re.compile(r"\) += (-?\d+|\?|0x[0-9a-f]+)(.*)", re.S)
SUPERSEDED = re.compile(r"\+\+\+ superseded by execve in pid (\d+) \+\+\+")
ENDED = re.compile(r"\+\+\+ (exited with \d+|killed by \w+( \(core dumped\))?) \+\+\+")
STRING = re.compile(r'"((?:[^"\\]|\\.)*)"(\.\.\.)?')
DESCRIPTOR = re.compile(r"(AT_FDCWD|-?\d+)(?:<(.*?)>)?(\(deleted\))?", re.S)
ESCAPE = re.compile(rb"\\(x[0-9a-f]{2}|[0-7]{1,3}|.)", re.S)
LETTERS = {b"n": b"\n", b"t": b"\t", b"r": b"\r", b"v": b"\v", b"f": b"\f", b"a": b"\a", b"b": b"\b", b"e": b"\x1b"}
PAIRS = {"(": ")", "[": "]", "{": "}"}
SIGN = re.compile(r'["<()\[\]{},]')
BEFORE_PATH = re.compile(r"(\d|AT_FDCWD)\Z")


@dataclass(frozen=True)
class Call:
    """A call that ended.

    `line` counts from 1 and is where it ended, and `began` is where it began. `result` is None where strace knows none.
    `error` is the name of an errno, or empty. `returned` is what strace says of the descriptor that is the result.
    """

    line: int
    process: int
    name: str
    arguments: Tuple[str, ...]
    result: Optional[int]
    error: str = ""
    returned: str = ""
    began: int = field(default=0, compare=False)

    @property
    def is_done(self) -> bool:
        return self.result is not None and self.result >= 0


@dataclass(frozen=True)
class End:
    """The end of a process, or of a thread. After it another one may get its number.

    `heir` is the number under which a thread goes on that has executed a program: that of its process.
    """

    line: int
    process: int
    heir: Optional[int] = None


@dataclass(frozen=True)
class Descriptor:
    """A descriptor of a call: its number, None for the working directory, and the path of its file if it has one."""

    number: Optional[int]
    path: Optional[str]
    is_deleted: bool


def unescaped(text: str) -> str:
    """Returns what a string of C stands for, as `os.fsdecode` gives it."""
    if "\\" not in text:
        return text

    def undone(match: "re.Match[bytes]") -> bytes:
        word = match[1]
        if word[:1] == b"x" and len(word) == 3:
            return bytes([int(word[1:], 16)])
        if word[:1].isdigit():
            return bytes([int(word, 8) & 255])
        return LETTERS.get(word, word)

    return os.fsdecode(ESCAPE.sub(undone, os.fsencode(text)))


def string_of(argument: str) -> Optional[str]:
    """Returns a text that a call was given, if it is one and the log has all of it."""
    found = STRING.fullmatch(argument)
    return unescaped(found[1]) if found and not found[2] else None


def descriptor_of(argument: str) -> Optional[Descriptor]:
    """Returns a descriptor that a call was given, as `3</a/file>` or `AT_FDCWD</a>`."""
    found = DESCRIPTOR.fullmatch(argument)
    if not found:
        return None
    path = unescaped(found[2]) if found[2] is not None and found[2].startswith("/") else None
    return Descriptor(None if found[1] == "AT_FDCWD" else int(found[1]), path, found[3] is not None)


def arguments_of(text: str) -> Optional[Tuple[List[str], int]]:
    """Returns the arguments at the beginning of the text, and where the parenthesis after them is."""
    arguments: List[str] = []
    awaited: List[str] = []
    start = place = 0
    while found := SIGN.search(text, place):
        place, sign = found.end(), found[0]
        if sign == '"':
            string = STRING.match(text, found.start())
            if not string:
                return None
            place = string.end()
        elif sign == "<" and BEFORE_PATH.search(text, max(start, place - 9), place - 1):
            place = text.find(">", place) + 1  # In a path these signs are escaped.
            if not place:
                return None
        elif sign in PAIRS:
            awaited.append(PAIRS[sign])
        elif awaited and sign == awaited[-1]:
            awaited.pop()
        elif sign in ")]}" and (awaited or sign != ")"):
            return None
        elif sign == ")":
            last = text[start : place - 1].strip()
            return arguments + [last] if last or arguments else [], place - 1
        elif sign == "," and not awaited:
            arguments.append(text[start : place - 1].strip())
            start = place
    return None


def call_of(line: int, process: int, text: str, began: int) -> Optional[Call]:
    """Returns the call that a whole line has after the number of its process."""
    head = CALL.match(text)
    arguments = arguments_of(text[head.end() :]) if head else None
    if not head or not arguments:
        return None
    result = RESULT.fullmatch(text[head.end() + arguments[1] :])
    if not result:
        return None
    number = None if result[1] == "?" else int(result[1], 0)
    rest = result[2].strip()
    error = rest.split(" ")[0] if number is not None and number < 0 else ""
    returned = rest if rest.startswith("<") else ""
    return Call(line, process, head[1], tuple(arguments[0]), number, error, returned, began)


class Log:
    """What has been read of a log so far: the calls that are under way, and the processes that have ended.

    Of calls with other names than the `wanted` ones nothing is read but where they are.
    """

    def __init__(self, file: str, wanted: Optional[Collection[str]] = None) -> None:
        self.file = file
        self.wanted = wanted
        self.under_way: Dict[int, Tuple[int, str]] = {}
        self.living: Set[int] = set()
        # The lines in which each process has begun that had this number.
        self.starts: Dict[int, List[int]] = {}

    def taken(self, line: int, text: str) -> "Union[Call, End, None]":
        """Takes a line, and returns the call that ends in it, or the process, if one does."""
        head = HEAD.fullmatch(text)
        if not head:
            raise self.fault(line, text)
        process, rest = int(head[1]), head[2]
        if process not in self.living:
            self.living.add(process)
            self.starts.setdefault(process, []).append(line)
        if rest.startswith("+++"):
            return self.take_end(line, process, rest)
        if rest.startswith("---"):
            return None
        began = line
        resumed = RESUMED.fullmatch(rest) if rest.startswith("<") else None
        if resumed:
            if process not in self.under_way:
                raise self.fault(line, text)
            began, start = self.under_way.pop(process)
            rest = start + resumed[2]
        unfinished = UNFINISHED.fullmatch(rest) if "<unfinished" in rest else None
        if unfinished:
            self.under_way[process] = (began, unfinished[1])
            return None
        if self.wanted is not None and rest.partition("(")[0] not in self.wanted:
            return None
        call = call_of(line, process, rest, began)
        if call is None:
            raise self.fault(line, text)
        return call

    def take_end(self, line: int, process: int, text: str) -> End:
        superseded = SUPERSEDED.fullmatch(text)
        if superseded:
            # A thread has executed a program: it goes on with the number of its process.
            thread = int(superseded[1])
            self.living.discard(thread)
            if thread in self.under_way:
                self.under_way[process] = self.under_way.pop(thread)
            return End(line, thread, process)
        if not ENDED.fullmatch(text):
            raise self.fault(line, f"{process} {text}")
        self.living.discard(process)
        self.under_way.pop(process, None)
        return End(line, process)

    def fault(self, line: int, text: str) -> Fault:
        return Fault(f"{self.file}:{line}: no line of strace's: {shown(text)}")


def entries(log: Log) -> "Iterator[Union[Call, End]]":
    """Yields what the lines of a log say. A line that isn't strace's raises `Fault`, and so does a log that was cut."""
    line = 0
    with open(log.file, encoding="utf-8", errors="surrogateescape", newline="\n") as lines:
        for line, text in enumerate(lines, 1):
            if not text.endswith("\n"):
                raise Fault(f"{log.file}:{line}: the log was cut in this line")
            entry = log.taken(line, text[:-1])
            if entry:
                yield entry
    if not line:
        raise Fault(f"{log.file}: the log is empty")
    if log.living:
        whose = f"the end of process {min(log.living)} is missing"
        raise Fault(f"{log.file}:{line}: the log was cut after this line: {whose}")


def calls(file: "os.PathLike[str] | str") -> Iterator[Call]:
    """Yields the calls of a log, whose faults are those of `entries`."""
    return (it for it in entries(Log(os.fspath(file))) if isinstance(it, Call))
