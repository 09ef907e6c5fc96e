"""What two runs of a program write to standard output and standard error, passed on as it comes, and compared.

A stream that is a file stays as it is, since a program may open it by its name again: what a run adds to the file is
what it wrote. So does a terminal, for which programs write otherwise, and which isn't compared. Any other stream is a
pipe for the program.
"""

from __future__ import annotations

import contextlib
import fcntl
import itertools
import os
import select
import stat
import threading
import time
from dataclasses import dataclass
from pathlib import Path
from typing import BinaryIO, Dict, Iterator, List, Optional, Tuple

OUTPUT, ERROR = 1, 2
NAMES = {(OUTPUT,): "standard output", (ERROR,): "standard error", (OUTPUT, ERROR): "the output"}
CHUNK, LONGEST, SHOWN = 1 << 16, 1 << 20, 100
# How long what was written may take to come, once all who wrote it have ended.
LAST_SECONDS = 5.0


@dataclass(frozen=True)
class Written:
    """What a run has written: the bytes of a file from `begin` to `end`, or none, and why they aren't known."""

    file: str = ""
    begin: int = 0
    end: int = 0
    unknown: str = ""

    def lines(self) -> Iterator[bytes]:
        with open(self.file, "rb") as file:
            file.seek(self.begin)
            while file.tell() < self.end:
                yield file.readline(min(LONGEST, self.end - file.tell()))


# What a run has written to each stream, by the stream's name.
Output = Dict[str, Written]


@contextlib.contextmanager
def kept(folder: Path, run: str) -> Iterator[Output]:
    """Keeps what is written to the streams of this process during a block. It is known after the block."""
    output: Output = {}
    with contextlib.ExitStack() as stack:
        for descriptors in streams():
            keeping = keeper_of(descriptors, folder / f"{run}-{descriptors[0]}")
            stack.enter_context(keeping.keep(output, NAMES[descriptors]))
        yield output


def streams() -> List[Tuple[int, ...]]:
    """Returns the open ones of both streams. Two that lead to one file are one, so that their lines stay in order."""
    found = {it: status for it in (OUTPUT, ERROR) for status in status_of(it)}
    if len(found) == 2 and os.path.samestat(*found.values()):
        return [(OUTPUT, ERROR)]
    return [(it,) for it in found]


def status_of(descriptor: int) -> List[os.stat_result]:
    try:
        return [os.fstat(descriptor)]
    except OSError:
        return []


def keeper_of(descriptors: Tuple[int, ...], file: Path) -> "Keeper":
    first = descriptors[0]
    if os.isatty(first):
        return Keeper(first)
    return FileKeeper(first) if stat.S_ISREG(os.fstat(first).st_mode) else PipeKeeper(descriptors, file)


class Keeper:
    """Keeps nothing of a terminal."""

    def __init__(self, descriptor: int) -> None:
        self.descriptor = descriptor

    @contextlib.contextmanager
    def keep(self, output: Output, name: str) -> Iterator[None]:
        yield
        output[name] = Written(unknown="it is a terminal")


class FileKeeper(Keeper):
    """Keeps the places of a file between which a run has written."""

    @contextlib.contextmanager
    def keep(self, output: Output, name: str) -> Iterator[None]:
        begin, file = self.place(), f"/proc/self/fd/{self.descriptor}"
        yield
        is_known = os.access(file, os.R_OK)
        output[name] = Written(file, begin, self.place()) if is_known else Written(unknown="its file may not be read")

    def place(self) -> int:
        """Returns where the next byte goes."""
        appends = fcntl.fcntl(self.descriptor, fcntl.F_GETFL) & os.O_APPEND
        return os.fstat(self.descriptor).st_size if appends else os.lseek(self.descriptor, 0, os.SEEK_CUR)


class PipeKeeper(Keeper):
    """Has a run write to a pipe, and a thread that passes on and keeps what comes."""

    def __init__(self, descriptors: Tuple[int, ...], file: Path) -> None:
        super().__init__(descriptors[0])
        self.descriptors, self.file = descriptors, file
        self.unknown = ""
        # Since when the thread has waited for more, if it does.
        self.waits_since: Optional[float] = None

    @contextlib.contextmanager
    def keep(self, output: Output, name: str) -> Iterator[None]:
        saved = {it: os.dup(it) for it in self.descriptors}
        source, sink = os.pipe()
        for it in self.descriptors:
            os.dup2(sink, it)
        os.close(sink)
        target = saved[self.descriptor]
        thread = threading.Thread(target=self.pass_on, args=(source, target), daemon=True)
        thread.start()
        try:
            yield
        finally:
            for it, former in saved.items():
                os.dup2(former, it)
            if not self.has_ended(thread):
                self.unknown = "a process that is left has it open"
            else:
                for former in saved.values():
                    os.close(former)
        size = 0 if self.unknown else self.file.stat().st_size
        output[name] = Written(str(self.file), 0, size, self.unknown)

    def has_ended(self, thread: threading.Thread) -> bool:
        """Waits for the thread to end, unless it waits in vain."""
        end = time.monotonic()
        while thread.is_alive():
            thread.join(0.05)
            since = self.waits_since
            if since is not None and time.monotonic() - max(since, end) > LAST_SECONDS:
                return not thread.is_alive()
        return True

    def pass_on(self, source: int, target: int) -> None:
        """Passes on what comes until its end, or until nobody takes it: then its writer gets to know that too."""
        try:
            with open(self.file, "wb") as file, contextlib.suppress(OSError):
                for data in iter(lambda: self.next_of(source), b""):
                    self.keep_some(file, data)
                    write_all(target, data)
        finally:
            os.close(source)

    def next_of(self, source: int) -> bytes:
        self.waits_since = time.monotonic()
        data = os.read(source, CHUNK)
        self.waits_since = None
        return data

    def keep_some(self, file: BinaryIO, data: bytes) -> None:
        if self.unknown:
            return
        try:
            file.write(data)
            file.flush()
        except OSError as error:
            self.unknown = f"{self.file}: {error.strerror}"


def write_all(target: int, data: bytes) -> None:
    while data:
        try:
            data = data[os.write(target, data) :]
        except BlockingIOError:
            select.select([], [target], [])


# ---- comparing


def differences(first: Output, second: Output, back: Tuple[bytes, bytes]) -> Tuple[List[str], List[str]]:
    """Returns a line for each stream to which two runs have written differently, and one for each that isn't known.

    The first of the two texts `back` is read as the second one in what the second run has written.
    """
    differ, unknown = [], []
    for name, written in first.items():
        other = second.get(name, Written(unknown="it was closed meanwhile"))
        why = written.unknown or other.unknown
        if why:
            unknown.append(f"{name} isn't compared: {why}")
        else:
            differ += [f"{name} differs {it}" for it in [difference(written, other, back)] if it]
    return differ, unknown


def difference(first: Written, second: Written, back: Tuple[bytes, bytes]) -> str:
    lines = (it.replace(*back) if back[0] else it for it in second.lines())
    for number, (one, other) in enumerate(itertools.zip_longest(first.lines(), lines), 1):
        if one != other:
            return f"in line {number}: {line_text(one)} without a layer, {line_text(other)} under the profile"
    return ""


def line_text(line: Optional[bytes]) -> str:
    if line is None:
        return "no line"
    text = line.decode("utf-8", "backslashreplace")
    whole = text.endswith("\n")
    text = text[:-1] if whole else text
    cut = f'"{text[:SHOWN]}.."' if len(text) > SHOWN else f'"{text}"'
    return cut if whole else f"{cut} and no line feed"


# ---- the input


class Input:
    """The standard input of two runs."""

    def __init__(self) -> None:
        self.place: Optional[int] = None
        with contextlib.suppress(OSError):
            self.place = os.lseek(0, 0, os.SEEK_CUR)

    def rewind(self) -> None:
        """Has the second run read what the first one has read, if it comes from a file."""
        if self.place is not None:
            with contextlib.suppress(OSError):
                os.lseek(0, self.place, os.SEEK_SET)

    def is_used_up(self) -> bool:
        """Says whether the first run may have read what the second one lacks."""
        return self.place is None and bool(status_of(0))
