"""The file to which strace writes a log. It has no name while the program runs, so the program can't name it either."""

from __future__ import annotations

import os
import shutil
import tempfile
from pathlib import Path
from types import TracebackType
from typing import IO, Optional, Tuple, Type

from ..errors import Fault

# Only its owner reads a log: it has the words of programs, in which there may be secrets.
MODE = 0o600
CHUNK = 1 << 20


class LogFile:
    """A new file for a log, in the directory where it is to get its name."""

    def __init__(self, place: Path) -> None:
        self.place = place
        try:
            self._file = nameless(place.parent)
        except OSError as error:
            raise Fault(f"{place}: {error.strerror}") from None

    def __enter__(self) -> "LogFile":
        return self

    def __exit__(
        self, kind: Optional[Type[BaseException]], error: Optional[BaseException], trace: Optional[TracebackType]
    ) -> None:
        self._file.close()

    def path_of(self, thread: int) -> str:
        """Returns the path by which strace opens the file, of a thread of this process that strace may look into."""
        return f"/proc/{os.getpid()}/task/{thread}/fd/{self._file.fileno()}"

    def keep(self) -> None:
        """Gives the file its name, which nothing may have now. What isn't a whole log gets none, and is a `Fault`."""
        self.need_whole()
        number = self._file.fileno()
        try:
            # Only with a directory does Python follow the link of /proc here. The path is absolute, so any one will do.
            os.link(f"/proc/self/fd/{number}", self.place, src_dir_fd=number, follow_symlinks=True)
            kept = identity(os.fstat(number))
        except FileExistsError:
            raise self.taken() from None
        except OSError:
            kept = self.copied()  # A file system that can't give the file a name.
        if not os.path.lexists(self.place) or identity(os.lstat(self.place)) != kept:
            raise Fault(f"{self.place}: something has replaced or changed the log, so don't use it")

    def need_whole(self) -> None:
        """Raises `Fault` if strace has written nothing, or if part of it is missing: zero bytes are there then."""
        last = b""
        self._file.seek(0)
        while chunk := self._file.read(CHUNK):
            if b"\0" in chunk:
                raise Fault(f"{self.place}: something has changed the log while the program ran, so it isn't kept")
            last = chunk[-1:]
        if not last:
            raise Fault(f"{self.place}: strace has logged nothing, so the program wasn't run")
        if last != b"\n":
            raise Fault(f"{self.place}: the log was cut while the program ran, so it isn't kept")

    def copied(self) -> Tuple[int, int, int]:
        """Writes the log to a new file of its name, and returns what identifies that."""
        try:
            with open(os.open(self.place, os.O_WRONLY | os.O_CREAT | os.O_EXCL, MODE), "wb") as new:
                self._file.seek(0)
                shutil.copyfileobj(self._file, new, CHUNK)
                new.flush()
                return identity(os.fstat(new.fileno()))
        except FileExistsError:
            raise self.taken() from None
        except OSError as error:
            raise Fault(f"{self.place}: {error.strerror}") from None

    def taken(self) -> Fault:
        return Fault(f"{self.place}: this file has come while the program ran, so the log isn't kept")


def nameless(directory: Path) -> "IO[bytes]":
    """Returns a new file without a name in a directory."""
    try:
        number = os.open(directory, os.O_RDWR | os.O_TMPFILE | os.O_CLOEXEC, MODE)
    except OSError:
        # Here a file has a name first, which can't be guessed and is taken from it at once.
        return tempfile.TemporaryFile(dir=directory, buffering=0)
    return open(number, "w+b", buffering=0)


def identity(found: os.stat_result) -> Tuple[int, int, int]:
    return found.st_dev, found.st_ino, found.st_size
