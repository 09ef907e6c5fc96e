"""What lay in real directories before a program ran, and what lies elsewhere."""

from __future__ import annotations

import os
import stat
from dataclasses import dataclass, field
from typing import Dict, Iterable, List, NamedTuple, Optional, Tuple

from ..directories import REAL_KINDS
from ..errors import Fault
from ..landlock import birth_of

MOST = 1_000_000
# Directories of the kernel's own, in which files have no date that says when they came.
TIMELESS = ("/proc/", "/sys/", "/dev/")
# In these of them anybody may make files, and the dates of these are kept.
TIMELY = ("/dev/shm/", "/dev/mqueue/")


class Entry(NamedTuple):
    """A file: its kind as a policy has it, the text of a link, and of a file with several names what these share.

    `is_changed` says that a link, or what lies beside it, has changed since the program began: it may be another one.
    """

    kind: str
    link: Optional[str] = None
    key: Optional[Tuple[int, int]] = None
    is_changed: bool = False


def entry_of(path: str) -> Optional[Entry]:
    """Returns what is at the path now, if anything that a policy can have."""
    try:
        found = os.lstat(path)
        kind = REAL_KINDS.get(stat.S_IFMT(found.st_mode))
        if kind is None:
            return None
        link = os.readlink(path) if kind == "sym" else None
    except (OSError, ValueError):
        return None
    key = (found.st_dev, found.st_ino) if found.st_nlink > 1 and kind != "dir" else None
    return Entry(kind, link, key)


@dataclass
class Inventory:
    """All that lay in some directories at a moment; `began` is that moment, in seconds as the file system counts them.

    Other places are looked at when they are asked for. What came after `began` wasn't there.
    """

    directories: List[str]
    began: float
    entries: Dict[str, Entry] = field(default_factory=dict)
    # The names in each directory, once somebody has asked for those of one.
    _names: Dict[str, List[str]] = field(default_factory=dict, init=False, repr=False, compare=False)

    def covers(self, path: str) -> bool:
        return any(path == it or path.startswith(it.rstrip("/") + "/") for it in self.directories)

    def entry(self, path: str) -> Optional[Entry]:
        """Returns what was at the path when the program began, if anything."""
        if self.covers(path):
            return self.entries.get(path)
        entry = entry_of(path)
        if entry is None or self.came_later(path):
            return None
        return entry._replace(is_changed=True) if entry.kind == "sym" and self.has_changed(path) else entry

    def came_later(self, path: str) -> bool:
        if is_timeless(path) or not self.is_late(path):
            return False
        birth = birth_of(path)
        return birth is not None and birth >= self.began

    def has_changed(self, link: str) -> bool:
        """Says whether a link may have got its name since, or its directory may have got its own."""
        return not is_timeless(link) and (self.is_late(link) or self.is_late(os.path.dirname(link)))

    def is_late(self, path: str) -> bool:
        try:
            return os.lstat(path).st_ctime >= self.began
        except OSError:
            return False

    def names_in(self, directory: str) -> List[str]:
        """Returns the names that lay in a directory, in order."""
        if not self.covers(directory):
            return sorted(os.path.basename(it) for it in paths_in(directory))
        if not self._names:
            for path in sorted(self.entries):
                above, _, name = path.rpartition("/")
                if name:
                    self._names.setdefault(above or "/", []).append(name)
        return self._names.get(directory, [])


def is_timeless(path: str) -> bool:
    return path.startswith(TIMELESS) and not path.startswith(TIMELY)


def inventory_of(directories: Iterable[str], began: float) -> Inventory:
    """Looks through directories, which are real paths without links.

    What this process may not read isn't listed. More than 1,000,000 files are a `Fault`.
    """
    taken = Inventory(list(directories), began)
    waiting = list(taken.directories)
    while waiting:
        path = waiting.pop()
        entry = entry_of(path)
        if entry is None or path in taken.entries:
            continue
        taken.entries[path] = entry
        if len(taken.entries) > MOST:
            raise Fault(f"{', '.join(taken.directories)}: over {MOST:,} files lie there, too many to be listed")
        if entry.kind == "dir":
            waiting += paths_in(path)
    return taken


def paths_in(path: str) -> List[str]:
    try:
        return [os.path.join(path, name) for name in os.listdir(path)]
    except OSError:
        return []
