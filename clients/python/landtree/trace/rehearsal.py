"""Goes through events as `landtree check` goes through their commands without a layer.

A command that isn't answered there as it says would keep `landtree learn` from learning anything. So its event is left
out, and a note says so. docs/MODEL.md ("The calls") has the answers.
"""

from __future__ import annotations

from dataclasses import dataclass, field
from typing import Callable, Dict, List, Optional, Sequence, Tuple

from .events import Command, Event, Note, starts_of


class Refused(Exception):
    """Raised with the name of the refusal."""


@dataclass(eq=False)
class File:
    kind: str
    names: Dict[str, "File"] = field(default_factory=dict)


@dataclass(frozen=True)
class Place:
    """Where a path leads: the directory, the name there, and the names of the path."""

    directory: File
    names: Tuple[str, ...]

    @property
    def name(self) -> str:
        return self.names[-1]

    @property
    def there(self) -> Optional[File]:
        return self.directory.names.get(self.name)

    def needed(self) -> File:
        if self.there is None:
            raise Refused("ENOENT")
        return self.there

    def put(self, file: File, most: Optional[int]) -> None:
        if most is not None and self.there is None and len(self.directory.names) >= most:
            raise Refused("ENOSPC")
        self.directory.names[self.name] = file

    def is_below(self, other: "Place") -> bool:
        return len(self.names) > len(other.names) and self.names[: len(other.names)] == other.names


class Rehearsal:
    """A tree of names. `most` is how many names a directory may have, if there is a limit."""

    def __init__(self, starts: Dict[str, str], most: Optional[int] = None) -> None:
        self.root = File("dir")
        self.most = most
        for path, kind in starts.items():
            here = self.root
            *above, last = path.strip("/").split("/")
            for name in above:
                here = here.names.setdefault(name, File("dir"))
            here.names.setdefault(last, File(kind))

    def refusal(self, event: Event) -> Optional[str]:
        """Returns why an event can't be kept, or None after it has gone as its commands say."""
        for it in event.commands:
            wanted = it.expected.rpartition(" ")[2] if it.expected.startswith("refused") else ""
            try:
                CALLS[it.words[0]](self, it)
                got = ""
            except Refused as reason:
                got = str(reason)
            if got != wanted:
                how = f"would be refused by {got} in its file of checks" if got else f"would not be refused by {wanted}"
                return f"what `{it.text}` asks for isn't learned: it {how}"
        return None

    def find(self, path: str) -> Place:
        names = tuple(path[1:].split("/")) if path != "/" else ()
        if not names:
            raise Refused("EBUSY")
        here = self.root
        for name in names[:-1]:
            below = here.names.get(name)
            if below is None or below.kind != "dir":
                raise Refused("ENOENT" if below is None else "ELOOP" if below.kind == "sym" else "ENOTDIR")
            here = below
        return Place(here, names)

    def both(self, command: Command) -> Tuple[Place, Place]:
        """Returns where both paths lead. One below the other is refused."""
        first, second = (self.find(it) for it in command.paths)
        if second.is_below(first):
            raise Refused("EINVAL")
        return first, second

    # ---- the calls, each of which raises `Refused` if it is refused

    def open(self, command: Command) -> None:
        mode, path = command.words[1], command.words[2]
        if path == "/":
            raise Refused("EISDIR")
        place = self.find(path)
        if place.there is None and "c" in mode:
            place.put(File("reg"), self.most)
        elif place.there is not None and "x" in mode:
            raise Refused("EEXIST")
        need_regular(place.needed(), "ENXIO")

    def exec(self, command: Command) -> None:
        need_regular(self.find(command.words[1]).needed(), "ENXIO")

    def truncate(self, command: Command) -> None:
        need_regular(self.find(command.words[1]).needed(), "EINVAL")

    def close(self, command: Command) -> None:
        pass

    def list(self, command: Command) -> None:
        path = command.words[1]
        if path != "/" and self.find(path).needed().kind != "dir":
            raise Refused("ENOTDIR")

    def make(self, command: Command) -> None:
        place = self.find(command.words[2])
        if place.there is not None:
            raise Refused("EEXIST")
        place.put(File(command.words[1]), self.most)

    def unlink(self, command: Command) -> None:
        place = self.find(command.words[1])
        if place.needed().kind == "dir":
            raise Refused("EISDIR")
        del place.directory.names[place.name]

    def rmdir(self, command: Command) -> None:
        place = self.find(command.words[1])
        file = place.needed()
        if file.kind != "dir" or file.names:
            raise Refused("ENOTEMPTY" if file.kind == "dir" else "ENOTDIR")
        del place.directory.names[place.name]

    def rename(self, command: Command) -> None:
        old, new = self.both(command)
        if old.is_below(new):
            raise Refused("ENOTEMPTY")
        file, there = old.needed(), new.there
        if there is not None and (file.kind == "dir") != (there.kind == "dir"):
            raise Refused("EISDIR" if there.kind == "dir" else "ENOTDIR")
        if there is file:
            return
        if there is not None and there.names:
            raise Refused("ENOTEMPTY")
        self.move(old, new)

    def rename_noreplace(self, command: Command) -> None:
        old, new = self.both(command)
        if old.is_below(new):
            raise Refused("EEXIST")
        old.needed()
        if new.there is not None:
            raise Refused("EEXIST")
        self.move(old, new)

    def move(self, old: Place, new: Place) -> None:
        new.put(old.needed(), None if old.directory is new.directory else self.most)
        del old.directory.names[old.name]

    def exchange(self, command: Command) -> None:
        old, new = self.both(command)
        if old.is_below(new):
            raise Refused("EINVAL")
        one, other = old.needed(), new.needed()
        new.directory.names[new.name] = one
        old.directory.names[old.name] = other

    def link(self, command: Command) -> None:
        old, new = self.both(command)
        if old.is_below(new):
            raise Refused("EEXIST")
        file = old.needed()
        if new.there is not None or file.kind == "dir":
            raise Refused("EEXIST" if new.there is not None else "EPERM")
        new.put(file, self.most)


CALLS: Dict[str, Callable[[Rehearsal, Command], None]] = {
    "open": Rehearsal.open,
    "close": Rehearsal.close,
    "list": Rehearsal.list,
    "make": Rehearsal.make,
    "exec": Rehearsal.exec,
    "truncate": Rehearsal.truncate,
    "unlink": Rehearsal.unlink,
    "rmdir": Rehearsal.rmdir,
    "rename": Rehearsal.rename,
    "rename_noreplace": Rehearsal.rename_noreplace,
    "exchange": Rehearsal.exchange,
    "link": Rehearsal.link,
}


def need_regular(file: File, special: str) -> None:
    """Refuses a file that isn't a regular one; `special` is the refusal of pipes, sockets and devices."""
    if file.kind != "reg":
        raise Refused({"dir": "EISDIR", "sym": "ELOOP"}.get(file.kind, special))


def rehearsed(events: Sequence[Event], notes: List[Note], most: Optional[int] = None) -> List[Event]:
    """Returns the events whose commands are answered as they say, and notes the others."""
    rehearsal = Rehearsal(starts_of(events), most)
    kept = []
    for event in events:
        why = rehearsal.refusal(event)
        if why is None:
            kept.append(event)
        else:
            notes.append(Note(event.line, why))
    return kept
