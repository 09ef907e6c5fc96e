"""Turns what was recorded into the nodes of a policy and a file of checks."""

from __future__ import annotations

import os
from dataclasses import dataclass, field
from pathlib import Path
from typing import Dict, List, Optional, Tuple

from ..values import DIRECTORY_NAMES
from .events import Note
from .files import write_all
from .inputs import only_read
from .recording import read_recorded
from .rehearsal import rehearsed
from .slim import slimmed
from .texts import beside_made, checks_text, first_nodes, need_room, nodes_text


@dataclass(frozen=True)
class Converted:
    """What came of a log.

    `nodes` is the text of a policy without profiles, and `checks` that of a file of checks. `notes` says what a policy
    can't say. `calls` counts the calls that ask for rights, and `commands` those that are kept. `only_read` has the
    files that the program only read, as `files_only_read` does.
    """

    log: str
    nodes: str
    checks: str
    notes: List[Note]
    shared: List[Tuple[str, str]]
    calls: int
    commands: int
    only_read: List[str] = field(default_factory=list)

    def told(self) -> List[str]:
        """Returns a line for all that a policy can't say, with the first line of the log that shows it."""
        places: Dict[str, List[int]] = {}
        for it in self.notes:
            places.setdefault(it.text, []).append(it.line)
        more = {text: f" (and {len(at) - 1:,} times more)" if len(at) > 1 else "" for text, at in places.items()}
        lines = [f"{self.log}:{at[0]}: {text}{more[text]}" for text, at in places.items()]
        text = "are two names of one file, and a policy has two files there"
        return lines + [f"{self.log}: {one} and {two} {text}" for one, two in self.shared]

    def write(self, nodes: Path, checks: Path, *, replace: bool = False) -> None:
        """Writes both texts, or none of them. A file that is there already is a `Fault` unless `replace` says so."""
        write_all([(nodes, self.nodes), (checks, self.checks)], replace=replace)


def convert(log: "os.PathLike[str] | str", *, whole: bool = False) -> Converted:
    """Returns what comes of a log that `record` has made. With `whole` each call has its commands, also one that asks
    for nothing that another one doesn't ask for.

    A log that was cut or isn't strace's, and one that needs more nodes than a tree has, is a `Fault`.
    """
    trace = read_recorded(log)
    notes = trace.notes
    events = rehearsed(trace.events, notes)
    events = rehearsed(events if whole else slimmed(events), notes, DIRECTORY_NAMES)
    nodes = first_nodes(events)
    nodes = sorted([*nodes, *beside_made(events, nodes, trace.tree)], key=lambda it: it.path.split("/"))
    need_room(os.fspath(log), nodes, events)
    texts = (os.fspath(log), nodes_text(nodes), checks_text(events))
    commands = sum(len(it.commands) for it in events)
    notes.sort(key=lambda it: it.line)
    return Converted(*texts, notes, trace.tree.shared, len(trace.events), commands, only_read(trace.events))


def names_beside(log: "os.PathLike[str] | str", nodes: Optional[str], checks: Optional[str]) -> Tuple[Path, Path]:
    """Returns the files for both texts: as they are named, or beside the log with its name."""
    place = Path(log)
    stem = place.with_suffix("") if place.suffix == ".log" else place
    return Path(nodes or f"{stem}.nodes.toml"), Path(checks or f"{stem}.check")
