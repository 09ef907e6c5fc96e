"""Reads a whole log, call by call."""

from __future__ import annotations

import os
from typing import Dict

from . import links, namings, openings, processes
from .inventory import Inventory
from .lives import Lives
from .log import End, Log, entries
from .state import Trace

HANDLERS: Dict[str, openings.Handler] = {
    **openings.HANDLERS,
    **processes.HANDLERS,
    **namings.HANDLERS,
    **links.HANDLERS,
}
# The calls that strace logs. Others ask a layer for nothing: stat, access, readlink, chmod, utimensat, mmap, connect ..
TRACED = tuple(HANDLERS)
# Only 32-bit code makes these calls, but a 64-bit program may run such code.
NARROW = ("truncate64", "ftruncate64", "fcntl64", "umount")


def read(log: "os.PathLike[str] | str", inventory: Inventory, directory: str) -> Trace:
    """Returns what the calls of a log ask for, by a program that began in this directory.

    A log that was cut, or that has a line which isn't strace's, is a `Fault`.
    """
    trace = Trace(inventory, directory, Lives(log))
    for entry in entries(Log(os.fspath(log))):
        if isinstance(entry, End):
            trace.end(entry)
            continue
        handler = HANDLERS.get(entry.name)
        if handler is None:
            continue  # A call that somebody has logged too.
        try:
            handler(trace, entry, trace.process(entry.process, entry.began))
        except IndexError:
            trace.note(entry, f"{entry.name} has fewer arguments than it takes: {', '.join(entry.arguments)}")
    return trace
