"""Tests of the tables of clients/mount/README.md: what becomes of each refusal of the tree, and of what it hasn't."""

import os
import re
from pathlib import Path

from fuzzing.program import holds, same

from .room import Missing, behind_proxy, proxied

PAGE = Path(__file__).resolve().parent.parent.parent / "clients/mount/README.md"
REFUSALS = "ENOENT EEXIST ENOTDIR EISDIR ENOTEMPTY EINVAL EPERM EBUSY EBADF EMFILE ENOSPC EMLINK ENAMETOOLONG EFBIG ELOOP"
REFUSALS = [*REFUSALS.split(), "ENXIO", "E2BIG", "ENOMSG", "HistoryFull", "NoMemory", "BadLine", "Stale"]
BECOMES = {"EMFILE": "ENFILE", "E2BIG": "EIO", "ENOMSG": "EIO", "HistoryFull": "EIO", "NoMemory": "ENOMEM", "BadLine": "EIO"}


def refusals_become_errnos(room, seed):
    """Each of the tree's refusals becomes one errno."""
    names = {f"reply-refused.{3 + place}.{it}": BECOMES.get(it, it) for place, it in enumerate(REFUSALS)}
    names["reply-refused.24.Stale"] = "EIO"
    names |= {"reply-denied.EACCES.layer.1.remove_file.at": "EACCES", "reply-denied.EXDEV.layer.2.refer.old": "EXDEV"}
    names |= {"reply-refused.1.EACCES": "EACCES", "reply-refused.2.EXDEV": "EXDEV", "reply-refused.99.Unknown": "EIO"}
    here = behind_proxy(room)
    ended = here.run(command=here.inside("errnos", *names), **proxied(room))
    same(ended.found(), names, "the errnos")
    table = PAGE.read_text()
    for place, it in enumerate(REFUSALS):
        number, name = place + 3, BECOMES.get(it, it) if it != "Stale" else "EIO"
        holds(re.search(rf"\| {number} {it}\b[^|]*\|[^|]*\b{name}\b", table), f"README.md has another errno for {it}")


ROWS = {
    "chmod": 0o4755,
    "a write clears setuid": 0o4755,
    "chown": [1000, 1001],
    "a set-group-ID directory": [7, True],
    "utimensat": 1234567890123456789,
    "readlink": "f",
    "a device's number": [True, 259, "EACCES"],
    "a fifo": [True, 0],
    "setxattr": "ENOTSUP",
    "getxattr": "ENOTSUP",
    "O_TMPFILE": "ENOTSUP",
    "fallocate": "ENOTSUP",
    "posix_fallocate": None,
    "FS_IOC_GETFLAGS": "ENOTTY",
    "RENAME_WHITEOUT": "EINVAL",
    "RENAME_NOREPLACE": "EEXIST",
    "RENAME_EXCHANGE": [0, 0],
    "fsync": None,
    "flock": None,
    "copy_file_range": 4,
    "a shared map": "abc",
    "O_PATH": None,
    "an unlinked file": [2, 0, "ab", "ENOENT"],
    "one of two names": [1, True, "1"],
    "write at 65,536": "EFBIG",
    "write across 65,536": 6,
    "ftruncate to 65,537": "EFBIG",
    "255 letters": None,
    "256 letters": "ENAMETOOLONG",
    "86 letters of two bytes": "ENAMETOOLONG",
    "a name of 258 spelled": "ENAMETOOLONG",
    "a line feed": True,
    "depth": "ENAMETOOLONG at 65",
    "links": "EMLINK at 1001",
    "execve without x": "EACCES",
    "execve": 3,
    "statfs": [4096, 1, 2],
    "rmdir of a file": "ENOTDIR",
    "rmdir of a full directory": "ENOTEMPTY",
    "a directory below itself": "EINVAL",
}
ROWS_OF_THE_MOUNT = {"write at 65,536": 1, "write across 65,536": 10, "ftruncate to 65,537": None}


def each_row(room, seed):
    """What the tree hasn't is kept by the mount, or refused with the errno of the table."""
    if os.getuid() != 0:
        raise Missing("only root may make devices and give files away")
    for kept in ("tree", "mount"):
        ended = room.run("--bytes", kept, "--save", room.history, command=room.inside("rows"))
        wanted = {**ROWS, **(ROWS_OF_THE_MOUNT if kept == "mount" else {})}
        found = ended.found()
        for name, want in wanted.items():
            same(found.get(name), want, f"{name} with --bytes {kept}")
        room.wants_legal()


TESTS = [refusals_become_errnos, each_row]
