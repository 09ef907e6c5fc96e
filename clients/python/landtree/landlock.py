"""The kernel's Landlock, and when a file came to be: what Python has no calls for.

Numbers and layouts are those of linux/landlock.h and linux/stat.h. The numbers of the calls are the same on every
architecture but Alpha. A failed call raises `OSError`.
"""

from __future__ import annotations

import ctypes
import errno
import os
import struct
from typing import Optional

CREATE_RULESET, ADD_RULE, RESTRICT_SELF = 444, 445, 446
VERSION = 1
RULE_PATH_BENEATH = 1
SET_NO_NEW_PRIVS = 38
# How many rights of the file system each level knows, from level 1 on. Level 5 adds ioctl_dev.
RIGHTS_OF_LEVEL = (13, 14, 15, 15, 16)
IOCTL_DEV = 1 << 15
BIND_TCP, CONNECT_TCP = 1, 2
SCOPE_ABSTRACT_UNIX_SOCKET, SCOPE_SIGNAL = 1, 2
AT_FDCWD, AT_SYMLINK_NOFOLLOW = -100, 0x100
STATX_BTIME, STATX_BYTES, BTIME_OFFSET = 0x800, 256, 80

LIBRARY = ctypes.CDLL(None, use_errno=True)


def called(result: int) -> int:
    """Returns a call's result, or raises what it has failed with."""
    if result < 0:
        number = ctypes.get_errno()
        raise OSError(number, os.strerror(number))
    return result


def system_call(number: int, *words: "int | bytes | None") -> int:
    """Makes a system call whose words are numbers, or bytes that the kernel reads."""
    typed = [ctypes.c_long(it) if isinstance(it, int) else ctypes.c_char_p(it) for it in words]
    return called(LIBRARY.syscall(ctypes.c_long(number), *typed))


def level() -> int:
    """Returns the level of Landlock's ABI that the kernel offers, 0 if it has none or has it switched off."""
    try:
        return system_call(CREATE_RULESET, None, 0, VERSION)
    except OSError as error:
        if error.errno in (errno.ENOSYS, errno.EOPNOTSUPP, errno.EPERM):
            return 0
        raise


def known_rights(level: int) -> int:
    """Returns the rights of the file system that a level knows, as the kernel's bits."""
    return 0 if level < 1 else (1 << RIGHTS_OF_LEVEL[min(level, len(RIGHTS_OF_LEVEL)) - 1]) - 1


def create_ruleset(files: int, network: int = 0, scopes: int = 0) -> int:
    """Returns the descriptor of a ruleset that handles these bits. The kernel's level must know them."""
    fields = [files, network, scopes]
    while len(fields) > 1 and not fields[-1]:
        fields.pop()  # An older kernel has a shorter struct.
    words = struct.pack(f"={len(fields)}Q", *fields)
    return system_call(CREATE_RULESET, words, len(words), 0)


def add_rule(ruleset: int, files: int, descriptor: int) -> None:
    """Adds a rule: these rights on the file of a descriptor, and on everything beneath it."""
    system_call(ADD_RULE, ruleset, RULE_PATH_BENEATH, struct.pack("=Qi", files, descriptor), 0)


def restrict_self(ruleset: int) -> None:
    """Makes a ruleset the newest layer of this thread, for good."""
    called(LIBRARY.prctl(SET_NO_NEW_PRIVS, *(ctypes.c_ulong(it) for it in (1, 0, 0, 0))))
    system_call(RESTRICT_SELF, ruleset, 0)


def text_of(path: str) -> bytes:
    """Returns a path as C has it. One with a zero byte would be cut there, so it is EINVAL."""
    text = os.fsencode(path)
    if b"\0" in text:
        raise OSError(errno.EINVAL, os.strerror(errno.EINVAL))
    return text


def birth_of(path: str) -> Optional[float]:
    """Returns when a file came to be, in seconds, if its file system keeps that."""
    found = ctypes.create_string_buffer(STATX_BYTES)
    words = (ctypes.c_int(AT_SYMLINK_NOFOLLOW), ctypes.c_uint(STATX_BTIME), found)
    try:
        called(LIBRARY.statx(ctypes.c_int(AT_FDCWD), ctypes.c_char_p(text_of(path)), *words))
    except (AttributeError, OSError):
        return None
    mask = struct.unpack_from("=I", found)[0]
    seconds, parts = struct.unpack_from("=qI", found, BTIME_OFFSET)
    return float(seconds) + parts / 1e9 if mask & STATX_BTIME else None
