"""Names of files as a policy spells them.

A policy's name has printed ASCII characters without a space. Another byte is written `%XX`, with two upper-case digits
in base 16, and so is the percent sign itself: `/my files` is `/my%20files`.
"""

from __future__ import annotations

import os
import re

from .values import NAME_BYTES, PATH_BYTES, PATH_NAMES

ESCAPE = re.compile(rb"%([0-9A-F]{2})")
OTHER = re.compile(rb"[^!-$&-~]")


def is_plain(byte: int) -> bool:
    """Says whether a policy's path has this byte as it is."""
    return 0x21 <= byte <= 0x7E and byte != ord("%")


def encoded(path: str) -> str:
    """Returns a real path as a policy spells it. The path is a text as `os.fsdecode` gives it."""
    return OTHER.sub(lambda byte: b"%%%02X" % byte[0][0], os.fsencode(path)).decode("ascii")


def decoded(path: str) -> str:
    """Returns the real path that `encoded` has spelled so.

    Only what `encoded` writes is undone, so `%41` and `%2F` stay as they are: no name becomes `..` or gets a slash.
    """

    def undone(match: "re.Match[bytes]") -> bytes:
        byte = int(match[1], 16)
        return match[0] if is_plain(byte) else bytes([byte])

    return os.fsdecode(ESCAPE.sub(undone, os.fsencode(path)))


def unfit(path: str) -> str:
    """Returns why no policy can have this path, which is spelled as `encoded` does it, or an empty text."""
    names = path.split("/")[1:] if path != "/" else []
    if len(path) > PATH_BYTES:
        return f"its path has over {PATH_BYTES:,} bytes"
    if len(names) > PATH_NAMES:
        return f"its path has over {PATH_NAMES} names"
    if any(len(name) > NAME_BYTES for name in names):
        return f"a name has over {NAME_BYTES} bytes"
    return ""


def is_in(path: str, directory: str) -> bool:
    """Says whether a path is that of a directory, or of something in it."""
    return path == directory or path.startswith(directory.rstrip("/") + "/")
