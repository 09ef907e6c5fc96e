"""Writes files that get their names only when they are whole."""

from __future__ import annotations

import contextlib
import os
from pathlib import Path
from typing import List, Sequence, Tuple

from ..errors import Fault


def write_all(texts: Sequence[Tuple[Path, str]], *, replace: bool = False, mode: int = 0o666) -> None:
    """Writes texts to files, in UTF-8, or nothing at all if one of them can't be written.

    A file that is there already is a `Fault` unless `replace` says so. Each text is first in a new file with `.part`
    after its name; nothing that has this name is opened or followed. `mode` has the bits of a file's permissions.
    """
    for file, _ in texts:
        if not replace and os.path.lexists(file):
            raise Fault(f"{file}: it is there already")
    parts: List[Tuple[Path, Path]] = []
    try:
        for file, text in texts:
            part = file.with_name(f"{file.name}.part")
            with open(part, "x", encoding="utf-8", opener=lambda path, flags: os.open(path, flags, mode)) as new:
                parts.append((part, file))
                new.write(text)
        for part, file in parts:
            part.replace(file)
    except OSError as error:
        raise Fault(f"{error.filename}: {error.strerror}") from None
    finally:
        for part, _ in parts:
            with contextlib.suppress(OSError):  # It has its name now.
                part.unlink()
