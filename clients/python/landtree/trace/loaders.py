"""What the kernel opens beside a program: its interpreter, or the loader of its libraries."""

from __future__ import annotations

from typing import Optional

HEAD_BYTES = 65_536
LOADER_HEADER = 3
USUAL_LOADER = "/lib64/ld-linux-x86-64.so.2"


def is_script(path: str) -> bool:
    """Says whether a file names an interpreter, which is the program then."""
    try:
        with open(path, "rb") as file:
            return file.read(2) == b"#!"
    except OSError:
        return False


def interpreter_of(path: str) -> Optional[str]:
    """Returns the path of the interpreter or loader that a program names, None if it names none.

    It raises `OSError` if the file can't be read.
    """
    with open(path, "rb") as file:
        head = file.read(HEAD_BYTES)
    if head.startswith(b"#!"):
        return script_interpreter(head)
    if head.startswith(b"\x7fELF"):
        return elf_loader(head)
    return None


def script_interpreter(head: bytes) -> Optional[str]:
    words = head[2:].split(b"\n", 1)[0].split()
    return words[0].decode("utf-8", "surrogateescape") if words else None


def elf_loader(head: bytes) -> Optional[str]:
    """Returns the loader that an ELF file names in its header PT_INTERP."""
    if len(head) < 64:
        return None
    is_64, order = head[4] == 2, "little" if head[5] == 1 else "big"

    def number(place: int, size: int) -> int:
        return int.from_bytes(head[place : place + size], "little" if order == "little" else "big")

    first = number(32, 8) if is_64 else number(28, 4)
    size, count = (number(54, 2), number(56, 2)) if is_64 else (number(42, 2), number(44, 2))
    for place in range(first, first + size * count, size or 1):
        if number(place, 4) == LOADER_HEADER:
            start = number(place + 8, 8) if is_64 else number(place + 4, 4)
            length = number(place + 32, 8) if is_64 else number(place + 16, 4)
            return head[start : start + length].split(b"\0")[0].decode("utf-8", "surrogateescape") or None
    return None
