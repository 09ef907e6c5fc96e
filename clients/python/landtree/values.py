"""The values that calls take and return, and the bounds of a tree."""

from __future__ import annotations

import enum
from typing import Iterable, NamedTuple, Union

KINDS = ("reg", "dir", "sym", "fifo", "sock", "char", "block")
CALL_BYTES = 4_096
FILE_BYTES = 65_536
NAME_BYTES = 255
WORD_BYTES = 8_000
PATH_BYTES = 4_095
PATH_NAMES = 64
DIRECTORY_NAMES = 1_024
TREE_NODES = 4_096
LEARNED_RULES = 256
# The longest reply is the list of a full directory of longest names, each after a space, and a line feed.
REPLY_BYTES = len("names") + DIRECTORY_NAMES * (1 + NAME_BYTES) + 1


class Rights(enum.Flag):
    """A set of rights: `Rights.READ_FILE | Rights.READ_DIR`. `str` gives its text in a line or a policy."""

    NONE = 0
    EXECUTE = enum.auto()
    WRITE_FILE = enum.auto()
    READ_FILE = enum.auto()
    READ_DIR = enum.auto()
    REMOVE_DIR = enum.auto()
    REMOVE_FILE = enum.auto()
    MAKE_CHAR = enum.auto()
    MAKE_DIR = enum.auto()
    MAKE_REG = enum.auto()
    MAKE_SOCK = enum.auto()
    MAKE_FIFO = enum.auto()
    MAKE_BLOCK = enum.auto()
    MAKE_SYM = enum.auto()
    REFER = enum.auto()
    TRUNCATE = enum.auto()
    ALL = 2**15 - 1

    @classmethod
    def parse(cls, text: str) -> Rights:
        """Returns the set with this text, as `read_file,truncate` or `none`.

        A text that a line or a policy can't have raises ValueError: an unknown right, or rights out of order.
        """
        rights = cls.NONE
        for right in SINGLE_RIGHTS:
            if str(right) in text.split(","):
                rights |= right
        if str(rights) != text:
            raise ValueError(f"rights are none, or names in this order, parted by commas: {cls.ALL}; not {text!r}")
        return rights

    @classmethod
    def of(cls, *words: RightsLike) -> Rights:
        """Returns the set of all these: rights and groups of rights, in any order.

        A word is a set, a text of names with commas between, as `"read,make_reg"`, or a list of words. The groups are
        `read`, `write`, `make` and `all`; `GROUPS` has their rights. `execute` is the right of this name alone.
        """
        rights = cls.NONE
        for word in words:
            if isinstance(word, Rights):
                rights |= word
            elif isinstance(word, str):
                rights |= cls.of(*(cls._named(it.strip()) for it in word.split(",") if it.strip()))
            else:
                rights |= cls.of(*word)
        return rights

    @classmethod
    def _named(cls, name: str) -> Rights:
        if name in GROUPS:
            return GROUPS[name]
        if name == "none":
            return cls.NONE
        if name != name.lower() or name.upper() not in cls.__members__:
            raise ValueError(f"a right is one of {cls.ALL}, or a group of {', '.join(GROUPS)}: {name!r}")
        return cls[name.upper()]

    def __str__(self) -> str:
        return ",".join(str(it.name).lower() for it in SINGLE_RIGHTS if it in self) or "none"


RightsLike = Union[Rights, str, "Iterable[RightsLike]"]
SINGLE_RIGHTS = tuple(Rights(1 << bit) for bit in range(15))
# The rights that mean something for what is no directory.
FILE_RIGHTS = Rights.EXECUTE | Rights.WRITE_FILE | Rights.READ_FILE | Rights.TRUNCATE
MAKE_RIGHTS = Rights.MAKE_CHAR | Rights.MAKE_DIR | Rights.MAKE_REG | Rights.MAKE_SOCK | Rights.MAKE_FIFO
MAKE_RIGHTS |= Rights.MAKE_BLOCK | Rights.MAKE_SYM
GROUPS = {
    "read": Rights.READ_FILE | Rights.READ_DIR,
    "write": Rights.WRITE_FILE | Rights.TRUNCATE | Rights.REMOVE_FILE | Rights.REMOVE_DIR,
    "make": MAKE_RIGHTS,
    "all": Rights.ALL,
}


def rights_of_level(abi: int) -> Rights:
    """Returns the rights that a level of the ABI knows, from 1 to 3."""
    return Rights((1 << (12 + abi)) - 1)


class Stat(NamedTuple):
    """What `Client.stat` returns of a node."""

    inode: int
    kind: str
    size: int
    links: int
