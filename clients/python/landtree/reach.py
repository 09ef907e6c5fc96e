"""What a profile grants on paths, and which names a program may have lead to something else by it.

A layer's rule is on the file that has its path when the program starts. Whoever may remove and make names above such a
path chooses, by a rename, on which file the rule is at the next start.
"""

from __future__ import annotations

from dataclasses import dataclass
from typing import Callable, Iterator, Sequence, Tuple, Union

from .exported import ExportedLayer
from .names import is_in
from .policy import Layer, ancestors
from .values import Rights

MAKE_OF_KIND = {
    "reg": Rights.MAKE_REG,
    "dir": Rights.MAKE_DIR,
    "sym": Rights.MAKE_SYM,
    "fifo": Rights.MAKE_FIFO,
    "sock": Rights.MAKE_SOCK,
    "char": Rights.MAKE_CHAR,
    "block": Rights.MAKE_BLOCK,
}
Ruled = Tuple[Rights, Sequence[Tuple[str, Rights]]]


@dataclass(frozen=True)
class Replacement:
    """A directory whose names lead where a program wants, by these rights on it."""

    directory: str
    rights: Rights


@dataclass(frozen=True)
class Reach:
    """The layers of a profile: the rights that each handles, and the paths and rights of its rules."""

    layers: Sequence[Ruled]

    @classmethod
    def of(cls, layers: Sequence[Union[Layer, ExportedLayer]], real: Callable[[str], str] = str) -> Reach:
        """Returns the reach of layers on the paths for which those of their rules are taken: `real` says which."""
        return cls([(it.handled, [(real(rule.path), rule.rights) for rule in it.rules]) for it in layers])

    def rights(self, path: str) -> Rights:
        """Returns the rights that every layer grants on a path."""
        granted = Rights.ALL
        for handled, rules in self.layers:
            own = Rights.ALL & ~handled
            for rule_path, rights in rules:
                if is_in(path, rule_path):
                    own |= rights
            granted &= own
        return granted

    def replacements(self, path: str, kind: str, follows: bool = False) -> Iterator[Replacement]:
        """Yields each directory where a program may put something else in the place of a path, or of one above it.

        That is of the same kind, or a link if whoever opens the path then `follows` one.
        """
        above = ancestors(path)
        for name, directory in zip([*above, path], ["/", *above]):
            is_file = name == path and kind != "dir"
            makes = [MAKE_OF_KIND[kind] if is_file else Rights.MAKE_DIR, *([Rights.MAKE_SYM] if follows else [])]
            removes = Rights.REMOVE_FILE if is_file else Rights.REMOVE_DIR
            for needed in (removes | it for it in makes):
                if path != "/" and not needed & ~self.rights(directory):
                    yield Replacement(directory, needed)

    def may_change(self, path: str, kind: str) -> bool:
        """Says whether a program may write what a path leads to, or have it lead to something else."""
        writes = Rights.WRITE_FILE | (Rights.MAKE_REG if kind == "dir" else Rights.NONE)
        return bool(writes & self.rights(path)) or any(self.replacements(path, kind, follows=True))
