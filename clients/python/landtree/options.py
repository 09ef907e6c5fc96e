"""Options of the program's commands."""

from __future__ import annotations

import os
from dataclasses import dataclass
from typing import List, Optional, Sequence, Union

from .errors import Fault, shown
from .policy import PROFILE
from .policy_text import path_of
from .values import LEARNED_RULES, Rights, RightsLike

File = Union[str, "os.PathLike[str]"]


@dataclass(frozen=True)
class ExportOptions:
    """The options of `landtree export --as json`."""

    root: Optional[str] = None
    also: Sequence[str] = ()
    deny: Sequence[str] = ()
    checked: Sequence[File] = ()
    follow: bool = False
    best_effort: bool = False

    def words(self) -> List[str]:
        words = [f"--root={self.root}"] if self.root is not None else []
        words += [f"--also={it}" for it in self.also] + [f"--checked={os.fspath(it)}" for it in self.checked]
        words += [f"--deny={','.join(self.deny)}"] if self.deny else []
        flags = {"--follow": self.follow, "--best-effort": self.best_effort}
        return words + [word for word, is_set in flags.items() if is_set]


@dataclass(frozen=True)
class LearnOptions:
    """The options of `landtree learn`: the profile's name, rights that it never grants, directories whose files share
    a rule, and the most rules."""

    name: str = "learned"
    never: RightsLike = Rights.NONE
    beneath: Sequence[str] = ()
    most: Optional[int] = None

    def words(self) -> List[str]:
        never = Rights.of(self.never)
        words = [f"--name={self.name}", *(f"--beneath={it}" for it in self.beneath)]
        words += [f"--never={never}"] if never else []
        return words + ([f"--most={self.most}"] if self.most is not None else [])

    def need_fit(self) -> None:
        """Raises `Fault` if the program refuses these options, whatever it learns from."""
        if not PROFILE.fullmatch(self.name):
            raise Fault(f"--name: {shown(self.name)!r}: a name has 1 to 32 of a to z, 0 to 9 and the hyphen")
        if self.most is not None and not 1 <= self.most <= LEARNED_RULES:
            raise Fault(f"--most: {self.most}: 1 to {LEARNED_RULES} is expected")
        for it in self.beneath:
            path_of("--beneath", it)
