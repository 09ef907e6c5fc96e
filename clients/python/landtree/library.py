"""Runs Landtree in this process, by the C library (docs/EMBEDDING.md).

    library = Library("out/library/liblandtree.so")
    print(library.run("make dir /a\\n", Setup(policy, "build")).text.decode())
"""

from __future__ import annotations

import ctypes
import os
from dataclasses import dataclass
from typing import Any, Callable, Iterable, List, Tuple, Union

from .errors import LandtreeError
from .options import LearnOptions
from .values import LEARNED_RULES, Rights

VERSION = 1
ENDED, TOO_SHORT = 3, 5
FIRST_ROOM = 1 << 16

# The forms of a report on checks and of a table of rights, by their numbers.
REPORT_FORMS = ("usual", "quiet", "verbose", "tap", "junit", "json")
TABLE_FORMS = ("usual", "layers", "json")

Text = Union[str, bytes]


def encoded(text: Text) -> bytes:
    return text.encode() if isinstance(text, str) else text


def numbered(form: str, forms: Tuple[str, ...]) -> ctypes.c_uint32:
    if form not in forms:
        raise ValueError(f"the form is one of {', '.join(forms)}, and not {form}")
    return ctypes.c_uint32(forms.index(form))


@dataclass(frozen=True)
class Setup:
    """What a tree is set up with.

    The level 0 is the newest one, a history of 0 has the room that the script may need, and an empty policy or profile
    isn't given.
    """

    policy: Text = b""
    profile: str = ""
    level: int = 0
    nodes: int = 4096
    history: int = 0

    def numbers(self) -> List[Any]:
        return [ctypes.c_uint64(self.level), ctypes.c_size_t(self.nodes), ctypes.c_size_t(self.history)]

    def texts(self, script: Text) -> List[bytes]:
        return [encoded(it) for it in (self.policy, self.profile, script)]


@dataclass(frozen=True)
class Answer:
    """An answer, and whether it tells of an end before the script's, of a history that is illegal or teaches nothing,
    or of a check that doesn't pass."""

    text: bytes
    is_ended: bool


class LibraryFault(LandtreeError):
    """Raised if there is no answer. `status` is that of the library, `words` say why."""

    def __init__(self, status: int, words: str) -> None:
        super().__init__(status, words)
        self.status, self.words = status, words

    def __str__(self) -> str:
        return self.words.strip()


class Library:
    """The C library in this file. Threads may call it at will."""

    def __init__(self, path: Union[str, "os.PathLike[str]"]) -> None:
        self._library = ctypes.CDLL(os.fspath(path))
        version = self._library.landtree_version()
        if version != VERSION:
            raise LandtreeError(f"{os.fspath(path)} has version {version}, and {VERSION} is wanted")

    def run(self, script: Text, setup: Setup = Setup(), strict: bool = False) -> Answer:
        """Runs the script, and returns its transcript. A strict run ends as the program's does with `--strict`."""
        return self._ask(self._library.landtree_run, [*setup.numbers(), ctypes.c_uint32(strict)], setup.texts(script))

    def history(self, script: Text, setup: Setup = Setup()) -> Answer:
        """Runs the script, and returns the run's saved history."""
        return self._ask(self._library.landtree_history, setup.numbers(), setup.texts(script))

    def check_policy(self, policy: Text) -> None:
        """Raises `LibraryFault` with the first fault of a text that is no policy."""
        self._ask(self._library.landtree_policy, [], [encoded(policy)])

    def audit(self, history: Text) -> Answer:
        """Judges a saved history."""
        return self._ask(self._library.landtree_audit, [], [encoded(history)])

    def learn(self, history: Text, options: LearnOptions = LearnOptions(), client: int = 0) -> Answer:
        """Learns a profile with no right to spare for what a client did in a saved history: by default the second that
        connects, or the only one. Where nothing is learned, the answer has one line on why."""
        if options.most == 0:
            raise ValueError(f"the most rules are 1 to {LEARNED_RULES}")  # The library takes 0 for the most.
        never, beneath = Rights.of(options.never), "\n".join(options.beneath)
        texts = [encoded(it) for it in (str(never) if never else "", beneath, options.name, history)]
        numbers = [ctypes.c_uint64(client), ctypes.c_size_t(options.most or 0)]
        return self._ask(self._library.landtree_learn, numbers, texts)

    def why_entry(self, history: Text, number: int) -> Answer:
        """Tells why the entry with this number, from 1, of a saved history was answered so."""
        return self._ask(self._library.landtree_why_entry, [ctypes.c_size_t(number)], [encoded(history)])

    def why(self, policy: Text, profile: str, commands: str, nodes: int = 4096) -> Answer:
        """Tells why the profile's command is answered as it is: of one or more commands, one a line, the last one."""
        texts = [encoded(it) for it in (policy, profile, commands)]
        return self._ask(self._library.landtree_why, [ctypes.c_size_t(nodes)], texts)

    def rights(
        self, policy: Text, profile: str, paths: Iterable[Any] = (), form: str = "usual", nodes: int = 4096
    ) -> Answer:
        """Tells which rights the profile is granted: a line for each path, or without any for each node of the policy.

        It has the rights that all layers grant; with the form "layers" a column for each layer too; with "json" it is
        an object of JSON.
        """
        words = [os.fspath(path) for path in paths]
        if any("\n" in word for word in words):
            raise ValueError("a path has a line feed")
        numbers = [ctypes.c_size_t(nodes), numbered(form, TABLE_FORMS)]
        lines = "".join(f"{word}\n" for word in words)
        return self._ask(self._library.landtree_rights, numbers, [encoded(it) for it in (policy, profile, lines)])

    def check(self, checks: Text, setup: Setup = Setup(), name: str = "checks", form: str = "usual") -> Answer:
        """Checks the file of checks with this name and this text. The setup's `history` isn't used."""
        numbers = [*setup.numbers()[:2], numbered(form, REPORT_FORMS)]
        texts = [encoded(it) for it in (setup.policy, setup.profile, name, checks)]
        return self._ask(self._library.landtree_check, numbers, texts)

    def _ask(self, call: Callable[..., int], numbers: List[Any], texts: List[bytes]) -> Answer:
        lent = [it for text in texts for it in (ctypes.c_char_p(text), ctypes.c_size_t(len(text)))]
        room, length = FIRST_ROOM, ctypes.c_size_t()
        while True:
            out = ctypes.create_string_buffer(room)
            status = call(*numbers, *lent, out, ctypes.c_size_t(room), ctypes.byref(length))
            if status != TOO_SHORT:
                break
            room = length.value
        text = out.raw[: length.value]
        if status not in (0, ENDED):
            raise LibraryFault(status, text.decode(errors="replace"))
        return Answer(text, status == ENDED)
