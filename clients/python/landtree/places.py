"""The real files for paths of a policy, and how they are opened: through no link that somebody may have put there."""

from __future__ import annotations

import contextlib
import errno
import os
import stat
from dataclasses import dataclass
from typing import Iterator, Sequence, Tuple

from .errors import Fault, shown
from .exported import Exported
from .names import decoded, is_in
from .policy_text import path_of


class LinkOnPath(Exception):
    """Raised if a link is on a path that has to lead where its names say. Its text names the link."""


@dataclass(frozen=True)
class Mapped:
    """The real directories that stand for places of a policy.

    `maps` has a policy's path and a real directory each; of two that fit, the longer path counts. `optional` has paths
    of rules that may be missing.
    """

    root: str = "/"
    maps: Sequence[Tuple[str, str]] = ()
    optional: Sequence[str] = ()

    def map_of(self, path: str) -> Tuple[str, str]:
        """Returns the policy's directory of which the path is taken to be, and the real one that stands for it."""
        fitting = [it for it in self.maps if is_in(path, it[0])]
        return max(fitting, key=lambda it: len(it[0]), default=("/", self.root))

    def is_mapped(self, path: str) -> bool:
        return self.map_of(path) in self.maps

    def place(self, path: str) -> Tuple[str, str]:
        """Returns the real directory below which a policy's path lies, and the rest of the path, both real."""
        inner, real = self.map_of(path)
        return real, decoded(path[len(inner.rstrip("/")) :].lstrip("/"))

    def real(self, path: str) -> str:
        """Returns the real path that stands for a policy's path, without a link on it if there can be such a path."""
        real = os.path.join(*self.place(path))
        return real if "\0" in real else os.path.realpath(real)


def opened_below(real: str, rest: str) -> int:
    """Opens a directory below another one, and returns its descriptor. A link on the way raises `LinkOnPath`."""
    file, path = os.open(real, os.O_PATH), real
    for name in [it for it in rest.split("/") if it]:
        path = os.path.join(path, name)
        with closing(file):
            file = os.open(name, os.O_PATH | os.O_NOFOLLOW, dir_fd=file)
        mode = os.fstat(file).st_mode
        if not stat.S_ISDIR(mode):
            os.close(file)
            if stat.S_ISLNK(mode):
                raise LinkOnPath(f"{path} is a link")
            raise OSError(errno.ENOTDIR, os.strerror(errno.ENOTDIR))
    return file


def need_fit(exported: Exported, mapped: Mapped) -> None:
    """Raises `Fault` for a map and an optional path that no rule has, or that lead elsewhere than they say."""
    paths = {rule.path for layer in exported.layers for rule in layer.rules}
    used = {mapped.map_of(it) for it in paths}
    for inner, real in mapped.maps:
        need_spelled(f"--map {inner}={real}", inner)
        need_straight(f"--map {inner}={real}", real, exported.follow)
        if (inner, real) not in used:
            raise Fault(f"--map {inner}={real}: no rule of the profile is there")
    for path in mapped.optional:
        need_spelled(f"--optional {path}", path)
        if path not in paths:
            raise Fault(f"--optional {path}: no rule of the profile has this path")


def need_spelled(option: str, path: str) -> None:
    try:
        path_of(option, path)
    except Fault:
        raise Fault(f"{option}: {shown(path)!r} is no path of a policy, from / on and without . and ..") from None


def need_straight(option: str, real: str, follow: bool) -> None:
    """Raises `Fault` unless a real path is that of a directory, without `..`, and without a link unless one may be."""
    if not real.startswith("/") or {".", ".."} & set(real.split("/")):
        raise Fault(f"{option}: {shown(real)!r} is no path from / on and without . and ..")
    if not os.path.isdir(real):
        raise Fault(f"{option}: {real} is no directory")
    if not follow:
        with telling(option):
            os.close(opened_below("/", real))


@contextlib.contextmanager
def telling(place: str) -> Iterator[None]:
    """Turns an operating system's error into a fault at this place."""
    try:
        yield
    except OSError as error:
        raise Fault(f"{place}: {error.strerror}") from None
    except (ValueError, LinkOnPath) as error:
        raise Fault(f"{place}: {error}") from None


@contextlib.contextmanager
def closing(file: int) -> Iterator[int]:
    try:
        yield file
    finally:
        os.close(file)
