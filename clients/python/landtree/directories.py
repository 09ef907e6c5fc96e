"""Real directories as the nodes of policies."""

from __future__ import annotations

import os
import re
import stat
from fnmatch import fnmatchcase
from typing import Dict, Iterable, Iterator, List, NamedTuple, Tuple, Union

from .values import CALL_BYTES, DIRECTORY_NAMES, FILE_BYTES, NAME_BYTES, PATH_BYTES, PATH_NAMES, TREE_NODES

Folder = Union[str, bytes, "os.PathLike[str]", "os.PathLike[bytes]"]
Path = Union[str, "os.PathLike[str]"]

NAME = re.compile(f"[!-.0-~]{{1,{NAME_BYTES}}}")
REAL_KINDS = {
    stat.S_IFREG: "reg",
    stat.S_IFDIR: "dir",
    stat.S_IFLNK: "sym",
    stat.S_IFIFO: "fifo",
    stat.S_IFSOCK: "sock",
    stat.S_IFCHR: "char",
    stat.S_IFBLK: "block",
}
# What is opened is never a link, and an opening never waits, should a file have become a fifo.
OPENING = os.O_RDONLY | os.O_NOFOLLOW | os.O_NONBLOCK | os.O_NOCTTY | os.O_CLOEXEC


class Snapshot(NamedTuple):
    """A policy's text with the nodes of a real directory.

    `left_out` has each path that can't be a node, with the reason, and `excluded` each path that a pattern excluded.
    `entries` is how many entries of a history the nodes take, so a run's `history` must be more. `sizes` has the bytes
    of each regular file, by its node's path.
    """

    text: str
    left_out: List[Tuple[str, str]]
    entries: int
    excluded: List[str]
    sizes: Dict[str, int]


class Node(NamedTuple):
    """A node of a policy."""

    path: str
    kind: str
    data: bytes = b""


class Unfit(ValueError):
    """Raised if something can't be a node of the policy; says why."""


class Spot(NamedTuple):
    """A name in a real directory that is open; `place` is its path from the snapshot's directory."""

    directory: int
    name: str
    place: str

    def is_one_of(self, patterns: Iterable[str]) -> bool:
        return any(fnmatchcase(self.name, it) or fnmatchcase(self.place, it) for it in patterns)

    def found(self) -> os.stat_result:
        return os.stat(self.name, dir_fd=self.directory, follow_symlinks=False)

    def opened(self, found: os.stat_result, flags: int = 0) -> int:
        """Opens what was found there, if it is still what is there, and returns the descriptor."""
        descriptor = os.open(self.name, OPENING | flags, dir_fd=self.directory)
        now = os.fstat(descriptor)
        if not os.path.samestat(found, now) or stat.S_IFMT(found.st_mode) != stat.S_IFMT(now.st_mode):
            os.close(descriptor)
            raise Unfit("it was replaced while it was read")
        return descriptor

    def data(self, found: os.stat_result) -> bytes:
        """Returns the bytes of a file."""
        descriptor = self.opened(found)
        data = b""
        try:
            while len(data) <= FILE_BYTES:
                piece = os.read(descriptor, FILE_BYTES + 1 - len(data))
                if not piece:
                    return data
                data += piece
        finally:
            os.close(descriptor)
        raise Unfit("it has over 65,536 bytes")


def joined(path: str, name: str) -> str:
    """Returns the path of a name in a directory, if a tree can have it."""
    if not NAME.fullmatch(name) or name in (".", ".."):
        raise Unfit("its name isn't 1 to 255 printed ASCII characters without a space")
    whole = f"{path.rstrip('/')}/{name}"
    if len(whole) > PATH_BYTES:
        raise Unfit("its path has over 4,095 bytes")
    if whole.count("/") > PATH_NAMES:
        raise Unfit("its path has over 64 names")
    return whole


class Taking:
    """The nodes that a snapshot has taken so far, `most` at most, and what it has left out."""

    def __init__(self, folder: str, most: int, data: bool, exclude: List[str]) -> None:
        self.folder = folder
        self.most = most
        self.data = data
        self.exclude = exclude
        self.nodes: List[Node] = []
        self.left_out: List[Tuple[str, str]] = []
        self.excluded: List[str] = []
        self.sizes: Dict[str, int] = {}
        self.first_paths: Dict[Tuple[int, int], str] = {}

    def need_room(self) -> None:
        if len(self.nodes) >= self.most:
            raise Unfit("the tree has no node left")

    def take_directory_path(self, path: str) -> None:
        """Takes a node for each directory that a path names, none of them real."""
        so_far = "/"
        for name in path.split("/")[1:] if path != "/" else []:
            so_far = joined(so_far, name)
            self.need_room()
            self.nodes.append(Node(so_far, "dir"))

    def take_names(self, directory: int, names: List[str], place: str, path: str) -> None:
        """Takes these names of a real directory that is open, whose node has this path."""
        taken = 0
        for name in sorted(names, key=os.fsencode):
            spot = Spot(directory, name, os.path.join(place, name))
            real = os.path.join(self.folder, spot.place)
            if spot.is_one_of(self.exclude):
                self.excluded.append(real)
                continue
            try:
                if taken == DIRECTORY_NAMES:
                    raise Unfit("its directory has 1,024 names already")
                self.take(spot, joined(path, name))
                taken += 1
            except Unfit as error:
                self.left_out.append((real, str(error)))
            except OSError as error:
                self.left_out.append((real, str(error.strerror)))

    def take(self, spot: Spot, path: str) -> None:
        """Takes what is at a spot, with all that lies in it, or raises why it can't be a node."""
        found = spot.found()
        kind = REAL_KINDS.get(stat.S_IFMT(found.st_mode))
        if kind is None:
            raise Unfit("it is of no kind that a tree has")
        self.need_room()
        if kind == "dir":
            self.take_directory(spot, found, path)
        else:
            self.take_leaf(spot, found, Node(path, kind))

    def take_directory(self, spot: Spot, found: os.stat_result, path: str) -> None:
        directory = spot.opened(found, os.O_DIRECTORY)
        try:
            names = os.listdir(directory)
            self.nodes.append(Node(path, "dir"))
            self.take_names(directory, names, spot.place, path)
        finally:
            os.close(directory)

    def take_leaf(self, spot: Spot, found: os.stat_result, node: Node) -> None:
        key = (found.st_dev, found.st_ino)
        if key in self.first_paths:
            raise Unfit(f"it is a further link of {self.first_paths[key]}")
        if self.data and node.kind == "reg":
            node = node._replace(data=spot.data(found))
        self.nodes.append(node)
        if node.kind == "reg":
            self.sizes[node.path] = found.st_size
        if found.st_nlink > 1:
            self.first_paths[key] = node.path


def quoted(text: str) -> str:
    """Returns printed ASCII as a string of TOML."""
    escaped = text.replace("\\", "\\\\").replace('"', '\\"')
    return f'"{escaped}"'


def tables(nodes: Iterable[Node]) -> Iterator[str]:
    for node in nodes:
        data = f'data = "{node.data.hex()}"\n' if node.data else ""
        yield f'[[node]]\npath = {quoted(node.path)}\nkind = "{node.kind}"\n{data}'


def entries_of(nodes: Iterable[Node]) -> int:
    """Returns how many entries it takes to make nodes: the loader's connect, and each node's calls."""
    pieces = [-(-len(node.data) // CALL_BYTES) for node in nodes]
    return 1 + sum(3 + it if it else 1 for it in pieces)


def patterns_of(exclude: Union[str, Iterable[str]]) -> List[str]:
    """Returns the patterns, or the only one, if each can match."""
    patterns = [exclude] if isinstance(exclude, str) else list(exclude)
    for it in patterns:
        if not it or it.startswith("/") or it.endswith("/"):
            raise ValueError(f"a pattern isn't empty and has no slash at an end: {it!r}")
    return patterns


def snapshot(
    directory: Folder,
    at: Path = "/",
    nodes: int = 1_024,
    abi: int = 3,
    *,
    data: bool = False,
    exclude: Union[str, Iterable[str]] = (),
) -> Snapshot:
    """Returns the nodes in a real directory as the text of a policy, to which profiles may be added.

    `at` is the directory of the tree in which they lie; it and those above it are made too. `nodes` is how many nodes
    may live in the tree, as for `Landtree.run`, and `abi` is the tree's level.

    Files are empty in the policy, and none is opened. With `data=True` they have their bytes, so the text has any
    secret that they hold.

    `exclude` has patterns of `fnmatch`, case-sensitive. A pattern excludes each name that it matches, at any depth, and
    each path from the directory on that it matches; `*` matches slashes too. What lies in an excluded directory is
    excluded with it, and isn't listed.

    What can't be a node of a policy is left out and listed, a directory with all that lies in it: names of other
    characters than printed ASCII, paths and contents that are too long, further links of a file, what can't be read,
    and what the tree has no room for. A symbolic link is a node of kind sym, without its text. No link beneath the
    directory is followed, even if it replaces something while this reads.
    """
    if not 1 <= nodes <= TREE_NODES:
        raise ValueError(f"a tree has 1 to 4,096 nodes: {nodes}")
    if abi not in (1, 2, 3):
        raise ValueError(f"a level is 1, 2 or 3: {abi}")
    at = os.fspath(at)
    if not at.startswith("/"):
        raise ValueError(f"a path begins with a slash: {at!r}")
    folder = os.fsdecode(directory)
    taking = Taking(folder, nodes - 1, data, patterns_of(exclude))
    taking.take_directory_path(at)
    opened = os.open(folder, os.O_RDONLY | os.O_DIRECTORY | os.O_CLOEXEC)
    try:
        taking.take_names(opened, os.listdir(opened), "", at)
    finally:
        os.close(opened)
    text = "\n".join([f"version = 2\nabi = {abi}\n", *tables(taking.nodes)])
    return Snapshot(text, taking.left_out, entries_of(taking.nodes), taking.excluded, taking.sizes)
