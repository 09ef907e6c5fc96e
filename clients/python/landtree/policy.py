"""Policies as objects.

    policy = Policy()
    layer = policy.layer("build", "all")
    policy.allow(layer, ["/src", "$HOME/.config"], "read")
    policy.allow(layer, "/build", "read, write, make")
    pathlib.Path("policy.toml").write_text(policy.dumps())

A path is a real one; a policy has other bytes than printed ASCII as `%XX` (`landtree.names`). `$NAME` and `${NAME}`
stand for variables of the environment, or of `Policy.variables`: none may be empty, and only the path `/` itself means
the whole machine. Directories above a path needn't be named.
"""

from __future__ import annotations

import os
import re
import string
from dataclasses import dataclass, field
from typing import Dict, Iterable, Iterator, List, Mapping, Tuple, Union

from .directories import Node, quoted, tables
from .names import encoded, unfit
from .values import FILE_RIGHTS, GROUPS, KINDS, Rights, RightsLike, rights_of_level

PROFILE = re.compile("[a-z0-9-]{1,32}")
RealPath = Union[str, "os.PathLike[str]"]
Paths = Union[RealPath, Iterable[RealPath]]


@dataclass
class Rule:
    """Rights on the node of a path, which is spelled as a policy does it, and on everything beneath it."""

    path: str
    rights: Rights


@dataclass
class Layer:
    """A layer denies the rights that it handles, except where a rule allows them."""

    handled: Rights
    rules: List[Rule] = field(default_factory=list)


@dataclass
class Policy:
    """A policy: its level of the ABI, its nodes in order, and its profiles' layers, the oldest first."""

    abi: int = 3
    nodes: List[Node] = field(default_factory=list)
    profiles: Dict[str, List[Layer]] = field(default_factory=dict)
    variables: Mapping[str, str] = field(default_factory=lambda: dict(os.environ), repr=False, compare=False)

    def node(self, path: RealPath, kind: str = "reg", data: bytes = b"") -> str:
        """Adds a node, and a directory for each name above it that has no node, and returns its path in the policy.

        A node that is there already stays as it is, if it has this kind.
        """
        if kind not in KINDS:
            raise ValueError(f"a kind is one of {', '.join(KINDS)}: {kind!r}")
        spelled = self._spelled(path)
        there = {"/": "dir", **{it.path: it.kind for it in self.nodes}}
        wanted = [*(Node(it, "dir") for it in ancestors(spelled)), Node(spelled, kind, data)]
        for it in wanted:
            if there.get(it.path, it.kind) != it.kind:
                raise ValueError(f"{it.path} is there already, as {there[it.path]}")
        self.nodes += [it for it in wanted if it.path not in there]
        return spelled

    def layer(self, profile: str, *handled: RightsLike) -> Layer:
        """Adds a layer to a profile, the newest of it, and returns it. `all` means all rights of the policy's level."""
        if not PROFILE.fullmatch(profile):
            raise ValueError(f"a profile's name has 1 to 32 of a to z, 0 to 9 and the hyphen: {profile!r}")
        named, grouped = parted(handled)
        rights = named | grouped & rights_of_level(self.abi)
        if not rights:
            raise ValueError("a layer handles at least one right")
        layer = Layer(rights)
        self.profiles.setdefault(profile, []).append(layer)
        return layer

    def allow(self, layer: Layer, paths: Paths, *rights: RightsLike, kind: str = "dir") -> None:
        """Adds a rule to a layer for each path. `kind` is that of the paths' nodes that aren't there yet.

        Of a group the rule has the rights that the layer handles and that mean something for the node. A right that is
        named alone must be one of these.
        """
        named, grouped = parted(rights)
        for path in [paths] if isinstance(paths, (str, os.PathLike)) else paths:
            spelled = self._spelled(path)
            there = {it.path: it.kind for it in self.nodes}
            kind_there = "dir" if spelled == "/" else there.get(spelled, kind)
            possible = layer.handled & (Rights.ALL if kind_there == "dir" else FILE_RIGHTS)
            if named & ~possible:
                raise ValueError(f"{spelled}: a rule on a {kind_there} of this layer can't have {named & ~possible}")
            if not named | grouped & possible:
                raise ValueError(f"{spelled}: the rule would have no right")
            self.node(path, kind_there)
            layer.rules.append(Rule(spelled, named | grouped & possible))

    def _spelled(self, path: RealPath) -> str:
        real = substituted(os.fspath(path), self.variables)
        names = real.split("/")[1:] if real != "/" else []
        if not real.startswith("/") or any(it in ("", ".", "..") for it in names):
            raise ValueError(f"a path is / or begins with it, and has names between slashes, none . or ..: {real!r}")
        spelled = encoded(real)
        if unfit(spelled):
            raise ValueError(f"{spelled}: {unfit(spelled)}")
        return spelled

    def dumps(self) -> str:
        """Returns the text of the policy, in version 2."""
        if self.abi not in (1, 2, 3):
            raise ValueError(f"a level is 1, 2 or 3: {self.abi}")
        profiles = (text for name, layers in self.profiles.items() for text in profile_tables(name, layers))
        return "\n".join([f"version = 2\nabi = {self.abi}\n", *tables(self.nodes), *profiles])


def substituted(path: str, variables: Mapping[str, str]) -> str:
    """Returns a path with the values of its variables. One that is missing, or that widens the path, is a ValueError.

    An empty value would make `/$NAME` the whole machine, and so would the value `/` make `$NAME`.
    """
    try:
        real = string.Template(path).substitute({name: value for name, value in variables.items() if value})
    except KeyError as error:
        why = "is empty" if error.args[0] in variables else "isn't set"
        raise ValueError(f"{path}: the variable {error.args[0]} {why}") from None
    if real == "/" and path != "/":
        raise ValueError(f"{path}: its variables make it /, the whole machine")
    return real


def ancestors(path: str) -> List[str]:
    """Returns the paths of the directories above a path, the root excepted, from the uppermost on."""
    names = path.split("/")[1:-1]
    return ["/" + "/".join(names[: count + 1]) for count in range(len(names))]


def parted(words: Iterable[RightsLike]) -> Tuple[Rights, Rights]:
    """Returns the rights that are named themselves, and those of named groups."""
    named = grouped = Rights.NONE
    for word in words:
        if isinstance(word, Rights):
            named |= word
        elif isinstance(word, str):
            for name in (it.strip() for it in word.split(",")):
                grouped |= GROUPS.get(name, Rights.NONE)
                named |= Rights.NONE if name in GROUPS else Rights.of(name)
        else:
            more, further = parted(word)
            named, grouped = named | more, grouped | further
    return named, grouped


def profile_tables(name: str, layers: Iterable[Layer]) -> Iterator[str]:
    layers = list(layers)
    if not layers:
        yield f"[profile.{name}]\n"
    for layer in layers:
        yield f"[[profile.{name}.layer]]\nhandled = {quoted(str(layer.handled))}\n"
        for rule in layer.rules:
            yield f"[[profile.{name}.layer.rule]]\npath = {quoted(rule.path)}\nrights = {quoted(str(rule.rights))}\n"
