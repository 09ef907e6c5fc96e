"""Reads the text of a policy. `landtree` judges policies; this refuses what it would refuse, and says where."""

from __future__ import annotations

import os
import re
from pathlib import Path
from typing import Any, Dict, List, Optional, Tuple, Type, Union

from .directories import Node
from .errors import Fault, shown
from .policy import PROFILE, Layer, Policy, Rule
from .values import FILE_BYTES, KINDS, NAME_BYTES, PATH_BYTES, PATH_NAMES, Rights

NAME = re.compile(f"[!-.0-~]{{1,{NAME_BYTES}}}")
DATA = re.compile(f"([0-9a-f]{{2}}){{0,{FILE_BYTES}}}")
BYTE_ORDER_MARK = "\ufeff"
Table = Dict[str, Any]


def read_policy(file: Union[str, "os.PathLike[str]"]) -> Policy:
    """Returns the policy in a file. What is wrong with it is a `Fault` that names the file and the place."""
    try:
        text = Path(file).read_bytes()
    except OSError as error:
        raise Fault(f"{os.fspath(file)}: {error.strerror}") from None
    try:
        return load_policy(text.decode("utf-8"))
    except UnicodeDecodeError:
        raise Fault(f"{os.fspath(file)}: the text is no UTF-8") from None
    except Fault as fault:
        raise Fault(f"{os.fspath(file)}: {fault}") from None


def load_policy(text: str) -> Policy:
    """Returns the policy that a text has, of version 1 or 2. What is wrong is a `Fault` that names the place.

    Python reads TOML 1.0, and the program 1.1. So this refuses a few policies that the program takes: those with a line
    feed or a last comma in an inline table, or with the escape `\\e` or `\\xHH`.
    """
    document = parsed(text)
    keys = {"version": (int, True), "abi": (int, False), "node": (list, False), "profile": (dict, False)}
    need_keys("the policy", document, keys)
    version, abi = document["version"], document.get("abi")
    if version not in (1, 2):
        raise Fault(f"version = {number_text(version)}: 1 or 2 is expected")
    if (version == 2) is not (abi in (1, 2, 3)) or (version == 1 and abi is not None):
        raise Fault(f"abi = {number_text(abi)}: 1, 2 or 3 is expected in version 2, and none in version 1")
    policy = Policy(abi=3 if abi is None else abi)
    policy.nodes = [node_of(f"node {place}", it) for place, it in numbered("node", document.get("node", []))]
    for name, profile in document.get("profile", {}).items():
        policy.profiles[name] = layers_of(name, profile)
    return policy


def parsed(text: str) -> Table:
    try:
        import tomllib
    except ImportError:
        raise Fault("reading policies needs Python 3.11 or later") from None
    try:
        return tomllib.loads(text[1:] if text.startswith(BYTE_ORDER_MARK) else text)
    except tomllib.TOMLDecodeError as error:
        raise Fault(f"no TOML 1.0, all that Python's reader knows: {error}") from None
    except (ValueError, RecursionError):
        raise Fault("Python can't read it: a number is too long, or arrays are nested too deep") from None


def number_text(number: Optional[int]) -> str:
    """Returns a number for a message. Python writes none of over 4,300 digits."""
    return str(number) if number is None or abs(number) < 1 << 64 else "a number over 64 bits"


def numbered(place: str, array: Any) -> List[Tuple[int, Table]]:
    if not isinstance(array, list) or not all(isinstance(it, dict) for it in array):
        raise Fault(f"{place}: tables are expected")
    return list(enumerate(array, 1))


def need_keys(place: str, table: Any, keys: Dict[str, Tuple[Type[object], bool]]) -> None:
    """Raises `Fault` if a table has a further key, lacks one that must be there, or has one of another type."""
    if not isinstance(table, dict):
        raise Fault(f"{place}: a table is expected")
    for key in table:
        if key not in keys:
            raise Fault(f"{place}: {shown(key)!r} is no key here; {', '.join(keys)} are")
    for key, (kind, is_needed) in keys.items():
        if is_needed and key not in table:
            raise Fault(f"{place}: {key} is missing")
        if key in table and type(table[key]) is not kind:
            raise Fault(f"{place}: {key} is of another type than {kind.__name__}")


def node_of(place: str, table: Table) -> Node:
    need_keys(place, table, {"path": (str, True), "kind": (str, True), "data": (str, False)})
    kind, data = table["kind"], table.get("data", "")
    if kind not in KINDS:
        raise Fault(f"{place}: kind = {shown(kind)!r}: one of {', '.join(KINDS)} is expected")
    if not DATA.fullmatch(data) or ("data" in table and kind != "reg"):
        raise Fault(f"{place}: data: two digits 0 to f a byte are expected, and a regular file")
    return Node(path_of(place, table["path"]), kind, bytes.fromhex(data))


def layers_of(name: str, profile: Any) -> List[Layer]:
    if not PROFILE.fullmatch(name):
        raise Fault(f"profile {shown(name)!r}: a name has 1 to 32 of a to z, 0 to 9 and the hyphen")
    need_keys(f"profile {name}", profile, {"layer": (list, False)})
    layers = numbered(f"profile {name}", profile.get("layer", []))
    return [layer_of(f"profile {name}, layer {number}", it) for number, it in layers]


def layer_of(place: str, table: Table) -> Layer:
    need_keys(place, table, {"handled": (str, True), "rule": (list, False)})
    rules = [rule_of(f"{place}, rule {n}", it) for n, it in numbered(place, table.get("rule", []))]
    return Layer(rights_of(place, "handled", table["handled"]), rules)


def rule_of(place: str, table: Table) -> Rule:
    need_keys(place, table, {"path": (str, True), "rights": (str, True)})
    return Rule(path_of(place, table["path"]), rights_of(place, "rights", table["rights"]))


def rights_of(place: str, key: str, text: str) -> Rights:
    try:
        return Rights.parse(text)
    except ValueError as error:
        raise Fault(f"{place}: {key}: {error}") from None


def path_of(place: str, path: str) -> str:
    names = path.split("/")[1:] if path != "/" else []
    is_path = path.startswith("/") and len(path) <= PATH_BYTES and len(names) <= PATH_NAMES
    if not is_path or not all(NAME.fullmatch(it) and it not in (".", "..") for it in names):
        raise Fault(f"{place}: {shown(path)!r} is no path")
    return path
