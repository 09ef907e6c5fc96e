"""A profile as `landtree export --as json` writes it (docs/export.schema.json)."""

from __future__ import annotations

import json
from dataclasses import dataclass
from typing import Any, Dict, FrozenSet, List, Set, Tuple

from .errors import Fault
from .policy_text import path_of
from .values import KINDS, Rights

FORM = 1
DENIABLE = ("tcp", "ioctl_dev", "signal", "abstract_unix_socket")
FLAGS = ("follow", "best_effort")
KEYS = {"version", "abi", "root", "also", "deny", "layers", *FLAGS}


@dataclass(frozen=True)
class ExportedRule:
    """Rights on a file: its path as the policy spells it, and the kind that it must have."""

    path: str
    kind: str
    rights: Rights


@dataclass(frozen=True)
class ExportedLayer:
    handled: Rights
    rules: Tuple[ExportedRule, ...]


@dataclass(frozen=True)
class Exported:
    """A profile's layers, the oldest first, and the options of the export. There is at least one layer."""

    abi: int
    root: str
    also: Tuple[str, ...]
    deny: FrozenSet[str]
    layers: Tuple[ExportedLayer, ...]
    follow: bool = False
    best_effort: bool = False


def exported_of(text: str) -> Exported:
    """Returns what a text of an export says. Any other text is a `Fault`, also one of a later version."""
    try:
        return read(json.loads(text))
    except (ValueError, TypeError, KeyError, AttributeError, OverflowError, RecursionError) as error:
        raise Fault(f"the export isn't as docs/export.schema.json has it: {error}") from None


def read(data: Dict[str, Any]) -> Exported:
    need_keys(data, KEYS)
    if data["version"] != FORM:
        raise ValueError(f"version {data['version']}, and {FORM} is expected")
    layers = tuple(layer_of(it) for it in data["layers"])
    if not layers:
        raise ValueError("no layer")
    need_keys(data["deny"], set(DENIABLE))
    deny = frozenset(it for it in DENIABLE if flag(data["deny"][it]))
    also = tuple(absolute(it) for it in data["also"])
    follow, best_effort = (flag(data[it]) for it in FLAGS)
    return Exported(int(data["abi"]), absolute(data["root"]), also, deny, layers, follow, best_effort)


def layer_of(data: Dict[str, Any]) -> ExportedLayer:
    need_keys(data, {"handled", "rules"})
    handled = rights_of(data["handled"])
    rules = tuple(rule_of(it) for it in data["rules"])
    if not handled or any(it.rights & ~handled for it in rules):
        raise ValueError("a layer handles nothing, or not what its rules have")
    return ExportedLayer(handled, rules)


def rule_of(data: Dict[str, Any]) -> ExportedRule:
    need_keys(data, {"path", "kind", "rights"})
    if data["kind"] not in KINDS:
        raise ValueError(f"kind {data['kind']!r}")
    return ExportedRule(path_of("the export", absolute(data["path"])), data["kind"], rights_of(data["rights"]))


def need_keys(data: Dict[str, Any], keys: Set[str]) -> None:
    if set(data) != keys:
        raise ValueError(f"the keys {', '.join(sorted(set(data) ^ keys))}")


def flag(value: Any) -> bool:
    if not isinstance(value, bool):
        raise ValueError(f"{value!r} is neither true nor false")
    return value


def absolute(path: Any) -> str:
    if not isinstance(path, str) or not path.startswith("/"):
        raise ValueError(f"{path!r} is no absolute path")
    return path


def rights_of(names: List[str]) -> Rights:
    if not isinstance(names, list):
        raise ValueError(f"{names!r} is no list of rights")
    return Rights.parse(",".join(names) or "none")
