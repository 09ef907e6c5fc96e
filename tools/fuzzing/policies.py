"""Policies, whole and spoiled: their first fault, the run under them, and what they grant."""

import re
import tomllib

from fuzzing.calls import Maker, beneath, make_script
from fuzzing.grammar import KINDS, RIGHTS, by_do, is_path, is_refused, is_rights, whole_and_last
from fuzzing.program import Case, same

ON_FILES = ("execute", "write_file", "read_file", "truncate")
ODD_VALUES = ["7", "3", '"x"', "true", "[]", "{}", "[{}]", "[1]", "1.5", '"/a//b"', '"write_file,execute"', '"0x8000"']
ODD_VALUES += ['"6A"', '"6"', '""', '"p" # p']
NO_OPENING = (2, "", "landtree: opening call refused\n")


# ---- making them


def node_lines(rng, maker):
    kind = rng.choice(["dir", "dir", "reg", *KINDS])
    path = maker.new() if rng.random() < 0.95 else maker.path("make", True)
    maker.change("make", [kind, path])
    data = [f'data = "{"6f" * rng.choice([0, 1, 3, 4097])}"'] if kind == "reg" else []
    return ["[[node]]", f'path = "{path}"', f'kind = "{kind}"', *data]


def layer_lines(rng, maker, name):
    handled = maker.rights()
    lines = [f"[[profile.{name}.layer]]", f'handled = "{handled}"']
    for _ in range(rng.randrange(4)):
        rights = ",".join(it for it in handled.split(",") if rng.random() < 0.7) or handled
        path = maker.there(["dir"])
        if rng.random() < 0.1:
            path, rights = maker.there(), maker.rights()
        lines += [f"[[profile.{name}.layer.rule]]", f'path = "{path}"', f'rights = "{rights}"']
    return lines


def spoiled(rng, lines):
    """The policy with one thing changed, which may still be well."""
    if not lines:
        return lines
    at = rng.randrange(len(lines))
    line, column = lines[at], rng.randrange(len(lines[at]) + 1)
    key, _, value = line.partition(" = ")
    edits = [line[:column] + rng.choice('"[]=.#,-_0x a\x80') + line[column:], line[:column] + line[column + 1 :]]
    ways = [[], [line, line], [f"{key}s = {value}"], ["x = 1", line], *([edit] for edit in edits)]
    if value:
        ways += [[f"{key} = {rng.choice(ODD_VALUES)}"]] * 5
    else:
        ways += [[f"[profile.{rng.choice(['p', 'A', 'x' * 33])}]", line], [f"{line}]"]]
    return [*lines[:at], *rng.choice(ways), *lines[at + 1 :]]


def make(program, rng):
    maker, version = Maker(rng), rng.choice([1, 2, 2])
    lines = [f"version = {version}", *[f"abi = {rng.choice([1, 2, 3, 3, 3])}"] * (version - 1)]
    for _ in range(rng.randrange(7)):
        lines += node_lines(rng, maker)
    for name in rng.choice([["p"], ["p"], ["p", "q-2"], []]):
        for _ in range(rng.choice([0, 1, 1, 1, 2, 2, 17] if rng.random() < 0.2 else [1, 2])):
            lines += layer_lines(rng, maker, name)
    for _ in range(rng.choice([0, 0, 0, 1, 1, 2])):
        lines = spoiled(rng, lines)
    case = Case([], [*lines, ""], rng.choice([1, 4, *[20] * 9]), rng.choice([1, 2, 5, *[5000] * 12]))
    words, _, _ = prepared(program, case)
    case.lines = make_script(program, maker, 30, *words)
    return case


# ---- what a document says


def own_faults(table, *keys):
    """What is wrong with a table's own keys: each with whether it must be there, its type, its test, and its fault."""
    if set(table) - {key for key, *_ in keys}:
        yield "UnknownKey"
    for key, needed, kind, is_well, fault in keys:
        if key not in table:
            yield from ["MissingKey"] if needed else []
        elif type(table[key]) is not kind:
            yield "WrongType"
        elif not is_well(table[key]):
            yield fault


def tables(key):
    return key, False, list, lambda values: all(type(value) is dict for value in values), "WrongType"


PATH = ("path", True, str, is_path, "BadPath")
KIND = ("kind", True, str, KINDS.__contains__, "BadKind")
VERSION = ("version", True, int, (1, 2).__contains__, "BadVersion")
LEVEL = ("abi", True, int, (1, 2, 3).__contains__, "BadAbi")
PROFILES = ("profile", False, dict, lambda it: all(type(value) is dict for value in it.values()), "WrongType")


def node_faults(node):
    is_data = lambda data: node["kind"] == "reg" and re.fullmatch("([0-9a-f]{2}){0,65536}", data)
    yield from own_faults(node, PATH, KIND, ("data", False, str, is_data, "BadData"))


def profile_faults(name, profile):
    if not re.fullmatch("[a-z0-9-]{1,32}", name):
        yield "BadName"
    yield from own_faults(profile, tables("layer"))
    for layer in profile.get("layer", []):
        yield from own_faults(layer, ("handled", True, str, is_rights, "BadRights"), tables("rule"))
        for rule in layer.get("rule", []):
            yield from own_faults(rule, PATH, ("rights", True, str, is_rights, "BadRights"))


def faults(doc):
    """All that is wrong with a document, in the order in which it is told."""
    has_level = type(doc.get("version")) is int and doc["version"] == 2
    yield from own_faults(doc, VERSION, *[LEVEL] * has_level, tables("node"), PROFILES)
    for node in doc.get("node", []):
        yield from node_faults(node)
    for name in sorted(doc.get("profile", {}), key=str.encode):
        yield from profile_faults(name, doc["profile"][name])


def read(text):
    """The document, and its first fault or none."""
    try:
        doc = tomllib.loads(text.encode("latin-1").decode())
    except ValueError:
        return {}, "NotToml"
    return doc, next(faults(doc), None)


def opening_calls(doc):
    for node in doc.get("node", []):
        path, data = node["path"], node.get("data", "")
        yield f"make {node['kind']} {path}"
        if data:
            yield f"open w {path}"
            yield from (f"write 0 {at // 2} {data[at : at + 8192]}" for at in range(0, len(data), 8192))
            yield "close 0"


def profile_calls(layers):
    for number, layer in enumerate(layers):
        yield f"ruleset {layer['handled']}"
        yield from (f"allow {number} {rule['path']} {rule['rights']}" for rule in layer.get("rule", []))
        yield f"confine {number}"


def granted(layers, path, kind):
    """The rights that mean something for the kind and that each layer grants, by its rules above the path."""
    rights = set(RIGHTS if kind == "dir" else ON_FILES)
    for layer in layers:
        by_rules = [rule["rights"] for rule in layer.get("rule", []) if beneath(path, rule["path"])]
        rights -= {*layer["handled"].split(","), "refer"} - set(",".join(by_rules).split(","))
    return ",".join(it for it in RIGHTS if it in rights) or "none"


# ---- judging them


def prepared(program, case):
    """The words that name the policy's file, which is written, and its profile; the document; its fault."""
    text = "\n".join(case.policy)
    file = program.room / "policy.toml"
    file.write_bytes(text.encode("latin-1"))
    doc, fault = read(text)
    profiles = doc.get("profile", {})
    named = ["--profile", "p"] if type(profiles) is dict and "p" in profiles else []
    sized = ["--nodes", str(case.nodes), "--history", str(case.history)]
    return ["--policy", file, *named, *sized], doc, fault


def by_schedule(program, case, doc, layers):
    """The outcomes of all calls, made in a schedule: of the loader's, the connect and the profile's, the script's."""
    opening, profile = list(opening_calls(doc)), list(profile_calls(layers))
    lines, last = whole_and_last(case.text())
    steps = ["connect", *(f"@1 do {call}" for call in opening), "connect", *(f"@2 do {call}" for call in profile)]
    text = "\n".join([*steps, *(by_do(line, 2) for line in lines), by_do(last, 2) if last else ""])
    words = ["--nodes", str(case.nodes), "--history", str(case.history), "--abi", str(doc.get("abi", 3))]
    outcomes = program.lines("schedule", "-", *words, text=text)[:-1]
    middle = 1 + len(opening)
    return outcomes[1:middle], outcomes[middle : len(steps)], outcomes[len(steps) :]


def in_session(outcome):
    """The reply of a run, whose clients are counted without the loader."""
    reply = outcome.removeprefix("reply ")
    return f"client {int(reply[7:]) - 1}" if reply.startswith("client ") else reply


def judge(program, case):
    words, doc, fault = prepared(program, case)
    ran = program.ran("run", "-", *words, text=case.text())
    if fault:
        return same(ran, (2, "", f"landtree: policy {fault}\n"), "the run under a policy with a fault")
    layers = doc["profile"]["p"].get("layer", []) if "--profile" in words else []
    loader, profile, script = by_schedule(program, case, doc, layers)
    if any(is_refused(in_session(outcome)) for outcome in loader):
        return same(ran, NO_OPENING, "the run under a policy whose nodes can't be made")
    first = next((outcome for outcome in profile if is_refused(in_session(outcome))), None)
    want = "".join(f"{in_session(outcome)}\n" for outcome in ([first] if first else script))
    same(ran, (0, want, ""), "the run under the policy")
    if "--profile" in words and case.history == 5000:
        table = [f"{it['path']} {it['kind']} {granted(layers, it['path'], it['kind'])}\n" for it in doc.get("node", [])]
        want = NO_OPENING if first else (0, "".join(table), "")
        same(program.ran("rights", *words[:6]), want, "the table of rights")
