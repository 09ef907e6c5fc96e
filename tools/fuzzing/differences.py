"""Pairs of policies over the same nodes: where `rights --diff` finds nothing, each call gets the same reply under both."""

import json
from dataclasses import dataclass, field

from fuzzing.calls import Maker, beneath
from fuzzing.grammar import KINDS, MOVES, RIGHTS
from fuzzing.policies import ON_FILES
from fuzzing.program import Case, holds, same

# What each call is said to be answered in the file of checks: any call may be, and the report has what it was.
WANTED = "refused 3 ENOENT"


@dataclass
class Layer:
    """Rights that are handled, and rules: pairs of a path and rights."""

    handled: set
    rules: list = field(default_factory=list)

    def limited(self, rights):
        return Layer(self.handled & rights, [(path, held & rights) for path, held in self.rules if held & rights])

    def with_rule(self, path, rights):
        return Layer(self.handled | rights, [*self.rules, (path, rights)])

    def without_rule(self, at):
        return Layer(self.handled, self.rules[:at] + self.rules[at + 1 :])

    def lines(self):
        """As in a policy: what is handled, and the rules."""
        yield f"layer {named(self.handled)}"
        yield from (f"rule {path} {named(rights)}" for path, rights in self.rules)


def named(rights):
    return ",".join(it for it in RIGHTS if it in rights)


# ---- making them


class Callers(Maker):
    words = ["make", "open", "open", "truncate", "list", "exec", "unlink", "rmdir", "link", *MOVES, "rename"]
    names = ["a", "a", "b", "b", "c"]


def some(rng, rights, share):
    return {it for it in RIGHTS if it in rights and rng.random() < share} or {rng.choice(sorted(rights))}


def meant(maker, path):
    return set(RIGHTS if maker.kinds[path] == "dir" else ON_FILES)


def new_rule(rng, maker, handled):
    """A rule that the tree takes, on a node that is there."""
    path = rng.choice([path for path in maker.kinds if meant(maker, path) & handled])
    return path, some(rng, meant(maker, path) & handled, 0.5)


def new_layer(rng, maker):
    handled = some(rng, set(RIGHTS), rng.choice([0.2, 0.5, 0.9])) | {"read_dir"}
    return Layer(handled, [new_rule(rng, maker, handled) for _ in range(rng.randrange(5))])


def split(rng, _, layer):
    """Two layers, each of which handles some of the rights, and both refer."""
    part = some(rng, layer.handled, 0.5)
    return [layer.limited(part | {"refer"}), layer.limited(layer.handled - part | {"refer"})]


def doubled(rng, maker, layer):
    """The layer twice, with another rule each."""
    return [layer.with_rule(*new_rule(rng, maker, layer.handled)) for _ in range(2)]


def unhandled(rng, _, layer):
    """The layer without a right, which the root's rule grants or doesn't."""
    right = rng.choice(sorted(layer.handled))
    return [layer.limited(set(RIGHTS) - {right})]


def rooted(rng, _, layer):
    """The layer with a right that it doesn't handle, granted at the root."""
    return [layer.with_rule("/", {rng.choice([it for it in RIGHTS if it not in layer.handled] or RIGHTS)})]


def covered(rng, maker, layer):
    """The layer with a rule once more beneath it, or as a part."""
    path, rights = rng.choice(layer.rules)
    under = rng.choice([it for it in maker.kinds if beneath(it, path) and meant(maker, it) & rights])
    return [layer.with_rule(under, some(rng, meant(maker, under) & rights, 0.7))]


def shuffled(rng, _, layer):
    return [Layer(layer.handled, rng.sample(layer.rules, len(layer.rules)))]


def dropped(rng, _, layer):
    return [layer.without_rule(rng.randrange(len(layer.rules)))]


def changed(rng, maker, layers):
    """Layers of a near miss."""
    layers, at = list(layers), rng.randrange(len(layers))
    layer, other = layers[at], rng.randrange(len(layers))
    ways = [split, doubled, unhandled, rooted, *[covered, shuffled, dropped] * bool(layer.rules)]
    way = rng.choice([*ways, "exchange", "move"])
    if way == "exchange":
        layers[at], layers[other] = layers[other], layers[at]
    elif way == "move" and layer.rules:
        number = rng.randrange(len(layer.rules))
        layers[at] = layer.without_rule(number)
        layers[other] = layers[other].with_rule(*layer.rules[number])
    elif callable(way):
        layers[at : at + 1] = way(rng, maker, layer)
    return [it for it in layers if it.handled]


def make(program, rng):
    """The case's policy has the nodes, each `node KIND PATH`, and the layers of one policy behind those of the other."""
    maker, nodes = Callers(rng), []
    for _ in range(rng.randrange(1, 8)):
        kind, path = rng.choice(["dir", "dir", "reg", "reg", *KINDS]), maker.new()
        if path not in maker.kinds:
            maker.change("make", [kind, path])
            nodes.append(f"node {kind} {path}")
    one = [new_layer(rng, maker) for _ in range(rng.choice([1, 1, 2, 2, 3]))]
    if rng.random() < 0.5:
        other = [new_layer(rng, maker) for _ in range(rng.choice([1, 1, 2]))]
    else:
        other = changed(rng, maker, one)
        for _ in range(rng.choice([0, 0, 1])):
            other = changed(rng, maker, other or one)
    lines = [line for layers in (one, other) for line in ["policy", *(line for it in layers for line in it.lines())]]
    return Case([maker.call(1) for _ in range(80)], [*nodes, *lines])


# ---- judging them


def policies_of(case):
    """The texts of both policies."""
    texts, head = [], ["version = 2", f"abi = {case.abi}"]
    for line in case.policy:
        word, *told = line.split(" ")
        if word == "policy":
            texts.append([*head, "[profile.p]"])
        elif word == "node":
            head += ["[[node]]", f'kind = "{told[0]}"', f'path = "{told[1]}"']
        elif texts and word == "layer":
            texts[-1] += ["[[profile.p.layer]]", f'handled = "{told[0]}"']
        elif texts:
            texts[-1] += ["[[profile.p.layer.rule]]", f'path = "{told[0]}"', f'rights = "{told[1]}"']
    return ["".join(f"{line}\n" for line in text) for text in texts]


def replies(program, policy, calls):
    """What each call is answered that the profile's client makes first."""
    text = "".join(f"[{number}]\n{call} = {WANTED}\n" for number, call in enumerate(calls, 1))
    status, out, error = program.ran("check", "-", "--policy", policy, "--profile", "p", "--as", "json", text=text)
    holds(status in (0, 3) and not error, f"the checks end with {status} and {error!r:.200}")
    return [json.loads(line)["got"] for line in out.splitlines()[:-1]]


def judge(program, case):
    files = [program.room / "one.toml", program.room / "other.toml"]
    texts = policies_of(case)
    if len(texts) != 2 or not case.lines:
        return
    for file, text in zip(files, texts):
        file.write_text(text)
    one, other = files
    status, out, error = program.ran("rights", "--policy", one, "--profile", "p", "--diff", other)
    if status == 0:
        same((out, error), ("", ""), "what is said where nothing differs")
        there, here = (replies(program, it, case.lines) for it in (other, one))
        what = "the reply under the second of two policies that don't differ"
        for call, want, got in zip(case.lines, here, there):
            same(got, want, f"{what}, {call!r:.99}")
