"""What `learn` learns from and what it writes, judged by what is asked."""

import json
import re
import tomllib
from dataclasses import dataclass

from fuzzing.calls import beneath
from fuzzing.grammar import RIGHTS, is_rights
from fuzzing.program import Case, Differs, holds, same

# How many rights a profile is tried without by the program, and how many nodes a small tree has.
TRIED, FEW = 6, 5
RULE = re.compile(r"(?:^# (.*)\n)?^\[\[profile\.learned\.layer\.rule\]\]$", re.MULTILINE)


@dataclass
class Lesson(Case):
    """A script in a policy's nodes, each `KIND PATH`, or scripts that become files of checks; a directory of
    `--beneath`, and a right of `--never`, if any."""

    top: str = ""
    never: str = ""
    is_checks: bool = False

    def words(self):
        top = ["--beneath", self.top] if f"dir {self.top}" in self.policy else []
        return [*top, *(["--never", self.never] if self.never else [])]

    def nodes_text(self):
        tables = [f'[[node]]\nkind = "{kind}"\npath = "{path}"\n' for kind, path in map(str.split, self.policy)]
        return "".join([f"version = 2\nabi = {self.abi}\n", *tables])

    def ruled_out(self):
        """The rights that are restricted and that no rule may hold."""
        return [*["refer"] * (self.abi == 1), *[self.never] * bool(self.never)]


class Profile:
    """A learned profile: its text, its layer as in a policy, and its rights, each with the path of its rule."""

    def __init__(self, case, text):
        try:
            ((name, profile),) = tomllib.loads(text)["profile"].items()
            (self.layer,) = profile["layer"]
            self.rules = self.layer.setdefault("rule", [])
            self.rights = [(rule["path"], right) for rule in self.rules for right in rule["rights"].split(",")]
            told = name, self.layer["handled"], all(is_rights(rule["rights"]) for rule in self.rules)
        except (ValueError, KeyError) as fault:
            raise Differs(f"no profile is learned, but {text!r:.300}: {fault}") from fault
        same(told, ("learned", ",".join(RIGHTS[: 12 + case.abi]), True), "name, handled, and whether rights are well")
        self.text, self.is_least, self.notes = text, text.startswith("# least: "), RULE.findall(text)

    def without(self, path, right):
        rules = {it["path"]: it["rights"].split(",") for it in self.rules}
        rules[path].remove(right)
        kept = [{"path": it, "rights": ",".join(rights)} for it, rights in rules.items() if rights]
        return {**self.layer, "rule": kept}


def text_of(layer):
    """The layer as the profile of a policy."""
    rules = [f'[[profile.learned.layer.rule]]\npath = {json.dumps(it["path"])}\nrights = "{it["rights"]}"\n' for it in layer["rule"]]
    return "".join([f'[[profile.learned.layer]]\nhandled = "{layer["handled"]}"\n', *rules])


def under_nodes(program, case, profile=""):
    """The words of a run in the policy's nodes, and under a profile, if the text of one is told."""
    file = program.room / "nodes.toml"
    file.write_text(case.nodes_text() + profile)
    return ["--policy", file, *(["--profile", "learned"] if profile else []), "--nodes", str(case.nodes)]


def learn(program, case, *words, text=""):
    status, out, error = program.ran("learn", *words, *case.words(), text=text)
    same(status, 0, f"the status of learn, which writes {error!r:.200},")
    return Profile(case, out)


class Judged:
    """A profile, by what is asked: the inode of each rule's path, and those whose rules hold a right."""

    def __init__(self, case, demands, profile):
        self.case, self.demands, self.profile, self.held = case, demands, profile, {right: set() for right in RIGHTS}
        for path, right in profile.rights:
            holds(right != case.never, f"the rule on {path} holds {right}")
            holds(path in demands.places, f"there is no {path} at the cut, on which is a rule")
            self.held[right].add(self.inode(path))

    def inode(self, path):
        return self.demands.places[path][-1].inode

    def failed(self, path, right):
        """The entries that fail without this right."""
        return self.demands.failed(right, self.held[right] - {self.inode(path)})

    def judge_rules(self, notes):
        """Each call passes, and without any right one doesn't. The note on such an entry stands beside its rule."""
        for right in self.demands.restricted:
            same(self.demands.failed(right, self.held[right]), [], f"the entries that {right} denies")
        needs = {rule["path"]: [] for rule in self.profile.rules}
        for path, right in self.profile.rights:
            needs[path] += self.failed(path, right)
            holds(self.failed(path, right), f"{right} on {path} isn't needed")
        for note, (path, entries) in zip(self.profile.notes, needs.items()):
            holds(note in [notes[it] for it in entries], f"{note or 'nothing'} is told of the rule on {path}")

    def judge_beneath(self):
        """A rule beneath the directory that takes what is asked there holds what is asked elsewhere."""
        top = self.case.top
        for path, right in self.profile.rights if f"dir {top}" in self.case.policy else ():
            paths = [it for it in self.demands.paths(right) if self.inode(path) in it and self.inode(top) not in it]
            holds(paths or path == top or not beneath(path, top), f"{right} is on {path}, and is asked beneath {top}")

    def judge_least(self):
        """It says `least` where nobody else has moved anything, and each right is charged; or nothing is widened, and no
        node enters a directory that has moved. It says no wrong."""
        is_charged = all(inodes <= self.demands.charged(right) for right, inodes in self.held.items())
        is_plain = "--beneath" not in self.case.words() and not self.demands.is_strayed
        is_least = (is_charged or is_plain) and not self.demands.is_moved
        same(self.profile.is_least, is_least, "whether least is said")
        for right, inodes in self.held.items() if self.profile.is_least and len(self.case.policy) <= FEW else ():
            self.demands.wants_least(right, inodes)
