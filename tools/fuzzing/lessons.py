"""Scripts that `learn` learns from: under the profile each call gets the reply that it got, and no right can go."""

from fuzzing import checks
from fuzzing.calls import Maker, make_script
from fuzzing.demands import Demands
from fuzzing.grammar import KINDS, MOVES, RIGHTS, entry_of
from fuzzing.policies import NO_OPENING, profile_calls
from fuzzing.profiles import TRIED, Judged, Lesson, learn, under_nodes
from fuzzing.program import same


# ---- making them


class Pupils(Maker):
    """Clients that move much. Only spawned ones have layers of their own: the first one's rulesets would have other
    numbers under a profile."""

    words = [*["open"] * 7, *["make", "rename", "truncate", "link", "exchange"] * 3, *["ftruncate", *MOVES] * 2]
    words += ["list", "exec", "unlink", "rmdir", "spawn", "close", "stat", "read", "write"]
    names = ["a", "b", "c", "d"]

    def __init__(self, rng, nodes=()):
        super().__init__(rng)
        self.begins = ["spawn"] * rng.randrange(2)
        for kind, path in map(str.split, nodes):
            self.change("make", [kind, path])

    def lines(self):
        if self.begins:
            return [self.begins.pop()]
        client = self.rng.choice(list(self.opened))
        calls = [self.call(client)]
        if client > 1 and self.rng.random() < 0.02:
            calls = [f"ruleset {self.rights()}", f"confine {self.rulesets[client]}"]
        return calls if client == 1 else [f"@{client} {call}" for call in calls]

    huge = lines


def make(program, rng):
    maker, nodes = Pupils(rng), []
    for _ in range(rng.randrange(8)):
        kind, path = rng.choice(["dir", "dir", "reg", "reg", *KINDS]), maker.new()
        if path not in maker.kinds and path.count("/") <= 3:
            maker.change("make", [kind, path])
            nodes.append(f"{kind} {path}")
    case = Lesson([], nodes, rng.choice([9, *[1024] * 9]), abi=rng.choice([1, 2, *[3] * 8]))
    case.top = maker.there(["dir"]) if rng.random() < 0.2 else ""
    case.never = rng.choice(RIGHTS[: 12 + case.abi]) if rng.random() < 0.2 else ""
    case.is_checks = rng.random() < 0.5
    words = under_nodes(program, case)
    case.lines = make_script(program, maker, 30, *words)
    if case.is_checks and rng.random() < 0.5:
        case.lines += [checks.NEXT, *make_script(program, Pupils(rng, nodes), 30, *words)]
    return case


# ---- judging them


def wants_none(program, status, lines, what, *words):
    """Wants nothing to be learned from a history, and a line that says why."""
    ended, out, error = program.ran("learn", "--history", "-", *words, text="".join(f"{line}\n" for line in lines))
    same((ended, out, error[-1:]), (status, "", "\n"), f"how learn ends for {what}")


def wants_audit(program, lines, at, layer, first):
    """Wants this first entry not to be legal, or none, where the client of the entry before makes the layer."""
    told = [f"2 {call} = {'ok' if number else 'ruleset 0'}" for number, call in enumerate(profile_calls([layer]))]
    text = "".join(f"{line}\n" for line in [*lines[:at], *told, *lines[at:]])
    want = f"illegal at {first + len(told)}\n" if first else f"legal {len(lines) + len(told) - 1}\n"
    same(program.ran("audit", "-", text=text), (3 if first else 0, want, ""), f"the audit under {layer}")


def judge_history(program, case, demands, lines):
    """What is learned from a history for its second client."""
    if demands.is_denied or any(demands.failed(right, set()) for right in case.ruled_out()):
        what = "a denied call" if demands.is_denied else "what no layer lets pass"
        return wants_none(program, 3, lines, what, *case.words())
    profile = learn(program, case, "--history", "-", text="".join(f"{line}\n" for line in lines))
    judged, at = Judged(case, demands, profile), len(case.policy) + 3
    judged.judge_rules({k: f"entry {k}: {entry_of(line)[1]}" for k, line in enumerate(lines[1:], 1)})
    judged.judge_beneath()
    judged.judge_least()
    wants_audit(program, lines, at, profile.layer, None)
    for path, right in profile.rights[:: len(profile.rights) // TRIED + 1]:
        wants_audit(program, lines, at, profile.without(path, right), min(judged.failed(path, right)))
    if len(profile.rules) > 1:
        wants_none(program, 2, lines, "too many rules", "--most", str(len(profile.rules) - 1), *case.words())
    return profile


def judge(program, case):
    if case.is_checks:
        return checks.judge(program, case)
    saved, words = program.room / "saved", under_nodes(program, case)
    ran = program.ran("run", "-", *words, "--save", saved, text=case.text())
    if ran == NO_OPENING:
        return
    demands, stranger = Demands(case), Demands(case)
    replies = demands.answers(case)
    same(ran, (0, "".join(f"{reply}\n" for reply in replies), ""), "the run in the nodes")
    lines, at = saved.read_text().split("\n")[:-1], len(case.policy) + 3
    profile = judge_history(program, case, demands, lines)
    if profile:
        again = program.lines("run", "-", *under_nodes(program, case, profile.text), text=case.text())
        same(again, replies, "the replies under the profile")
    if lines[at : at + 1] == ["2 spawn = client 3"]:
        stranger.answers(case, is_spawned=False)
        judge_history(program, case, stranger, [*lines[:at], "3 connect = ok", *lines[at + 1 :]])
    wants_none(program, 3, [*lines, "2 stat / = ok"], "a history that isn't legal")
    wants_none(program, 3, lines, "no such client", "--client", "99")
