"""Schedules: steps of many walks in any order; their outcomes tell a history, which an audit judges."""

import re

from fuzzing.calls import Maker, sizes
from fuzzing.grammar import BAD, FULL, MOVES, NO_MEMORY, ON_DESCRIPTOR, is_call, is_refused, is_reply, whole_and_last
from fuzzing.program import Case, holds, same
from fuzzing.walks import World, cut

WITH_CALL = ("begin", "fd", "step", "do")
OUTCOMES = {"begin": "begun", "descend": "at [1-9][0-9]*", "fork": "forked", "restart": "restarted"}


# ---- making them


def way_of(call):
    """The steps of the call's walk after its beginning, where nobody is in its way."""
    ends = [[name for name in word.split("/") if name][:-1] for word in call.split(" ") if word.startswith("/")]
    if not ends:
        return []
    shared = next((i for i, (a, b) in enumerate(zip(ends[0], ends[-1])) if a != b), min(map(len, ends)))
    branches = ["fork", *["descend"] * (len(ends[0]) + len(ends[1]) - 2 * shared)] if len(ends) == 2 else []
    return [*["descend"] * (shared + 1), *branches, "commit"]


class Walkers:
    """Clients that make the steps of their walks in turn; each has the call of its walk and the steps to come."""

    def __init__(self, rng, talk):
        self.rng, self.talk, self.maker, self.lines = rng, talk, Maker(rng), []
        self.walks, self.stuck = {}, set()

    def tell(self, line):
        self.lines.append(line)
        return self.talk.ask(line)

    def comes(self):
        outcome = self.tell("connect")
        if outcome.startswith("client "):
            client = int(outcome[7:])
            self.maker.comes(client)
            self.walks[client] = None

    def one(self):
        """A client, mostly one that isn't stuck."""
        free = [client for client in self.walks if client not in self.stuck]
        return self.rng.choice(free if free and self.rng.random() < 0.9 else list(self.walks))

    def overtakes(self, client):
        """The client moves a directory at once, if nobody is in its way; walks below it are stale then."""
        tops = [path for path, kind in self.maker.kinds.items() if kind == "dir" and path.count("/") < 3]
        old, new = self.rng.choice(tops[1:] or ["/a"]), self.rng.choice([self.maker.under("/"), self.maker.new()])
        self.does(client, [f"{self.rng.choice(MOVES)} {old} {new}"])

    def call(self, client):
        """A call of which the walk is mostly long."""
        if self.rng.random() < 0.5:
            return self.maker.call(client)
        deep = max(self.maker.kinds, key=lambda path: path.count("/"))
        return f"{self.rng.choice(['make reg', 'open rc', 'list', 'stat', 'unlink', 'rmdir'])} {self.maker.under(deep)}"

    def goes(self, client):
        """The client goes on, or begins something."""
        if self.walks[client] and self.rng.random() < 0.97:
            return self.goes_on(client)
        call = self.call(client)
        has_path = call.split(" ")[-1].startswith("/") or call.startswith(("allow", "truncate"))
        word = self.rng.choice(["begin"] * 6 + ["do"] * 3) if has_path else self.rng.choice(["do", "fd", "step"])
        self.take(client, word, call, self.tell(f"@{client} {word} {call}"))

    def goes_on(self, client):
        call, way = self.walks[client]
        is_lost = not way or client in self.stuck or self.rng.random() < 0.03
        steps = [way[0], "commit", "restart"] if way else ["commit", "restart", "descend", "fork"]
        step = self.rng.choice(steps) if is_lost else way[0]
        outcome = self.tell(f"@{client} {step}")
        self.stuck = {*self.stuck, client} if outcome == "NotNow" else set()
        if outcome == "restarted":
            self.walks[client] = call, way_of(call)
        elif outcome.startswith("reply "):
            self.take(client, step, call, outcome)
        elif outcome != "NotNow" and way and way[0] == step:
            way.pop(0)

    def take(self, client, word, call, outcome):
        if outcome.startswith("reply "):
            self.walks[client] = None
            reply = outcome[6:]
            if not is_refused(reply):
                self.maker.learn(client, call, reply)
            if reply.startswith("client "):
                self.walks[int(reply[7:])] = None
        elif outcome == "begun":
            self.walks[client] = call, way_of(call)
        elif word == "do" and outcome == "NotNow" and self.walks[client] is None:
            self.walks[client] = call, way_of(call)

    def does(self, client, calls):
        for call in calls:
            self.take(client, "do", call, self.tell(f"@{client} do {call}"))

    def furnishes(self):
        """The first client makes directories in directories, so that walks are long."""
        for top in ("/a", "/b"):
            deep = self.rng.randrange(7)
            names = [self.rng.choice("abc") for _ in range(deep)]
            self.does(1, [f"make dir {'/'.join([top, *names[:length]])}" for length in range(deep)])


def make(program, rng):
    case = Case([], **sizes(rng))
    case.nodes = max(case.nodes, rng.choice([1, 20, 20, 20]))
    case.history = max(case.history, rng.choice([1, 5000, 5000, 5000]))
    with program.talk("schedule", "-", *case.words()) as talk:
        walkers = Walkers(rng, talk)
        for _ in range(rng.randrange(1, 6)):
            walkers.comes()
        if walkers.walks:
            walkers.furnishes()
        for _ in range(rng.randrange(10, 300) if walkers.walks else 0):
            at, client = rng.random(), walkers.one()
            if at < 0.01:
                walkers.comes()
            elif at < 0.06 and walkers.walks[client] is None:
                walkers.does(client, walkers.maker.layer(client))
            elif at < 0.07:
                walkers.tell(walkers.maker.spoiled(rng.choice(walkers.lines)))
            elif at < 0.2 and walkers.walks[client] is None:
                walkers.overtakes(client)
            else:
                walkers.goes(client)
    case.lines = [*walkers.lines, ""]
    return case


# ---- judging them


class Follower:
    """Follows the walks of a schedule by its outcomes, and writes the history that they tell.

    A client's walk is its call, and whether it has surely begun. Where `do` of a move gets nowhere, nobody can tell,
    since the move gate may have been taken. Where two such calls may have begun, neither is known.
    """

    def __init__(self):
        self.walks, self.entries, self.clients, self.is_told = {}, [], 0, True

    def comes(self, client):
        self.clients += 1
        same(client, str(self.clients), "the number of a client")

    def connects(self, outcome):
        if outcome.startswith("client "):
            self.comes(outcome[7:])
            self.entries.append(f"{self.clients} connect = ok")
        else:
            holds(outcome in ("reply refused 12 EMFILE", f"reply {FULL}"), f"connect has the outcome {outcome!r:.99}")

    def answers(self, client, call, reply):
        holds(is_reply(reply) and reply not in (NO_MEMORY, BAD), f"{call} is answered {reply!r:.99}")
        if reply != FULL:
            self.entries.append(f"{client} {call} = {reply}")
        if reply.startswith("client "):
            self.comes(reply[7:])

    def stays(self, client, word, call):
        walk = self.walks.get(client)
        if word == "do" and walk is None:
            self.walks[client] = call, call.split(" ")[0] not in MOVES
        elif word == "do" and not walk[1]:
            self.walks[client] = None, False

    def calls(self, client, word, call, outcome):
        if outcome == "NotNow":
            return self.stays(client, word, call)
        holds(client not in self.walks or not self.walks[client][1], f"{word} {call} is made beside a walk")
        if word == "begin":
            self.walks[client] = call, True
        else:
            self.walks.pop(client, None)
            self.answers(client, call, outcome[6:])

    def goes_on(self, client, word, outcome):
        if outcome == "NotNow":
            return
        holds(client in self.walks, f"{word} has the outcome {outcome!r:.99} without a walk")
        call, _ = self.walks[client]
        if word != "commit":
            self.walks[client] = call, call is not None
            return
        del self.walks[client]
        self.is_told = self.is_told and call is not None
        self.answers(client, call or "a call", outcome[6:])

    def takes(self, line, outcome):
        named = re.fullmatch("@([1-9][0-9]*) ([a-z]+)(?: (.*))?", line)
        client, word, call = named.groups() if named else (None, line, None)
        is_there = named is not None and int(client) <= self.clients
        is_step = is_call(call or "") if word in WITH_CALL else word in ("commit", *OUTCOMES) and call is None
        same(outcome == BAD, line != "connect" and not (is_there and is_step), f"whether {line!r:.99} is a bad line")
        if line == "connect":
            self.connects(outcome)
        elif outcome != BAD:
            form = OUTCOMES.get(word, "reply .*")
            holds(re.fullmatch(f"{form}|NotNow", outcome), f"{word} has the outcome {outcome!r:.99}")
            (self.calls(client, word, call, outcome) if call else self.goes_on(client, word, outcome))


# What is said of a bad line.
BLAMED = re.compile("  -:([0-9]+):[0-9]+: ")


def judge_reasons(program, case, lines, outcomes):
    """Compares the outcomes, and what is said of steps that aren't enabled, with those of walks.py."""
    world, reasons = World(case.nodes, case.history, case.abi), []
    for number, (line, outcome) in enumerate(zip(lines, outcomes), 1):
        if outcome == BAD:
            continue
        named = re.fullmatch("@([1-9][0-9]*) ([a-z]+)(?: (.*))?", line)
        client, word, call = named.groups() if named else ("0", line, None)
        wanted, unmet = world.takes(line, int(client), word, call)
        same(outcome, wanted, f"line {number}, {line!r:.99}")
        reasons += [[f"line {number}: {it}" for it in unmet]] if unmet else []
    _, _, error = program.ran("schedule", "-", *case.words(), "--explain", text=case.text())
    hints = error.split("\n")[:-1]
    judge_blamed(lines, outcomes, [int(it[1]) for it in map(BLAMED.match, hints) if it])
    told = [it for it in hints if not BLAMED.match(it)]
    wanted = [[f"  {cut(it)}" for it in texts] for texts in [*reasons, *([it] for it in world.left())]]
    same(len(told), len(wanted), "how many reasons there are")
    same(told, [it if it in texts else texts[0] for it, texts in zip(told, wanted)], "the reasons")


def judge_blamed(lines, outcomes, blamed):
    """The first 20 bad lines are blamed, but for some of clients that aren't there."""
    bad = [number for number, outcome in enumerate(outcomes, 1) if outcome == BAD]
    same(blamed, [it for it in bad if it in {*blamed}], "whether blamed lines are bad ones, in their order")
    holds(len(blamed) <= 20, f"{len(blamed)} lines are blamed")
    if len(blamed) < 20:
        sure = [it for it in bad if it > len(lines) or not re.match("@[1-9]", lines[it - 1])]
        same([it for it in sure if it in {*blamed}], sure, "whether bad lines are blamed")


def judge(program, case):
    lines, last = whole_and_last(case.text())
    outcomes = program.lines("schedule", "-", *case.words(), text=case.text())
    same(len(outcomes), len(lines) + (last != "") + 1, "how many outcomes there are")
    follower = Follower()
    for line, outcome in zip(lines, outcomes):
        follower.takes(line, outcome)
    judge_reasons(program, case, lines, outcomes)
    legal = [f"legal {len(follower.entries)}"]
    same(outcomes[-1:], legal, "the end of the outcomes")
    if follower.is_told:
        history = [f"landtree-history 3 nodes {case.nodes} abi {case.abi}", *follower.entries, ""]
        audited = program.lines("audit", "-", text="\n".join(history))
        same(audited, legal, "the audit of the history that the outcomes tell")
    if len(lines) % 8 == 0:
        words = [*case.words(), "--picture", program.room / "picture"]
        same(program.lines("schedule", "-", *words, text=case.text()), outcomes, "the outcomes where it is drawn")
