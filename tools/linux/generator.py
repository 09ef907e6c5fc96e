"""Files of checks made at random: a small tree, few names, one to three clients with up to three layers each."""

import random

from fuzzing.calls import FILES, Maker
from fuzzing.grammar import CALLS, ON_DESCRIPTOR, RIGHTS, is_refused
from fuzzing.model import Model
from fuzzing.policies import ON_FILES
from linux.comparison import Case, Test

NODES, ENTRIES, CLIENTS, LAYERS, MOST = 1024, 100000, 3, 3, 80
# How often each call is made. Who makes none of these makes a layer, or spawns.
OFTEN = {"open": 7, "make": 4, "rename": 4, "link": 4, "exchange": 3, "rename_noreplace": 2, "truncate": 2, "list": 2}
OFTEN |= {"ftruncate": 2, "exec": 2, "unlink": 2, "write": 2}
WORDS = [word for word in CALLS if word != "spawn" for _ in range(OFTEN.get(word, 1))]


class Checks(Maker):
    def __init__(self, rng, abi):
        super().__init__(rng)
        self.abi, self.layers, self.rows = abi, {1: 0}, []
        self.model = Model(NODES, ENTRIES, abi)

    def comes(self, client, opened=0):
        super().comes(client, opened)
        self.layers[client] = 0

    def under(self, path):
        return f"{path.rstrip('/')}/{self.rng.choice('aaabbbcd')}"

    def add(self, client, call):
        """Makes the call in the model; what that answers is what must come."""
        reply = self.model.answer(client, call)
        if not is_refused(reply):
            self.learn(client, call, reply)
        self.rows.append((client, call, reply))

    def begin(self):
        """Some directories, files and other nodes."""
        for _ in range(self.rng.randrange(3, 14)):
            kind = self.rng.choice(["dir"] * 5 + ["reg"] * 4 + ["sym", "fifo", "sock", "char", "block"])
            self.add(1, f"make {kind} {self.new()}")

    def some(self, rights, share):
        """Some of the rights, one at least."""
        chosen = [it for it in rights if self.rng.random() < share]
        return chosen or [self.rng.choice(rights)]

    def confine(self, client):
        """A layer in the words of the level: it handles much, or what stands in the way of no move but by a gain."""
        number, known = self.rulesets[client], RIGHTS[: 12 + self.abi]
        if self.rng.random() < 0.4:
            known = [it for it in known if not it.startswith(("make_", "remove_"))]
        handled = self.ordered([*self.some(known, self.rng.choice([0.4, 0.8, 1])), *self.refer(0.8)], known)
        self.add(client, f"ruleset {','.join(handled)}")
        self.allow(client, number, "/", self.ordered([*self.some(handled, 0.6), *self.refer(0.9)], handled))
        places = [self.there(["dir"]) for _ in range(self.rng.randrange(4))]
        places += [self.there(FILES)] * (self.rng.random() < 0.3)
        for place in places:
            meant = handled if self.kinds[place] == "dir" else self.ordered(ON_FILES, handled)
            if meant:
                self.allow(client, number, place, self.ordered(self.some(meant, self.rng.choice([0.4, 0.8])), meant))
        self.add(client, f"confine {number}")
        self.layers[client] += 1

    def refer(self, share):
        return ["refer"] if self.rng.random() < share else []

    @staticmethod
    def ordered(rights, known):
        return [it for it in known if it in rights]

    def allow(self, client, number, place, rights):
        """A rule; there is seldom none on the root."""
        if place != "/" or self.rng.random() < 0.8:
            self.add(client, f"allow {number} {place} {','.join(rights)}")

    def path(self, word, is_last):
        return super().path(word, is_last and (word != "exchange" or self.rng.random() < 0.2))

    def call(self, client):
        word = self.rng.choice(WORDS)
        if self.rng.random() < 0.9:
            word = "open" if word in ON_DESCRIPTOR and not self.opened[client] else word
            word = "stat" if word in ("allow", "confine") and not self.rulesets[client] else word
        args = [self.argument(form, word, place, client) for place, form in enumerate(CALLS[word], 1)]
        return " ".join([word, *args])

    def step(self):
        client, at = self.rng.choice(list(self.opened)), self.rng.random()
        if at < 0.06 and self.layers[client] < LAYERS:
            self.confine(client)
        elif at < 0.09 and len(self.opened) < CLIENTS:
            self.add(client, "spawn")
        else:
            self.add(client, self.call(client))


def make(seed):
    """The rows of a file of checks (client, call, what must come), and the level of its tree."""
    rng = random.Random(f"on-linux {seed}")
    it = Checks(rng, rng.choice([1, 2, 3, 3, 3]))
    it.begin()
    for _ in range(rng.randrange(10, MOST)):
        it.step()
    return it.rows, it.abi


def case_of(rows, abi):
    return Case([Test(number, client, call) for number, (client, call, _) in enumerate(rows, 1)], ["--abi", str(abi)])


def text_of(rows):
    """The file itself."""
    named = lambda client, call: call if client == 1 else f"@{client} {call}"
    return "".join(f"{named(client, call)} = {reply}\n" for client, call, reply in rows)


