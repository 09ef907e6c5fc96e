"""The walks of docs/MODEL.md once more: the outcome of each step of a schedule, and why one isn't enabled."""

from dataclasses import dataclass

from fuzzing.grammar import CALLS, FULL, MOVES, ON_DESCRIPTOR
from fuzzing.model import Client, Model, Refused, is_beneath, names_of

KINDS = {
    "begin": "`begin` makes a call that walks",
    "fd": "`fd` makes a call on a descriptor that the client has",
    "step": "`step` makes a call that doesn't walk, nor is on a descriptor that the client has",
}
UNDER_WAY = "its walk is under way, and a client has one at a time"


class NotNow(Exception):
    """What a client tries, and why it can't. Of several reasons, any one may be named."""

    def __init__(self, tried, *whys):
        super().__init__(tried, whys)
        self.reasons = [f"can't {tried}: {why}" for why in whys]


def text_of(names):
    return "/" + "/".join(names)


def cut(line):
    """A line as it is shown: its two ends, where it is long."""
    return line if len(line) <= 200 else f"{line[:99]}..{line[-99:]}"


def paths_of(call):
    word, *args = call.split(" ")
    return [arg for form, arg in zip(CALLS[word], args) if form == "path"]


@dataclass
class Leg:
    """A branch as far as it has come: the names of its way, and the nodes from the root to where it is."""

    way: list
    chain: list

    def here(self):
        return self.chain[-1]

    def ahead(self):
        return self.way[len(self.chain) - 1 :]

    def path(self, more=0):
        return text_of(self.way[: len(self.chain) - 1 + more])

    def below(self):
        """The directory that the next name names, or nothing."""
        node = self.here().entries.get(self.ahead()[0])
        return node if node and node.kind == "dir" else None


class Walk:
    def __init__(self, words, call):
        self.words, self.call, self.paths = words, call, [names_of(path) for path in paths_of(call)]
        self.ways = [names[:-1] for names in self.paths]
        self.starts, self.mover, self.trunk, self.branches = 1, None, None, []

    def shared(self):
        first, last = self.ways[0], self.ways[-1]
        return next((i for i, (a, b) in enumerate(zip(first, last)) if a != b), min(len(first), len(last)))

    def legs(self):
        return [*([self.trunk] if self.trunk else []), *self.branches]

    def turn(self):
        if self.branches:
            return self.branches[0] if self.branches[0].ahead() else self.branches[1]
        return self.trunk

    def is_at_fork(self):
        return self.trunk is not None and not self.branches and len(self.paths) == 2 and not self.trunk.ahead()

    def is_at_ends(self):
        return self.trunk is not None and not self.is_at_fork() and not self.turn().ahead()

    def marks(self, node):
        return any(leg.here() is node for leg in self.legs())

    def passes(self, node):
        return any(node is one for leg in self.legs() for one in leg.chain)

    def restart(self):
        self.starts, self.mover, self.trunk, self.branches = self.starts + 1, None, None, []

    def places(self):
        left = [leg for leg in self.branches if len(leg.chain) > len(self.trunk.chain)]
        return " and ".join(leg.path() for leg in [self.trunk, *left])


class World:
    def __init__(self, nodes, history, abi):
        self.model = Model(nodes, history, abi)
        self.model.clients, self.model.room = [], history
        self.walks, self.gate = {}, None

    # ---- what steps share

    def refused_early(self, client, call):
        """Whether a call with a path is refused before it walks."""
        word, *args = call.split(" ")
        try:
            names = [names_of(path) for path in paths_of(call)]
        except Refused:
            return True
        if word == "allow":
            return int(args[0]) >= len(self.model.clients[client - 1].rulesets)
        if len(names) == 2:
            return [] in names or is_beneath(*names) or is_beneath(*names[::-1])
        return word in ("make", "unlink", "rmdir") and names == [[]]

    def kind_of(self, client, call):
        """Which step makes the call."""
        word, *args = call.split(" ")
        if word in ON_DESCRIPTOR and int(args[0]) in self.model.clients[client - 1].files:
            return "fd"
        return "begin" if paths_of(call) and not self.refused_early(client, call) else "step"

    def marker(self, node, but=None):
        """The client whose walk stands there."""
        return next((client for client, walk in self.walks.items() if client != but and walk.marks(node)), None)

    def answer(self, client, call):
        """The reply; walks of which it moves a directory are stale then."""
        word, *args = call.split(" ")
        moved = self.moved_by(word, args) if word in MOVES else []
        if self.gate == client:
            self.gate = None
        self.walks.pop(client, None)
        reply = self.model.answer(client, call)
        for walk in self.walks.values() if reply == "ok" else []:
            if walk.mover is None and any(map(walk.passes, moved)):
                walk.mover = client
        return f"reply {reply}"

    def moved_by(self, word, paths):
        try:
            nodes = [self.model.place(names_of(path)).node for path in paths]
        except Refused:
            return []
        is_same = nodes[0] is nodes[1]
        moving = nodes if word == "exchange" else nodes[:1]
        return [] if is_same else [node for node in moving if node and node.kind == "dir"]

    # ---- calls

    def connects(self):
        if self.model.room == 0:
            return f"reply {FULL}"
        if len(self.model.clients) >= 64:
            return "reply refused 12 EMFILE"
        self.model.room -= 1
        self.model.clients.append(Client())
        return f"client {len(self.model.clients)}"

    def makes(self, client, word, call, words):
        tried = "begin the call" if word == "begin" else "make the call"
        if client in self.walks:
            raise NotNow(tried, UNDER_WAY)
        kind = self.kind_of(client, call)
        if kind != word:
            raise NotNow(tried, KINDS[kind])
        if word != "begin":
            return self.answer(client, call)
        takes = call.split(" ")[0] in MOVES
        if takes and self.gate:
            raise NotNow(tried, f"client {self.gate}'s walk holds the move gate")
        self.walks[client], self.gate = Walk(words, call), client if takes else self.gate
        return "begun"

    def does(self, client, call, words):
        if client in self.walks:
            raise NotNow("make the call", UNDER_WAY)
        outcome = self.makes(client, self.kind_of(client, call), call, words)
        while outcome != "NotNow" and not outcome.startswith("reply "):
            outcome = self.goes_on(client)
        if outcome == "NotNow":
            self.step(client, "commit" if self.walks[client].is_at_ends() else "descend")
        return outcome

    def goes_on(self, client):
        for word in ("commit", "fork", "descend", "restart"):
            try:
                return self.step(client, word)
            except NotNow:
                pass
        return "NotNow"

    # ---- walks

    def step(self, client, word):
        tried = "go down" if word == "descend" else word
        walk = self.walks.get(client)
        if walk is None:
            raise NotNow(tried, "no walk of it is under way")
        if word == "restart":
            if walk.mover is None:
                raise NotNow(tried, "no directory on its way was moved")
            walk.restart()
            return "restarted"
        if walk.mover is not None:
            raise NotNow(tried, f"client {walk.mover} moved a directory on its way, so it can only restart")
        return getattr(self, word)(client, walk)

    def descend(self, client, walk):
        if walk.trunk is None:
            return self.enter(client, walk)
        leg = walk.turn()
        if walk.is_at_fork():
            raise NotNow("go down", "its two paths part here, so it has to fork before")
        if not leg.ahead():
            raise NotNow("go down", "its way ends here, so it can only commit")
        node = leg.below()
        if node is None:
            raise NotNow("go down", f"there is no directory {leg.path(1)}, so it can only commit")
        self.stand(node, leg.path(1))
        leg.chain.append(node)
        return f"at {node.inode}"

    def stand(self, node, path):
        other = self.marker(node)
        if other:
            raise NotNow(f"go down to {path}", f"client {other}'s walk stands there")

    def enter(self, client, walk):
        self.stand(self.model.root, "/")
        if walk.starts == 4:
            if self.gate not in (None, client):
                held = f"client {self.gate}'s walk holds the move gate, which it takes on its fourth start"
                raise NotNow("go down to /", held)
            self.gate = client
        walk.trunk = Leg(walk.ways[0][: walk.shared()], [self.model.root])
        return "at 1"

    def must_go_on(self, walk, word):
        """Why a walk with names ahead, or above the root, can't do what is done behind them."""
        if walk.trunk is None:
            raise NotNow(word, "it has to go down to / before")
        leg = walk.turn()
        if leg.below():
            raise NotNow(word, f"it has to go down to {leg.path(1)} before")

    def fork(self, client, walk):
        if len(walk.paths) == 1:
            raise NotNow("fork", "its call has one path")
        if walk.branches:
            raise NotNow("fork", "it has forked already")
        if walk.trunk is None or walk.trunk.ahead():
            self.must_go_on(walk, "fork")
            raise NotNow("fork", f"there is no directory {walk.trunk.path(1)}, so it can only commit")
        walk.branches = [Leg(way, list(walk.trunk.chain)) for way in walk.ways]
        return "forked"

    def commit(self, client, walk):
        if walk.is_at_fork():
            raise NotNow("commit", "its two paths part here, so it has to fork before")
        if not walk.is_at_ends():
            self.must_go_on(walk, "commit")
        else:
            whys = []
            for names, leg in zip(walk.paths, walk.branches or [walk.trunk]):
                node = leg.here().entries.get(names[-1]) if names else None
                other = self.marker(node, client) if node else None
                if other:
                    whys += [f"client {other}'s walk stands in {text_of(names)}, which the call names"]
            if whys:
                raise NotNow("commit", *whys)
        return self.answer(client, walk.call)

    # ---- lines

    def takes(self, line, client, word, call):
        """The outcome of a line, and each reason why it is NotNow."""
        words = cut(line).split(" ", 2)[-1]
        try:
            if word == "connect":
                return self.connects(), []
            if word == "do":
                return self.does(client, call, words), []
            return self.makes(client, word, call, words) if call else self.step(client, word), []
        except NotNow as unmet:
            return "NotNow", [f"client {client} {it}" for it in unmet.reasons]

    def left(self):
        """What is said of the walks that are under way at the end."""
        for client, walk in sorted(self.walks.items()):
            place = f"in {walk.places()}" if walk.trunk else "above the root"
            stale = ", stale" if walk.mover is not None else ""
            gate = ", and holds the move gate" if self.gate == client else ""
            yield f"at the end client {client}'s `{walk.words}` is under way, {place}{stale}{gate}"
