"""What the calls of a script ask of a layer, and which rules let them pass: by the rules of model.py alone."""

from itertools import combinations

from fuzzing.grammar import BAD, MOVES, RIGHTS, by_client, whole_and_last
from fuzzing.model import BIT, Model, names_of
from fuzzing.program import holds


class Demands(Model):
    """What is asked in a policy's nodes of the first client, and of those whom it and these spawn. A path is the inodes
    of the policy's nodes on it, as what is made later has no rule. Entries are those of the saved history."""

    def __init__(self, case):
        super().__init__(case.nodes, case.history, case.abi)
        self.learned, self.asks, self.moves, self.openings, self.end = set(), [], [], {}, 0
        self.is_denied = self.is_moved = self.is_strayed = False
        self.places = {}
        self.entry = 1
        for node in case.policy:
            self.answer(1, f"make {node}")
        self.entry, self.end, self.learned = self.entry + 1, self.next, {self.clients[0]}
        paths = ["/", *(node.split(" ")[1] for node in case.policy)]
        self.places = {path: self.place(names_of(path)).whole() for path in paths}
        self.restricted = [right for right in RIGHTS if BIT[right] & self.known or right == "refer"]

    def inodes(self, nodes):
        return [node.inode for node in nodes if node.inode < self.end]

    def are_still(self, nodes):
        """Whether each node of the policy on the path has that path which it had."""
        sites = [[node.inode for node in place] for place in self.places.values()]
        path = [node.inode for node in nodes]
        return all(path[: number + 1] in sites for number, inode in enumerate(path) if inode < self.end)

    def answer(self, client, call):
        self.entry += 1
        caller, reply = self.clients[client - 1], super().answer(client, call)
        if caller in self.learned:
            self.is_denied |= reply.startswith("denied ")
        else:
            self.is_moved |= reply == "ok" and call.split(" ")[0] in (*MOVES, "link")
        return reply

    def answers(self, case, is_spawned=True):
        """The replies to the script. The client that its first line spawns may have connected instead."""
        lines, last = whole_and_last(case.text())
        replies = []
        for client, call in map(by_client, lines):
            replies.append(self.answer(client, call) if client <= len(self.clients) else BAD)
            if len(replies) == 1 and not is_spawned:
                self.learned = {self.clients[0]}
        return replies + [BAD] * (last != "")

    def deny(self, client, *asked, gains=()):
        if client in self.learned:
            self.asks += [(self.entry, rights, self.inodes(nodes)) for rights, nodes, _ in asked]
            gained = [(node.meaning(), self.inodes(own), self.inodes(into)) for node, own, into, _ in gains]
            self.moves += [(self.entry, *it) for it in gained]
            self.is_strayed |= not all(self.are_still(into) for _, _, into, _ in gains)
        super().deny(client, *asked, gains=gains)

    def call_open(self, client, mode, path):
        reply = super().call_open(client, mode, path)
        self.openings[client, int(reply[3:])] = self.inodes(self.place(names_of(path)).whole())
        return reply

    def call_ftruncate(self, client, number, length):
        _, _, writes, _ = client.file(int(number))
        if writes and client in self.learned:
            self.asks.append((self.entry, BIT["truncate"], self.openings[client, int(number)]))
        super().call_ftruncate(client, number, length)

    def call_spawn(self, client):
        reply, child = super().call_spawn(client), self.clients[-1]
        self.openings |= {(child, number): path for (it, number), path in self.openings.items() if it is client}
        self.learned |= {child} if client in self.learned else set()
        return reply

    # ---- layers, one right at a time, as the inodes whose rules hold it

    def failed(self, right, held):
        """The entries that ask the right where no rule holds it, and those by which it would be gained."""
        missed = [entry for entry, rights, path in self.asks if BIT[right] & rights and held.isdisjoint(path)]
        moves = [(entry, own, into) for entry, rights, own, into in self.moves if BIT[right] & rights]
        return missed + [it for it, own, into in moves if held.isdisjoint(own) and not held.isdisjoint(into)]

    def paths(self, right):
        """The paths on which it is asked, and those of nodes that might gain it."""
        return [path for _, rights, path, *_ in [*self.asks, *self.moves] if BIT[right] & rights]

    def holders(self, right):
        """The inodes whose rules may hold the right."""
        ends = [nodes[-1] for nodes in self.places.values()]
        return {node.inode for node in ends if BIT[right] & self.known & node.meaning()}

    def charged(self, right):
        """The inodes at which it is asked, where none behind them may hold it."""
        may = self.holders(right)
        asked = [[it for it in path if it in may] for _, rights, path in self.asks if BIT[right] & rights]
        return {path[-1] for path in asked if path}

    def reach(self, held):
        """The paths of the policy that have such an inode on them."""
        return {path for path, nodes in self.places.items() if not held.isdisjoint(self.inodes(nodes))}

    def wants_least(self, right, held):
        """Wants each set of inodes by which the calls pass to reach all that this one does."""
        may, reach = self.holders(right), self.reach(held)
        for others in (set(it) for size in range(len(may) + 1) for it in combinations(may, size)):
            is_less = not reach <= self.reach(others)
            holds(not is_less or self.failed(right, others), f"{right} on {others} passes, and reaches less")
