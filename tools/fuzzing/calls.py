"""Calls and scripts made at random: few names and small tables, so that they collide."""

from fuzzing.grammar import BAD, CALLS, KINDS, MOVES, ON_DESCRIPTOR, RIGHTS, by_client, is_refused

ODD_NUMBERS = [63, 64, 255, 4096, 4097, 65535, 65536, 65537, 2**32, 2**63, 2**64 - 1]
ODD_PATHS = ["/", "x", "//", "/a/", "/./a", "/../a", f"/{'x' * 256}", "/a" * 64, "/a" * 65, "/" + "y/" * 2200]
ODD_LINES = ["", " ", "connect", "open t /a", "open rx /a", "open cw /a", "write 0 0 6A", "write 0 0 0", "ruleset 0x1"]
ODD_LINES += ["ruleset read_file,execute", f"write 0 0 {'0' * 8192}", f"write 0 0 {'0' * 8194}", "x" * 16384, "@2"]
ODD_LINES += [f"stat {'x' * length}" for length in (7999, 8000, 8001)]
ODD_PIECES = ["", " ", "  ", "\r", "\t", "\0", "\x80", "0", "00", "x", "A", "@", "=", ",", str(2**64), str(2**64 - 1)]
ALL, OLDEST = ",".join(RIGHTS), ",".join(RIGHTS[:13])
OFTEN = ["make"] * 8 + ["open"] * 4 + ["write", "rename"] * 3 + ["link", "exchange", "read"] * 2
FILES = [kind for kind in KINDS if kind != "dir"]


def beneath(path, top):
    return f"{path}/".startswith(f"{top.rstrip('/')}/")


class Maker:
    """Makes calls, most of which find what they name: it takes in what was answered before."""

    words, names = [*CALLS, *OFTEN], ["a", "a", "b", "b", "c", "=", "x" * 255]

    def __init__(self, rng):
        self.rng, self.kinds = rng, {"/": "dir"}
        self.opened, self.rulesets = {1: 0}, {1: 0}

    # ---- what is there

    def learn(self, client, call, reply):
        word, *args = call.split(" ")
        if reply.startswith("fd "):
            self.opened[client] = max(self.opened[client], int(reply[3:]) + 1)
            # A spoiled line may have begun a walk that is taken for another call's.
            if word == "open":
                self.kinds.setdefault(args[1], "reg")
        elif reply.startswith("client "):
            self.comes(int(reply[7:]), self.opened[client])
        elif reply.startswith("ruleset "):
            self.rulesets[client] = int(reply[8:]) + 1
        elif reply == "ok":
            self.change(word, args)

    def comes(self, client, opened=0):
        self.opened[client], self.rulesets[client] = opened, 0

    def change(self, word, args):
        if word == "make":
            self.kinds[args[1]] = args[0]
        elif word == "link":
            self.kinds[args[1]] = self.kinds.get(args[0], "reg")
        elif word in ("unlink", "rmdir"):
            self.kinds.pop(args[0], None)
        elif word in MOVES:
            self.move(*args, back=word == "exchange")

    def move(self, old, new, back):
        there = {path: kind for path, kind in self.kinds.items() if beneath(path, old)}
        here = {path: kind for path, kind in self.kinds.items() if beneath(path, new)}
        self.kinds = {path: kind for path, kind in self.kinds.items() if path not in there and path not in here}
        moved = {new + path[len(old) :]: kind for path, kind in there.items()}
        moved |= {old + path[len(new) :]: kind for path, kind in here.items() if back}
        self.kinds |= {path: kind for path, kind in moved.items() if path.count("/") <= 64}

    # ---- parts of calls

    def under(self, path):
        return f"{path.rstrip('/')}/{self.rng.choice(self.names)}"

    def there(self, kinds=KINDS):
        """A path that is there, of such a kind where one is; seldom the root."""
        paths = [path for path, kind in self.kinds.items() if kind in kinds]
        path = self.rng.choice(paths or list(self.kinds))
        return path if path != "/" or self.rng.random() < 0.3 else self.rng.choice(paths or ["/"])

    def new(self):
        """A path that is mostly missing, in a directory that isn't deep."""
        for _ in range(5):
            path = self.under(self.there(["dir"]))
            if path not in self.kinds and path.count("/") < 7:
                break
        return path

    def path(self, word, is_last):
        at = self.rng.random()
        if at < 0.05:
            return self.rng.choice(ODD_PATHS) if at < 0.01 else self.under(self.there())
        if word == "make" or (word == "open" and at < 0.3) or (word in (*MOVES, "link") and is_last and at < 0.8):
            return self.new()
        wanted = {"list": ["dir"], "rmdir": ["dir"], "link": FILES, "unlink": FILES, "stat": KINDS}
        return self.there(wanted.get(word, KINDS if word in (*MOVES, "allow") else ["reg"]) if at < 0.9 else KINDS)

    def number(self, below):
        return self.rng.choice(ODD_NUMBERS) if self.rng.random() < 0.1 else self.rng.randrange(below + 1)

    def part(self, rights, share):
        return ",".join(it for it in rights.split(",") if self.rng.random() < share) or "refer"

    def rights(self):
        at = self.rng.random()
        if at < 0.05:
            return self.rng.choice(["none", "0x8000", "0xffffffffffffffff"])
        return self.part(ALL, 0.9 if at < 0.7 else 0.3)

    def data(self):
        count = self.rng.choice([0, 4095, 4096] if self.rng.random() < 0.05 else [1, 2, 3])
        return f"{self.rng.randrange(256):02x}" * count or "-"

    def mode(self):
        ways = [["r", "w", "rw"], ["", "", "t"], ["", "c", "c", "cx"]]
        return "".join(map(self.rng.choice, ways))

    def argument(self, form, word, place, client):
        if form == "number":
            below = {"allow": self.rulesets, "confine": self.rulesets}.get(word, self.opened)[client]
            return str(self.number(9 if place > 1 or word == "truncate" else below))
        if form == "path":
            return self.path(word, place == len(CALLS[word]))
        kind = lambda: self.rng.choice(["dir"] * 6 + ["reg"] * 4 + KINDS)
        return {"kind": kind, "mode": self.mode, "hex": self.data, "rights": self.rights}[form]()

    # ---- calls

    def call(self, client):
        word = self.rng.choice(self.words)
        if self.rng.random() < 0.8:
            word = "open" if word in ON_DESCRIPTOR and not self.opened[client] else word
            word = "stat" if word in ("allow", "confine") and not self.rulesets[client] else word
        args = [self.argument(form, word, place, client) for place, form in enumerate(CALLS[word], 1)]
        return " ".join([word, *args])

    def layer(self, client):
        """Calls for a layer that grants much."""
        number, handled = self.rulesets[client], f"{self.part(OLDEST, 0.7)},refer"
        everywhere = f"{self.part(handled, 0.8)},refer".replace("refer,refer", "refer")
        directories = [self.there(["dir"]) for _ in range(self.rng.randrange(4))]
        rules = [f"allow {number} {path} {self.part(handled, 0.6)}" for path in directories]
        return [f"ruleset {handled}", f"allow {number} / {everywhere}", *rules, f"confine {number}"]

    def burst(self):
        """Calls that fill a table, or go deep and move that below something else."""
        deep, many = self.rng.randrange(2, 41), self.rng.choice([17, 65, 66])
        chains = [f"make dir {f'/{name}' * (i + 1)}" for name in "xy" for i in range(deep)]
        down, below = f"{'/y' * deep}/x", "/x" * self.rng.randrange(70)
        moved = [f"rename /x {down}", f"stat {'/y' * deep}{below}", f"stat {down}/{'x/' * 63}x", "list /x"]
        links = [f"link /a /n{i}" for i in range(many)] + [f"unlink /n{i}" for i in range(many)]
        ends = ["write 0 65535 00", "write 0 65536 00", "write 0 65535 0000", "read 0 65530 9", "stat /a"]
        return self.rng.choice(
            [
                [*chains, *moved, f"rename {down} /x", f"stat /x{below}", f"exchange {down} /x"],
                ["make reg /a", *["open rw /a"] * many, "close 3", "spawn"],
                ["spawn"] * many,
                ["ruleset read_file"] * many,
                ["ruleset read_file", "allow 0 / read_file", *["confine 0"] * many],
                ["make reg /a", *links],
                ["open wc /a", *ends],
            ]
        )

    def huge(self):
        """Calls that fill a directory, a file's names, or a ruleset."""
        made = [f"make reg /a/{i}" for i in range(1024)]
        linked = [f"link /f /a/{i}" for i in range(1000)]
        ruled = [*made[:300], "ruleset read_file", *(f"allow 0 /a/{i} read_file" for i in range(258))]
        moved = ["rename /f /a/z", "rename /a/1 /a/z", "rename /f /a/2"]
        tail = ["make reg /a/z", *moved, "link /a/3 /a/z", "open wc /a/y"]
        return ["make reg /f", "make dir /a", *self.rng.choice([made, linked, ruled]), *tail]

    # ---- lines of scripts

    def spoiled(self, line):
        """A line that mostly spells nothing."""
        at = self.rng.randrange(len(line) + 1)
        named = [f"@{number} {line}" for number in ("1", "02", "65", 2**64, "2 ")]
        odd = [self.rng.choice(ODD_LINES), self.rng.choice(named), line.upper(), f"{line} {line}"]
        piece = self.rng.choice(ODD_PIECES)
        return self.rng.choice([line[:at] + piece + line[at:], line[:at] + line[at + 1 :], line + piece, *odd])

    def lines(self):
        """A line of a script, or some that belong together."""
        at = self.rng.random()
        if at < 0.004:
            return self.burst()
        client = self.rng.choice(list(self.opened))
        calls = self.layer(client) if at < 0.025 else [self.call(client)]
        named = calls if client == 1 else [f"@{client} {call}" for call in calls]
        return [self.spoiled(named[0])] if at > 0.96 else named


def make_script(program, maker, most, *words):
    """The lines of a script, made while the program answers them."""
    rng, lines = maker.rng, []
    wanted = rng.randrange(most)
    with program.talk("run", "-", *words) as talk:
        while len(lines) < wanted:
            more = maker.lines() if rng.random() > 0.03 / most else maker.huge()
            for line in more:
                reply = talk.ask(line)
                if reply != BAD and not is_refused(reply):
                    maker.learn(*by_client(line), reply)
            lines += more
    return lines + ([""] if rng.random() < 0.95 else [])


def sizes(rng):
    nodes = rng.choice([1, 2, 3, 5, 8, *[20, 40, 100, 2000] * 4])
    return {"nodes": nodes, "history": rng.choice([1, 2, 3, 10, 40, *[5000] * 20]), "abi": rng.choice([1, 2, *[3] * 8])}
