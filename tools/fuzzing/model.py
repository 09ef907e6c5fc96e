"""The rules of docs/MODEL.md once more, as a tree of Python objects: what each call of a script is answered."""

from fuzzing.grammar import ERRNOS, FULL, RIGHTS, is_name

BIT = {right: 1 << number for number, right in enumerate(RIGHTS)}
ON_FILES = BIT["execute"] | BIT["write_file"] | BIT["read_file"] | BIT["truncate"]
PLACES = ("at", "old", "new")


class Refused(Exception):
    """Why a call does nothing, as its reply."""


def refuse(is_so, errno):
    if is_so:
        raise Refused(f"refused {ERRNOS.index(errno) + 1} {errno}")


def rights_of(word):
    return int(word, 16) if word.startswith("0x") else sum(BIT.get(right, 0) for right in word.split(","))


class Node:
    def __init__(self, inode, kind):
        self.inode, self.kind, self.names, self.opened = inode, kind, 0, 0
        self.data, self.entries = bytearray(), {}

    def makes(self):
        return BIT[f"make_{self.kind}"]

    def removes(self):
        return BIT["remove_dir" if self.kind == "dir" else "remove_file"]

    def meaning(self):
        return (1 << len(RIGHTS)) - 1 if self.kind == "dir" else ON_FILES

    def refuse_as_file(self, special):
        """How what opens or cuts a file is refused where it is none."""
        refuse(self.kind == "dir", "EISDIR")
        refuse(self.kind == "sym", "ELOOP")
        refuse(self.kind != "reg", special)

    def set_length(self, length):
        self.data = self.data[:length] + bytes(length - len(self.data[:length]))


class Client:
    def __init__(self, parent=None):
        """A layer is what is handled, and the rights that its rules hold by inode; a ruleset likewise."""
        self.layers, self.rulesets = list(parent.layers) if parent else [], []
        self.files = dict(parent.files) if parent else {}
        for node, *_ in self.files.values():
            node.opened += 1

    def file(self, number):
        refuse(number not in self.files, "EBADF")
        return self.files[number]


def grants(layer, chain):
    """The rights that the layer grants at the end of a chain of nodes."""
    handled, rules = layer
    granted = (1 << len(RIGHTS)) - 1 & ~(handled | BIT["refer"])
    for node in chain:
        granted |= rules.get(node.inode, 0)
    return granted


class Place:
    """Where a path leads: the directories down to its last name's, that name, and the node under it or none."""

    def __init__(self, root, names):
        self.chain, self.name, self.node = [root], names[-1] if names else None, root
        for name in names[:-1]:
            node = self.chain[-1].entries.get(name)
            refuse(node is None, "ENOENT")
            refuse(node.kind == "sym", "ELOOP")
            refuse(node.kind != "dir", "ENOTDIR")
            self.chain.append(node)
        if names:
            self.node = self.parent().entries.get(names[-1])

    def parent(self):
        return self.chain[-1]

    def whole(self):
        is_more = self.node is not None and self.node is not self.chain[-1]
        return [*self.chain, self.node] if is_more else self.chain


def names_of(word):
    """The names of a path, where nothing is wrong with its text."""
    refuse(len(word) > 4095, "ENAMETOOLONG")
    names = word[1:].split("/") if word != "/" else []
    refuse(not word.startswith("/") or any(name in ("", ".", "..") for name in names), "EINVAL")
    refuse(len(names) > 64 or not all(map(is_name, names)), "ENAMETOOLONG")
    return names


def is_beneath(names, others):
    return len(names) > len(others) and names[: len(others)] == others


class Model:
    def __init__(self, nodes, history, abi):
        self.nodes, self.room, self.known = nodes, history - 1, (1 << 12 + abi) - 1
        self.root, self.next, self.clients = Node(1, "dir"), 2, [Client()]
        self.live = {self.root}

    def answer(self, client, call):
        if self.room == 0:
            return FULL
        self.room -= 1
        word, *args = call.split(" ")
        try:
            return getattr(self, f"call_{word}")(self.clients[client - 1], *args) or "ok"
        except Refused as refused:
            return str(refused)

    # ---- what calls share

    def place(self, names):
        return Place(self.root, names)

    def deny(self, client, *asked, gains=()):
        """Tells the denial that comes first: what is asked is a set of rights, a chain and a place; a gain likewise,
        of the rights that have a meaning for a node, with the chain that it has them by and the one that it enters."""
        found = []
        for number, layer in enumerate(client.layers, 1):
            for rights, chain, at in asked:
                found += [(right == "refer", number, BIT[right], PLACES.index(at), right)
                          for right in RIGHTS if BIT[right] & rights & ~grants(layer, chain)]
            for node, own, entered, at in gains:
                more = grants(layer, entered) & ~grants(layer, own) & node.meaning()
                found += [(2, number, BIT[right], PLACES.index(at), right) for right in RIGHTS if BIT[right] & more]
        if found:
            cause, number, _, at, right = min(found)
            raise Refused(f"denied {'EXDEV' if cause else 'EACCES'} layer {number} {right} {PLACES[at]}")

    def refuse_full(self, directory, is_made=True):
        refuse(len(directory.entries) >= 1024 or is_made and len(self.live) >= self.nodes, "ENOSPC")

    def put(self, place, node):
        place.parent().entries[place.name] = node
        node.names += 1

    def take(self, place):
        """Takes the name away, and the node if nothing keeps it."""
        node = place.parent().entries.pop(place.name)
        node.names -= 1
        self.let_go(node)

    def let_go(self, node):
        if not node.names and not node.opened and node is not self.root:
            self.live.discard(node)

    def new(self, place, kind):
        node = Node(self.next, kind)
        self.next += 1
        self.live.add(node)
        self.put(place, node)
        return node

    # ---- calls of one path

    def call_make(self, client, kind, path):
        names = names_of(path)
        refuse(not names, "EBUSY")
        place = self.place(names)
        refuse(place.node, "EEXIST")
        self.deny(client, (BIT[f"make_{kind}"], place.chain, "at"))
        self.refuse_full(place.parent())
        self.new(place, kind)

    def call_open(self, client, mode, path):
        place = self.place(names_of(path))
        node, rights = place.node, BIT["read_file"] * ("r" in mode) | BIT["write_file"] * ("w" in mode)
        refuse(node is None and "c" not in mode, "ENOENT")
        refuse(node and "x" in mode, "EEXIST")
        if node:
            self.deny(client, (rights | BIT["truncate"] * ("t" in mode), place.whole(), "at"))
            node.refuse_as_file("ENXIO")
        else:
            self.deny(client, (rights, place.chain, "at"), (BIT["make_reg"], place.chain, "at"))
        refuse(len(client.files) >= 64, "EMFILE")
        if node is None:
            self.refuse_full(place.parent())
            node = self.new(place, "reg")
        kept = [n for n, layer in enumerate(client.layers, 1) if not grants(layer, place.whole()) & BIT["truncate"]]
        number = next(n for n in range(64) if n not in client.files)
        client.files[number] = node, "r" in mode, "w" in mode, kept[:1]
        node.opened += 1
        node.data = bytearray() if "t" in mode else node.data
        return f"fd {number}"

    def found(self, path):
        place = self.place(names_of(path))
        refuse(place.node is None, "ENOENT")
        return place

    def call_truncate(self, client, path, length):
        place = self.found(path)
        self.deny(client, (BIT["truncate"], place.whole(), "at"))
        place.node.refuse_as_file("EINVAL")
        refuse(int(length) > 65536, "EFBIG")
        place.node.set_length(int(length))

    def call_list(self, client, path):
        place = self.found(path)
        self.deny(client, (BIT["read_dir"], place.whole(), "at"))
        refuse(place.node.kind != "dir", "ENOTDIR")
        return " ".join(["names", *sorted(place.node.entries)])

    def call_stat(self, _, path):
        node = self.found(path).node
        return f"stat {node.inode} {node.kind} {len(node.data)} {1 if node.kind == 'dir' else node.names}"

    def call_exec(self, client, path):
        place = self.found(path)
        self.deny(client, (BIT["execute"] | BIT["read_file"], place.whole(), "at"))
        place.node.refuse_as_file("ENXIO")

    def removed(self, client, path, right):
        names = names_of(path)
        refuse(not names, "EBUSY")
        place = self.place(names)
        refuse(place.node is None, "ENOENT")
        self.deny(client, (BIT[right], place.chain, "at"))
        return place

    def call_unlink(self, client, path):
        place = self.removed(client, path, "remove_file")
        refuse(place.node.kind == "dir", "EISDIR")
        self.take(place)

    def call_rmdir(self, client, path):
        place = self.removed(client, path, "remove_dir")
        refuse(place.node.kind != "dir", "ENOTDIR")
        refuse(place.node.entries, "ENOTEMPTY")
        self.take(place)

    # ---- calls of two paths

    def two(self, old, new, beneath, above):
        """Both places. The refusals are for a new path beneath the old one, and for an old one beneath the new."""
        old, new = names_of(old), names_of(new)
        refuse(not old or not new, "EBUSY")
        refuse(is_beneath(new, old), beneath)
        refuse(is_beneath(old, new), above)
        old, new = self.place(old), self.place(new)
        refuse(old.node is None, "ENOENT")
        return old, new

    def deny_move(self, client, old, new, at_old, at_new, is_both=False):
        asked, gains = [(at_old, old.chain, "old"), (at_new, new.chain, "new")], []
        if old.parent() is not new.parent():
            asked += [(BIT["refer"], old.chain, "old"), (BIT["refer"], new.chain, "new")]
            gains = [(old.node, old.whole(), new.chain, "new")]
            gains += [(new.node, new.whole(), old.chain, "old")] * is_both
        self.deny(client, *asked, gains=gains)

    def call_rename(self, client, old, new):
        old, new = self.two(old, new, "EINVAL", "ENOTEMPTY")
        node, there = old.node, new.node
        self.deny_move(client, old, new, node.removes(), node.makes() | (there.removes() if there else 0))
        if there is node:
            return
        if there:
            refuse(there.kind == "dir" and node.kind != "dir", "EISDIR")
            refuse(there.kind != "dir" and node.kind == "dir", "ENOTDIR")
            refuse(there.entries, "ENOTEMPTY")
            self.take(new)
        self.move(old, new)

    def move(self, old, new):
        if old.parent() is not new.parent():
            self.refuse_full(new.parent(), is_made=False)
        node = old.parent().entries.pop(old.name)
        new.parent().entries[new.name] = node

    def call_rename_noreplace(self, client, old, new):
        old, new = self.two(old, new, "EINVAL", "EEXIST")
        refuse(new.node, "EEXIST")
        self.deny_move(client, old, new, old.node.removes(), old.node.makes())
        self.move(old, new)

    def call_exchange(self, client, old, new):
        old, new = self.two(old, new, "EINVAL", "EINVAL")
        one, other = old.node, new.node
        refuse(other is None, "ENOENT")
        at_old, at_new = one.removes() | other.makes(), one.makes() | other.removes()
        self.deny_move(client, old, new, at_old, at_new, is_both=True)
        old.parent().entries[old.name], new.parent().entries[new.name] = other, one

    def call_link(self, client, old, new):
        old, new = self.two(old, new, "EINVAL", "EEXIST")
        refuse(new.node, "EEXIST")
        self.deny_move(client, old, new, 0, old.node.makes())
        refuse(old.node.kind == "dir", "EPERM")
        refuse(old.node.names >= 1000, "EMLINK")
        self.refuse_full(new.parent(), is_made=False)
        self.put(new, old.node)

    # ---- calls on descriptors

    def call_read(self, client, number, offset, count):
        refuse(int(count) > 4096, "EINVAL")
        node, reads, _, _ = client.file(int(number))
        refuse(not reads, "EBADF")
        return f"data {node.data[int(offset) : int(offset) + int(count)].hex() or '-'}"

    def call_write(self, client, number, offset, text):
        node, _, writes, _ = client.file(int(number))
        refuse(not writes, "EBADF")
        data, offset = bytes.fromhex(text.replace("-", "")), int(offset)
        if data:
            refuse(offset + len(data) > 65536, "EFBIG")
            node.set_length(max(len(node.data), offset))
            node.data[offset : offset + len(data)] = data
        return f"wrote {len(data)}"

    def call_ftruncate(self, client, number, length):
        node, _, writes, kept = client.file(int(number))
        refuse(not writes, "EINVAL")
        if kept:
            raise Refused(f"denied EACCES layer {kept[0]} truncate at")
        refuse(int(length) > 65536, "EFBIG")
        node.set_length(int(length))

    def call_close(self, client, number):
        node, *_ = client.file(int(number))
        del client.files[int(number)]
        node.opened -= 1
        self.let_go(node)

    # ---- calls of layers and clients

    def call_ruleset(self, client, rights):
        rights = rights_of(rights)
        refuse(rights & ~self.known, "EINVAL")
        refuse(not rights, "ENOMSG")
        refuse(len(client.rulesets) >= 16, "EMFILE")
        client.rulesets.append((rights, {}))
        return f"ruleset {len(client.rulesets) - 1}"

    def call_allow(self, client, number, path, rights):
        names, rights = names_of(path), rights_of(rights)
        refuse(int(number) >= len(client.rulesets), "EBADF")
        node, (handled, rules) = self.place(names).node, client.rulesets[int(number)]
        refuse(node is None, "ENOENT")
        refuse(not rights, "ENOMSG")
        refuse(rights & ~handled or rights & ~node.meaning(), "EINVAL")
        refuse(node.inode not in rules and len(rules) >= 256, "E2BIG")
        rules[node.inode] = rules.get(node.inode, 0) | rights

    def call_confine(self, client, number):
        refuse(int(number) >= len(client.rulesets), "EBADF")
        refuse(len(client.layers) >= 16, "E2BIG")
        handled, rules = client.rulesets[int(number)]
        client.layers.append((handled, dict(rules)))

    def call_spawn(self, client):
        refuse(len(self.clients) >= 64, "EMFILE")
        self.clients.append(Client(client))
        return f"client {len(self.clients)}"
