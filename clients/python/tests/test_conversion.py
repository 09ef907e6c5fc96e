"""From a log to a policy's nodes and a file of checks, and what comes of logs and files that aren't as they should."""

import json
import os

from tests.support import Case
from tests.traces import Tracing

from landtree import load_policy
from landtree.directories import Node
from landtree.trace import convert
from landtree.trace.conversion import names_beside
from landtree.trace.events import Event, command
from landtree.trace.files import write_all
from landtree.trace.inventory import Inventory, inventory_of
from landtree.trace.recording import Recording
from landtree.trace.slim import least_asks, places_of, slimmed
from landtree.trace.texts import checks_text, first_nodes, need_room


class Slim(Tracing):
    def slim(self, *lines):
        """Returns the commands that are kept, but for those that close."""
        trace = self.read(*lines)
        kept = [it.text for event in slimmed(trace.events) for it in event.commands if it.text != "close 0"]
        wanted = least_asks(trace.events)
        got = {(ask.right, places_of(ask.chain)) for event in slimmed(trace.events) for ask in event.asks}
        self.assertLessEqual(wanted, got)
        return kept

    def test_once(self):
        line = 'open("f", O_RDONLY) = 3</w/f>'
        self.assertEqual(self.slim(line, line, line), ["open r /w/f = fd 0"])

    def test_below_a_directory_that_needs_the_right(self):
        # Who may list /w may list /w/d, by the rule on /w.
        lines = [f'open("{it}", O_RDONLY) = 3</w/{it}>' for it in ("d", "d/e")]
        self.assertEqual(self.slim(*lines, 'open("/w", O_RDONLY) = 3</w>'), ["list /w"])

    def test_what_is_made_asks_once(self):
        lines = [f'open("new{it}", O_WRONLY|O_CREAT, 0666) = 3</w/new{it}>' for it in range(9)]
        self.assertEqual(self.slim(*lines), ["open wc /w/new0 = fd 0"])

    def test_what_would_be_cut_the_next_time_is_kept_once(self):
        lines = [f'open("d/new{it}", O_WRONLY|O_CREAT, 0666) = 3</w/d/new{it}>' for it in range(3)]
        lines += [f'open("d/log{it}", O_WRONLY|O_CREAT|O_TRUNC, 0666) = 3</w/d/log{it}>' for it in range(3)]
        self.assertEqual(self.slim(*lines), ["open wc /w/d/new0 = fd 0", "open wtc /w/d/log0 = fd 0"])

    def test_a_file_that_was_there_is_kept_below_what_is_made(self):
        # The rule on /w grants write_file for what is made there. That it reaches f too is known by its opening alone.
        lines = ['open("new", O_WRONLY|O_CREAT, 0666) = 3</w/new>', *['open("f", O_WRONLY) = 3</w/f>'] * 2]
        self.assertEqual(self.slim(*lines), ["open wc /w/new = fd 0", "open w /w/f = fd 0"])

    def test_what_a_kept_one_names_comes_with_it(self):
        # Of the two directories and files the second ones ask for nothing new, but one is executed.
        lines = ['mkdir("n", 0777) = 0', 'mkdir("m", 0777) = 0']
        lines += [f'open("{it}/f", O_WRONLY|O_CREAT, 0666) = 3</w/{it}/f>' for it in "nm"]
        lines += ['unlink("m/f") = 0', 'execve("/w/m/f", ["f"], 0x1 /* 1 var */) = 0']
        wanted = ["make dir /w/n", "make dir /w/m", "open wc /w/n/f = fd 0", "open wc /w/m/f = fd 0", "unlink /w/m/f"]
        self.assertEqual(self.slim(*lines)[:5], wanted)

    def test_moves_are_kept(self):
        lines = ['rename("f", "d/f") = 0', 'rename("g", "d/g") = 0']
        self.assertEqual(self.slim(*lines), ["rename /w/f /w/d/f", "rename /w/g /w/d/g"])


class Texts(Tracing):
    def test_nodes(self):
        trace = self.read('open("d/x", O_RDONLY) = 3</w/d/x>', 'mkdir("n", 0777) = 0', 'rmdir("empty") = 0')
        wanted = [("/w", "dir"), ("/w/d", "dir"), ("/w/d/x", "reg"), ("/w/empty", "dir")]
        self.assertEqual(first_nodes(trace.events), [Node(*it) for it in wanted])

    def test_each_node_comes_after_its_directory(self):
        files = {"/a": "dir", "/a/b": "dir", "/a/b/c": "reg", "/a-b": "reg", "/a b": "reg"}
        lines = [f'open("{it}", O_RDONLY) = 3<{it}>' for it in ("/a-b", "/a/b/c", "/a b")]
        nodes = first_nodes(self.read(*lines, files=files).events)
        self.assertEqual([it.path for it in nodes], ["/a", "/a/b", "/a/b/c", "/a%20b", "/a-b"])

    def test_checks(self):
        events = [Event(1, [command("list", "/a b"), command("open", "r", "/f", expected="fd 0")], [])]
        self.assertEqual(checks_text(events), "list /a%20b\nopen r /f = fd 0\n")

    def test_room(self):
        need_room("log", [Node(f"/d{it // 1000}/{it}", "reg") for it in range(4095)], [])
        text = "log: the checks need 4,097 nodes, and a tree has at most 4,096"
        self.wants_fault(text, need_room, "log", [Node(f"/d{it // 1000}/{it}", "reg") for it in range(4096)], [])
        text = "log: the checks need 1,025 names in /, and 1,024 may be there"
        self.wants_fault(text, need_room, "log", [Node(f"/{it}", "reg") for it in range(1025)], [])


class Files(Case):
    LOG = '7 openat(AT_FDCWD</w>, "f", O_WRONLY|O_CREAT, 0666) = 3</w/f>\n7 +++ exited with 0 +++\n'

    def recorded(self, log=LOG, **changed):
        self.log = self.put("run.log", log)
        data = {"form": 1, "words": ["p"], "directory": "/w", "status": 0, "began": 0.0, "directories": ["/w"]}
        entries = {"/w": ["dir", None, None]}
        self.put("run.log.before", json.dumps({**data, "entries": entries, **changed}))
        return self.log

    def test_both_texts(self):
        converted = convert(self.recorded())
        self.assertEqual(load_policy(converted.nodes).nodes, [Node("/w", "dir")])
        self.assertEqual(converted.checks, "open wc /w/f = fd 0\nclose 0\n")
        self.assertEqual((converted.calls, converted.commands, converted.told()), (1, 2, []))

    def test_what_is_told(self):
        converted = convert(self.recorded('7 chroot("/w") = 0\n7 +++ exited with 0 +++\n'))
        self.assertEqual(converted.told(), [f"{self.log}:1: chroot changes what paths mean"])

    def test_what_comes_often_is_told_once(self):
        converted = convert(self.recorded('7 chroot("/w") = 0\n' * 3 + "7 +++ exited with 0 +++\n"))
        self.assertEqual(converted.told(), [f"{self.log}:1: chroot changes what paths mean (and 2 times more)"])

    def test_a_file_beside_what_is_made(self):
        # So `learn` tells that the rule on /w reaches a file that was there.
        entries = {"/w": ["dir", None, None], "/w/old": ["reg", None, None]}
        converted = convert(self.recorded(entries=entries))
        self.assertEqual(load_policy(converted.nodes).nodes, [Node("/w", "dir"), Node("/w/old", "reg")])

    def test_whole(self):
        twice = self.LOG.splitlines(keepends=True)[0] + self.LOG
        self.assertEqual(convert(self.recorded(twice), whole=True).commands, 4)
        self.assertEqual(convert(self.recorded(twice)).commands, 2)

    def test_no_recording(self):
        log = self.put("run.log", self.LOG)
        self.wants_fault(f"{log}.before: No such file or directory; `record` makes it beside its log", convert, log)

    def test_no_log(self):
        self.recorded().unlink()
        self.wants_fault(f"{self.log}: No such file or directory", convert, self.log)

    def test_what_is_no_recording(self):
        fault = f"{self.recorded()}.before: it isn't what `record` writes"
        for text in ("", "{", "[]", "{}", "null", '{"form": 1}', "\x00", "\u00e9", "[" * 100_000, "9" * 5000):
            self.put("run.log.before", text)
            self.wants_fault(fault, convert, self.log)
        for changed in ({"form": 2}, {"entries": []}, {"began": "x"}, {"began": 10**400}, {"directories": 3}):
            self.recorded(**changed)
            self.wants_fault(fault, convert, self.log)
        keys = [["dir", None, it] for it in ([1], [1, 2, 3], "ab", 1)]
        kinds = [["x", None, None], [["dir"], None, None], ["sym", None, None], ["reg", "a", None]]
        for entry in ([], *keys, *kinds):
            self.recorded(entries={"/w": entry})
            self.wants_fault(fault, convert, self.log)

    def test_saved_and_loaded(self):
        self.put("d/f")
        os.link(self.room / "d/f", self.room / "d/g")
        (self.room / "d/l").symlink_to("f")
        (self.room / os.fsdecode(b"d/\xff")).touch()
        inventory = inventory_of([str(self.room / "d")], 5.5)
        Recording(self.room / "log", ["p"], "/", inventory, 3).save()
        loaded = Recording.load(self.room / "log")
        self.assertEqual((loaded.inventory, loaded.status, loaded.words), (inventory, 3, ["p"]))
        kinds = {os.path.basename(path): it.kind for path, it in inventory.entries.items()}
        self.assertEqual(kinds, {"d": "dir", "f": "reg", "g": "reg", "l": "sym", os.fsdecode(b"\xff"): "reg"})

    def test_both_or_none(self):
        converted = convert(self.recorded())
        nodes, checks = self.room / "n", self.put("c", "mine")
        fault = f"{checks}: it is there already"
        self.wants_fault(fault, converted.write, nodes, checks)
        self.assertEqual((nodes.exists(), checks.read_text()), (False, "mine"))
        converted.write(nodes, checks, replace=True)
        self.assertEqual((nodes.read_text(), checks.read_text()), (converted.nodes, converted.checks))
        self.assertEqual(sorted(it.name for it in self.room.iterdir()), ["c", "n", "run.log", "run.log.before"])

    def test_a_directory_that_is_not_there(self):
        texts = [(self.room / "a", "a"), (self.room / "none/b", "b")]
        self.wants_fault(f"{self.room}/none/b.part: No such file or directory", write_all, texts)
        self.assertEqual(list(self.room.iterdir()), [])

    def test_nothing_is_written_through_a_link(self):
        mine = self.put("mine", "mine")
        (self.room / "b.part").symlink_to("mine")
        texts = [(self.room / "a", "a"), (self.room / "b", "b")]
        self.wants_fault(f"{self.room}/b.part: File exists", write_all, texts, replace=True)
        self.assertEqual(mine.read_text(), "mine")
        self.assertEqual(sorted(it.name for it in self.room.iterdir()), ["b.part", "mine"])

    def test_names(self):
        named = {("a/run.log", None, None): ("a/run.nodes.toml", "a/run.check"), ("x", "n", None): ("n", "x.check")}
        for words, files in named.items():
            self.assertEqual(tuple(map(str, names_beside(*words))), files)


class Inventories(Case):
    def test_what_came_later(self):
        self.put("old")
        inventory = Inventory([], os.stat(self.room / "old").st_ctime + 1000)
        self.assertEqual(inventory.entry(str(self.room / "old")).kind, "reg")
        inventory.began = 0.0
        self.assertIsNone(inventory.entry(str(self.room / "old")))
        self.assertIsNone(inventory.entry(str(self.room / "none")))
        # The kernel's own directories have no date that says when a file came.
        self.assertEqual(inventory.entry("/dev/null").kind, "char")

    def test_only_what_was_listed(self):
        self.put("d/old")
        inventory = inventory_of([str(self.room / "d")], 0.0)
        self.put("d/new")
        self.assertIsNone(inventory.entry(str(self.room / "d/new")))
        self.assertEqual(inventory.entry(str(self.room / "d/old")).kind, "reg")
        self.assertEqual(inventory.names_in(str(self.room / "d")), ["old"])
        self.assertEqual(inventory.names_in(str(self.room / "d/old")), [])
