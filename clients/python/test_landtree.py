#!/usr/bin/env python3
"""Tests the client in Python with the built program. What is wanted comes from docs/MODEL.md, from the examples and the
worked examples, whose replies were worked out from the rules, and from the file system. The last line is
'N passed, M failed'.

    clients/python/test_landtree.py [-p PROGRAM] [NAME..]

PROGRAM is the program to run, crates/landtree/out/landtree where it isn't told. With NAMEs only these tests are run, as
Snapshots or Snapshots.test_each_node.
"""

import contextlib
import errno
import gc
import itertools
import os
import pickle
import random
import re
import signal
import socket
import stat
import struct
import subprocess
import sys
import tempfile
import threading
import time
import unittest
from concurrent.futures import ThreadPoolExecutor
from pathlib import Path, PurePosixPath
from unittest import mock

sys.dont_write_bytecode = True
HERE = Path(__file__).resolve().parent
TOP = HERE.parent.parent
sys.path.insert(0, str(HERE))

from landtree import BadReply, Client, Denied, Landtree, LandtreeError, OpeningRefused  # noqa: E402
from landtree import ProgramFault, Refused, Rights, Stat, TimedOut, snapshot  # noqa: E402
from landtree import directories, transports  # noqa: E402

PROGRAM = str(TOP / "crates/landtree/out/landtree")
BAD_LINE = "refused 23 BadLine"
# Seconds after which a program that should have ended is taken for one that hangs.
LONGEST = 60
# Of what each error has, what a test names.
FIELDS = {
    Denied: ("name", "layer", "right", "place"),
    Refused: ("number", "name"),
    OpeningRefused: ("number", "name"),
    ProgramFault: ("status", "line"),
    BadReply: ("reply",),
}


def run(**options):
    return Landtree.run(PROGRAM, **options)


def free_port():
    """A port that nobody has. It lies below those that the system gives to whoever connects, so it stays free."""
    for port in random.sample(range(20_000, 32_000), 100):
        with contextlib.suppress(OSError), socket.create_server(("127.0.0.1", port)):
            return port
    raise OSError("no port is free")


class Server:
    """The program, serving on this port, as these further words of `serve` ask for it."""

    def __init__(self, port, words):
        self.port = port
        words = [PROGRAM, "serve", "--port", str(port), *words]
        pipes = {"stdin": subprocess.DEVNULL, "stdout": subprocess.PIPE, "stderr": subprocess.PIPE}
        self.child = subprocess.Popen(words, **pipes, text=True)
        self.told = self.child.stdout.readline()
        self.errors = None

    def ended(self):
        """Waits until it has ended, and returns its status and all that it wrote; one that hangs is killed."""
        if self.errors is None:
            watch = threading.Timer(LONGEST, self.child.kill)
            watch.start()
            out, self.errors = self.child.communicate()
            watch.cancel()
            self.told += out
        return self.child.returncode, self.told, self.errors


class Case(unittest.TestCase):
    def setUp(self):
        folder = tempfile.TemporaryDirectory()
        self.addCleanup(folder.cleanup)
        self.room = Path(folder.name)

    def session(self, **options):
        """A session with a program of its own."""
        return run(**options)

    def serve(self, **options):
        """A program that serves; when the test is over it has ended well."""
        server = Server(free_port(), [f"--{name}={value}" for name, value in options.items()])
        self.addCleanup(self.wants_well, server)
        return server

    def wants_well(self, server):
        self.assertEqual(server.ended(), (0, f"listening {server.port}\n", ""))

    def file(self, name, text):
        path = self.room / name
        path.write_text(text)
        return path

    def stand_in(self, script):
        """A program that answers the first line as one with a session does, and then does as the script says."""
        path = self.file("stand-in", f"#!/bin/sh\nread first; echo '{BAD_LINE}'\n{script}\n")
        path.chmod(0o755)
        return path

    def in_thread(self, tree, call, *words):
        """Has another thread make a call of the session, waits until it is under way, and returns what waits for its
        end and gives its error."""

        def make():
            try:
                call(*words)
            except Exception as error:
                errors.append(error)

        def ended():
            thread.join(LONGEST)
            self.assertFalse(thread.is_alive())
            return errors[0] if errors else None

        errors = []
        thread = threading.Thread(target=make)
        thread.start()
        with self.within(LONGEST):
            while not tree._transport.way.channel.is_owed:
                time.sleep(0.01)
        return ended

    def waiting(self):
        """Words of a shell that wait until `let_go` is called."""
        return f"while [ ! -e '{self.room}/go' ]; do sleep 0.01; done"

    def let_go(self):
        (self.room / "go").touch()

    @contextlib.contextmanager
    def a_fork(self, call=lambda: None):
        """A fork of this process, which has made the call well and lives on."""
        ours, theirs = socket.socketpair()
        fork = os.fork()
        if not fork:
            with contextlib.suppress(BaseException):
                ours.close()
                call()
                theirs.send(b"well")
                theirs.recv(1)
            os._exit(0)
        theirs.close()
        with ours:
            self.assertEqual(ours.recv(9), b"well")
            yield
        os.waitpid(fork, 0)

    @contextlib.contextmanager
    def leaves_nothing(self):
        """Wants as many descriptors after as before, and no child."""
        gc.collect()
        before = os.listdir("/proc/self/fd")
        yield
        gc.collect()
        self.assertEqual(os.listdir("/proc/self/fd"), before)
        self.assertRaises(ChildProcessError, os.waitpid, -1, os.WNOHANG)

    @contextlib.contextmanager
    def within(self, seconds):
        began = time.monotonic()
        yield
        self.assertLess(time.monotonic() - began, seconds)

    def raises(self, kind, fields, call, *words, **options):
        """Wants the call to raise this very kind of error with these fields."""
        with self.assertRaises(kind) as caught:
            call(*words, **options)
        self.assertIs(type(caught.exception), kind)
        self.assertEqual(tuple(getattr(caught.exception, it) for it in FIELDS[kind]), fields)
        return caught.exception


class ByPort:
    """A test whose sessions are connections, each to a program of its own; one has ended before the next begins."""

    server = None

    def session(self, **options):
        if self.server:
            self.wants_well(self.server)
        self.server = self.serve(**options)
        return Landtree.connect(self.server.port)


# ---- lines of scripts as calls of the client


def rights_of(word):
    """The set that a word of a line tells, if the word is how the set is spelled."""
    rights = Rights.NONE
    for name in word.split(",") if word != "none" else []:
        if not re.fullmatch("[a-z]+(_[a-z]+)?", name) or name.upper() not in Rights.__members__:
            raise ValueError(f"no rights: {word}")
        rights |= Rights[name.upper()]
    return as_spelled(rights, word, str(rights))


def number_of(word):
    return as_spelled(int(word), word, str(int(word)))


def data_of(word):
    data = bytes.fromhex("" if word == "-" else word)
    return as_spelled(data, word, data.hex() or "-")


def as_spelled(value, word, spelled):
    if word != spelled:
        raise ValueError(f"{word} is spelled {spelled}")
    return value


CALLS = {
    "make": (str, str),
    "open": (str, str),
    "read": (number_of, number_of, number_of),
    "write": (number_of, number_of, data_of),
    "ftruncate": (number_of, number_of),
    "close": (number_of,),
    "truncate": (str, number_of),
    "list": (str,),
    "stat": (str,),
    "exec": (str,),
    "unlink": (str,),
    "rmdir": (str,),
    "rename": (str, str),
    "rename_noreplace": (str, str),
    "exchange": (str, str),
    "link": (str, str),
    "ruleset": (rights_of,),
    "allow": (number_of, str, rights_of),
    "confine": (number_of,),
    "spawn": (),
}

# How the reply to a call tells what the call returns; `ok` where it isn't here.
REPLIES = {
    "open": lambda it: f"fd {it}",
    "read": lambda it: f"data {it.hex() or '-'}",
    "write": lambda it: f"wrote {it}",
    "list": lambda it: " ".join(["names", *it]),
    "stat": lambda it: f"stat {it.inode} {it.kind} {it.size} {it.links}",
    "ruleset": lambda it: f"ruleset {it}",
    "spawn": lambda it: f"client {it.number}",
}


class Script:
    """A session whose calls are told by lines of a script."""

    def __init__(self, tree):
        self.clients = {1: tree.client}

    def reply(self, line):
        """Makes the call of a line, and tells what came of it as a reply does. It raises ValueError where no call has
        this line."""
        client, name, arguments = self.call_of(line)
        try:
            result = getattr(client, name)(*arguments)
        except (Denied, Refused) as error:
            return error.reply
        if name == "spawn":
            self.clients[result.number] = result
        return REPLIES[name](result) if name in REPLIES else {None: "ok"}[result]

    def call_of(self, line):
        words = line.split(" ")
        number = 1
        if re.fullmatch("@([2-9]|[1-9][0-9]+)", words[0]):
            number = int(words.pop(0)[1:])
        name = words.pop(0) if words else ""
        if number not in self.clients or name not in CALLS or len(words) != len(CALLS[name]):
            raise ValueError(f"no call has this line: {line}")
        return self.clients[number], name, [read(word) for read, word in zip(CALLS[name], words)]


def lines_of(file):
    """The whole lines of a file, which may have bytes of any kind."""
    return file.read_bytes().decode("latin-1").split("\n")[:-1] if file.exists() else []


def options_of(words, folder):
    """The options that words of the program tell, if they are a name and a value each."""
    values = [word.replace("{", f"{folder}/").replace("}", "") for word in words[1::2]]
    options = dict(zip((word[2:] for word in words[0::2]), values))
    numbers = {name: int(value) for name, value in options.items() if name in ("nodes", "abi", "history")}
    return {**options, **numbers}


def worked(status):
    """Yields the name, the options and the folder of each worked example of a run that ends with 0, or doesn't."""
    for folder in sorted((TOP / "worked").iterdir()):
        words = (folder / "words").read_text().split() if folder.is_dir() else []
        if {"--strict", "--explain"} & {*words}:
            continue
        if words[:1] == ["run"] and len(words) % 2 == 0 and all(it.startswith("--") for it in words[2::2]):
            if (folder / "status").exists() is (status != 0):
                yield folder.name, words[2:], folder


# Runs whose fault lies in words that `Landtree.run` never writes, or in a script that is no standard input.
BEYOND_OPTIONS = [f"words-{it}" for it in ("history-no-number", "nodes-no-number", "nodes-told-twice")]
BEYOND_OPTIONS += ["words-script-not-there", "save-over-the-script", "save-over-the-script-by-another-name"]

# Runs whose profile asks for too much, so that a call of the opening is refused and no line is read.
REFUSED_OPENINGS = [
    *("policy-profile-call-refused", "policy-257-rules", "policy-seventeen-layers"),
    *("policy-directory-right-of-a-file", "policy-rule-grants-nothing"),
]


class Scripts(Case):
    # Every STEPth of the worked scripts is replayed, so many at once.
    STEP, AT_ONCE = 1, 4

    def replay(self, lines, replies, **options):
        """Makes each line's call, and returns the lines that no call has; each of these is refused in a script."""
        unsaid = []
        with self.session(**options) as tree:
            script = Script(tree)
            for line, reply in zip(lines, replies):
                try:
                    told = script.reply(line)
                except ValueError:
                    unsaid.append(line)
                    self.assertTrue(reply == BAD_LINE or "0x" in line and reply.startswith("refused "), (line, reply))
                else:
                    self.assertEqual(told, reply, line)
        return unsaid

    def test_build_step(self):
        lines, replies = (lines_of(TOP / f"examples/build-step.{it}") for it in ("txt", "out"))
        self.assertEqual(len(lines), len(replies))
        self.assertEqual(self.replay(lines, replies), [])

    def test_other_scripts(self):
        for file in sorted((TOP / "examples").glob("*.txt")):
            words = file.with_suffix(".words")
            options = options_of(words.read_text().split() if words.exists() else [], TOP / "examples")
            with self.subTest(file.name):
                self.assertEqual(self.replay(lines_of(file), lines_of(file.with_suffix(".out")), **options), [])

    def test_worked_scripts(self):
        said = 0
        with ThreadPoolExecutor(self.AT_ONCE) as pool:
            replays = []
            for name, words, folder in itertools.islice(worked(0), 0, None, self.STEP):
                lines, replies = lines_of(folder / "stdin"), lines_of(folder / "stdout")
                if name not in REFUSED_OPENINGS:
                    unsaid = pool.submit(self.replay, lines, replies, **options_of(words, folder))
                    replays.append((name, len(lines), unsaid))
            for name, count, unsaid in replays:
                with self.subTest(name):
                    said += count - len(unsaid.result())
        self.assertGreater(said, 2_000 // self.STEP)

    def test_refused_openings(self):
        for name, words, folder in worked(0):
            if name in REFUSED_OPENINGS:
                with self.subTest(name), self.assertRaises(OpeningRefused) as caught:
                    self.session(**options_of(words, folder))
                self.assertEqual([caught.exception.reply], lines_of(folder / "stdout"), name)


class ScriptsByPort(ByPort, Scripts):
    # The lines are those of a child, so a few show that a connection carries them.
    STEP, AT_ONCE = 5, 1


class Calls(Case):
    def test_each_result(self):
        with self.session() as tree:
            first = tree.client
            self.assertIsNone(first.make("dir", "/d"))
            self.assertIsNone(first.make("reg", "/d/f"))
            self.assertEqual(first.open("rw", "/d/f"), 0)
            self.assertEqual(first.write(0, 2, b"\x00\xff"), 2)
            self.assertEqual(first.read(0, 0, 4096), b"\x00\x00\x00\xff")
            self.assertEqual(first.read(0, 4, 4096), b"")
            self.assertEqual(first.write(0, 0, b""), 0)
            self.assertIsNone(first.ftruncate(0, 3))
            self.assertEqual(first.stat("/d/f"), Stat(inode=3, kind="reg", size=3, links=1))
            self.assertEqual(first.stat("/"), Stat(inode=1, kind="dir", size=0, links=1))
            self.assertIsNone(first.close(0))
            self.assertIsNone(first.truncate("/d/f", 0))
            self.assertIsNone(first.exec("/d/f"))
            self.assertIsNone(first.link("/d/f", "/d/g"))
            self.assertEqual(first.list("/d"), ["f", "g"])
            self.assertIsNone(first.exchange("/d/f", "/d/g"))
            self.assertIsNone(first.rename("/d/f", "/d/h"))
            self.assertIsNone(first.rename_noreplace("/d/g", "/i"))
            self.assertIsNone(first.unlink("/d/h"))
            self.assertEqual(first.list("/d"), [])
            self.assertIsNone(first.rmdir("/d"))
            self.assertEqual(first.ruleset(Rights.READ_DIR | Rights.WRITE_FILE), 0)
            self.assertIsNone(first.allow(0, "/", Rights.READ_DIR))
            self.assertIsNone(first.confine(0))
            second = first.spawn()
            self.assertIsInstance(second, Client)
            self.assertEqual((second.number, repr(second)), (2, "<landtree.Client 2>"))
            self.assertEqual(second.list("/"), ["i"])
            self.assertEqual(second.spawn().number, 3)

    def test_denied(self):
        with self.session() as tree:
            tree.client.make("dir", "/a")
            tree.client.make("reg", "/f")
            tree.client.confine(tree.client.ruleset(Rights.WRITE_FILE))
            error = self.raises(Denied, ("EACCES", 1, Rights.WRITE_FILE, "at"), tree.client.open, "w", "/f")
            self.assertIsInstance(error, PermissionError)
            self.assertEqual((error.errno, error.path, error.filename), (errno.EACCES, "/f", "/f"))
            self.assertEqual((error.call, error.reply), ("open w /f", "denied EACCES layer 1 write_file at"))
            self.assertEqual(str(error), "open w /f = denied EACCES layer 1 write_file at")
            error = self.raises(Denied, ("EXDEV", 1, Rights.REFER, "old"), tree.client.rename, "/f", "/a/f")
            self.assertEqual((error.errno, error.path), (errno.EXDEV, "/f"))
            self.assertEqual((error.filename, error.filename2), ("/f", "/a/f"))
            error = self.raises(Denied, ("EACCES", 1, Rights.WRITE_FILE, "at"), tree.client.spawn().open, "w", "/f")
            self.assertEqual(str(error), "@2 open w /f = denied EACCES layer 1 write_file at")

    def test_denied_at_a_new_path_and_at_a_descriptor(self):
        with self.session() as tree:
            tree.client.make("dir", "/a")
            tree.client.make("reg", "/f")
            rules = tree.client.ruleset(Rights.MAKE_REG | Rights.TRUNCATE)
            tree.client.allow(rules, "/a", Rights.TRUNCATE)
            tree.client.confine(rules)
            error = self.raises(Denied, ("EACCES", 1, Rights.MAKE_REG, "new"), tree.client.link, "/f", "/g")
            self.assertEqual(error.path, "/g")
            file = tree.client.open("w", "/f")
            error = self.raises(Denied, ("EACCES", 1, Rights.TRUNCATE, "at"), tree.client.ftruncate, file, 0)
            self.assertEqual((error.path, error.filename), (None, None))

    def test_paths_of_pathlib(self):
        with self.session() as tree:
            tree.client.make("dir", PurePosixPath("/a"))
            tree.client.rename(PurePosixPath("/a"), PurePosixPath("/b"))
            self.assertEqual(tree.client.list("/"), ["b"])

    def test_refused(self):
        with self.session() as tree:
            error = self.raises(Refused, (3, "ENOENT"), tree.client.stat, "/none")
            self.assertEqual((error.call, error.reply), ("stat /none", "refused 3 ENOENT"))
            self.assertEqual(str(error), "stat /none = refused 3 ENOENT")
            self.raises(Refused, (11, "EBADF"), tree.client.close, 0)

    def test_errors_have_one_base(self):
        for error in (Denied, Refused, OpeningRefused, ProgramFault, TimedOut, BadReply):
            self.assertTrue(issubclass(error, LandtreeError), error)

    def test_errors_can_be_pickled(self):
        denied = Denied("EXDEV", 2, Rights.REFER, "new", "@2 link /f /g", ["/f", "/g"])
        errors = [denied, Refused(3, "ENOENT", "stat /"), OpeningRefused(3, "ENOENT", "  why"), TimedOut("late")]
        for error in [*errors, ProgramFault(2, "landtree: file", "  why"), BadReply("hello", "stat /")]:
            copy = pickle.loads(pickle.dumps(error))
            self.assertEqual((type(copy), str(copy), vars(copy)), (type(error), str(error), vars(error)))

    def test_long_calls_in_messages(self):
        error = Refused(16, "EFBIG", f"write 0 65536 {'00' * 4096}")
        self.assertEqual(str(error), f"write 0 65536 {'0' * 186}.. = refused 16 EFBIG")
        self.assertEqual(str(BadReply("x" * 201)), f"the program answered '{'x' * 200}..'")

    def test_long_reads_and_writes(self):
        data = bytes(range(256)) * 17
        with self.session(history=8) as tree:
            first = tree.client
            file = first.open("rwc", "/f")
            self.raises(Refused, (8, "EINVAL"), first.read, file, 0, 4097)
            self.assertRaises(ValueError, first.write, file, 0, data)
            self.assertEqual(first.stat("/f").size, 0)
            self.assertEqual(first.write_all(file, 0, data), 4352)
            self.assertEqual(first.read_all(file), data)
            # The connect, the opening, the refused read, the look, and two calls each.
            self.raises(Refused, (21, "HistoryFull"), first.stat, "/f")

    def test_whole_pieces(self):
        with self.session() as tree:
            file = tree.client.open("rwc", "/f")
            self.assertEqual(tree.client.read_all(file), b"")
            self.assertEqual(tree.client.write_all(file, 0, b""), 0)
            self.assertEqual(tree.client.write_all(file, 1, b"x" * 8191), 8191)
            self.assertEqual(tree.client.read_all(file), b"\x00" + b"x" * 8191)
            self.raises(Refused, (16, "EFBIG"), tree.client.write_all, file, 65_535, b"yz")

    def test_levels_and_sizes(self):
        with self.session(abi=1, nodes=2) as tree:
            self.raises(Refused, (8, "EINVAL"), tree.client.ruleset, Rights.REFER)
            tree.client.make("sym", "/s")
            self.raises(Refused, (13, "ENOSPC"), tree.client.make, "fifo", "/t")

    def test_opening_refused(self):
        folder = TOP / "worked/policy-profile-call-refused"
        self.raises(OpeningRefused, (3, "ENOENT"), self.session, policy=folder / "policy.toml", profile="reader")
        empty = self.file("policy.toml", "version = 1\n")
        self.raises(OpeningRefused, (21, "HistoryFull"), self.session, policy=empty, history=1)

    def test_full_history_is_no_refused_opening(self):
        with self.session(history=1) as tree:
            self.raises(Refused, (21, "HistoryFull"), tree.client.stat, "/")

    def test_threads(self):
        def make_files(client):
            for number in range(50):
                path = f"/{client.number}-{number}"
                file = client.open("rwcx", path)
                client.write(file, 0, path.encode())
                told[path] = client.read(file, 0, 4096)
                client.close(file)

        told = {}
        with self.session() as tree:
            threads = [threading.Thread(target=make_files, args=[tree.client.spawn()]) for _ in range(8)]
            for it in threads:
                it.start()
            for it in threads:
                it.join()
        paths = [f"/{client}-{number}" for client in range(2, 10) for number in range(50)]
        self.assertEqual(told, {path: path.encode() for path in paths})


class CallsByPort(ByPort, Calls):
    pass


class Unsaid(Case):
    """What no line can say is never sent."""

    def setUp(self):
        super().setUp()
        self.transport = mock.Mock()
        self.client = Client(self.transport, 1)
        self.addCleanup(self.transport.send.assert_not_called)

    def test_paths(self):
        for path in ("", " ", "/a b", "/\u00e4", "/\n", "/f\n", "/\x7f", "/\x00", "/" + "a" * 8000):
            for call in (self.client.stat, self.client.list, self.client.exec, self.client.unlink, self.client.rmdir):
                self.assertRaises(ValueError, call, path)
            for name in ("rename", "rename_noreplace", "exchange", "link"):
                self.assertRaises(ValueError, getattr(self.client, name), path, "/f")
                self.assertRaises(ValueError, getattr(self.client, name), "/f", path)
            self.assertRaises(ValueError, self.client.make, "reg", path)
            self.assertRaises(ValueError, self.client.open, "r", path)
            self.assertRaises(ValueError, self.client.truncate, path, 0)
            self.assertRaises(ValueError, self.client.allow, 0, path, Rights.ALL)
        self.assertRaises(TypeError, self.client.stat, b"/f")

    def test_kinds_and_modes(self):
        for kind in ("", "REG", "file", "reg ", "/f"):
            self.assertRaises(ValueError, self.client.make, kind, "/f")
        for mode in ("", "t", "wr", "rx", "rct", "rwtxc", "rr", "w+", "r\n", "/f"):
            self.assertRaises(ValueError, self.client.open, mode, "/f")

    def test_numbers(self):
        for number in (-1, 2**64, True, False):
            for call in (self.client.close, self.client.confine):
                self.assertRaises(ValueError, call, number)
            for numbers in ((number, 0, 0), (0, number, 0), (0, 0, number)):
                self.assertRaises(ValueError, self.client.read, *numbers)
            self.assertRaises(ValueError, self.client.write, number, 0, b"")
            self.assertRaises(ValueError, self.client.write, 0, number, b"")
            self.assertRaises(ValueError, self.client.ftruncate, 0, number)
            self.assertRaises(ValueError, self.client.truncate, "/f", number)
            self.assertRaises(ValueError, self.client.allow, number, "/", Rights.ALL)
        self.assertRaises(TypeError, self.client.close, "0")
        self.assertRaises(TypeError, self.client.close, 1.0)

    def test_bytes_and_rights(self):
        self.assertRaises(ValueError, self.client.write, 0, 0, bytes(4097))
        for data in (5, "text", None):
            self.assertRaises(TypeError, self.client.write, 0, 0, data)
            self.assertRaises(TypeError, self.client.write_all, 0, 0, data)
        for rights in ("read_file", 4, None):
            self.assertRaises(TypeError, self.client.ruleset, rights)
            self.assertRaises(TypeError, self.client.allow, 0, "/", rights)


class Lines(Case):
    """What is sent, and what is taken for a reply."""

    def test_rights(self):
        names = "execute write_file read_file read_dir remove_dir remove_file make_char make_dir make_reg make_sock"
        names = [*names.split(), "make_fifo", "make_block", "make_sym", "refer", "truncate"]
        self.assertEqual([it.value for it in (Rights[name.upper()] for name in names)], [2**bit for bit in range(15)])
        self.assertEqual(str(Rights.ALL), ",".join(names))
        self.assertEqual(str(Rights.NONE), "none")
        self.assertEqual(str(Rights.TRUNCATE | Rights.EXECUTE | Rights.READ_DIR), "execute,read_dir,truncate")
        self.assertEqual(str(Rights.ALL & ~Rights.READ_FILE), ",".join(it for it in names if it != "read_file"))
        self.assertEqual(Rights.parse("none"), Rights.NONE)
        self.assertEqual(Rights.parse("execute,read_dir,truncate"), Rights.EXECUTE | Rights.READ_DIR | Rights.TRUNCATE)
        self.assertEqual(Rights.parse(",".join(names)), Rights.ALL)
        for text in ("", "readfile", "READ_FILE", "all", "read_file,", "read_dir,execute", "execute,execute", "none,refer"):
            self.assertRaises(ValueError, Rights.parse, text)

    def test_lines(self):
        transport = mock.Mock()
        transport.send.return_value = "ok"
        second = Client(transport, 2)
        second.rename("//", "x" * 8000)
        second.allow(15, "/a", Rights.TRUNCATE | Rights.REFER)
        Client(transport, 1).ftruncate(2**64 - 1, 0)
        sent = [call.args[0] for call in transport.send.call_args_list]
        wanted = [f"@2 rename // {'x' * 8000}", "@2 allow 15 /a refer,truncate", "ftruncate 18446744073709551615 0"]
        self.assertEqual(sent, wanted)

    def test_numbers_with_names(self):
        transport = mock.Mock()
        transport.send.return_value = "ok"
        Client(transport, 1).close(signal.SIGINT)
        transport.send.assert_called_once_with(f"close {signal.SIGINT.value}")

    def test_each_mode(self):
        transport = mock.Mock()
        transport.send.return_value = "fd 0"
        modes = [way + empty + make for way in ("r", "w", "rw") for empty in ("", "t") for make in ("", "c", "cx")]
        for mode in modes:
            Client(transport, 1).open(mode, "/f")
        sent = [call.args[0] for call in transport.send.call_args_list]
        self.assertEqual(sent, [f"open {mode} /f" for mode in modes])

    def test_no_replies(self):
        replies = ["", "fd 0", "ok ", "OK", "refused 3", "refused ENOENT 3", "refused 03 ENOENT"]
        replies += ["denied EPERM layer 1 write_file at", "denied EACCES layer 1 writefile at"]
        replies += ["denied EACCES layer 1 write_file there", "denied EACCES layer 1 write_file"]
        for reply in replies:
            client = Client(mock.Mock(send=mock.Mock(return_value=reply)), 1)
            self.raises(BadReply, (reply,), client.unlink, "/f")
        calls = {"open": ("r", "/f"), "read": (0, 0, 1), "write": (0, 0, b"x"), "list": ("/",), "stat": ("/",)}
        calls.update({"ruleset": (Rights.ALL,), "spawn": ()})
        for name, words in calls.items():
            client = Client(mock.Mock(send=mock.Mock(return_value="ok")), 1)
            self.raises(BadReply, ("ok",), getattr(client, name), *words)
        self.wants_bad_replies(["data", "data 0", "data 0A", "data 00 ", "data -0", "data 0000"], "read", 0, 0, 1)

    def wants_bad_replies(self, replies, name, *words):
        for reply in replies:
            client = Client(mock.Mock(send=mock.Mock(return_value=reply)), 1)
            self.raises(BadReply, (reply,), getattr(client, name), *words)

    def test_no_numbers(self):
        for digits in (21, 5_000):
            number = "9" * digits
            self.wants_bad_replies([f"fd {number}", f"refused {number} ENOENT"], "open", "r", "/f")
            self.wants_bad_replies([f"denied EACCES layer {number} read_file at"], "open", "r", "/f")
            self.wants_bad_replies([f"stat {number} reg 0 1", f"stat 1 reg {number} 1"], "stat", "/f")
            self.wants_bad_replies([f"ruleset {number}"], "ruleset", Rights.ALL)
            self.wants_bad_replies([f"client {number}"], "spawn")
        self.wants_bad_replies(["wrote 0", "wrote 2", "wrote 01", f"wrote {'9' * 5_000}"], "write", 0, 0, b"x")

    def test_no_listings(self):
        replies = ["names a a", "names b a", "names .", "names ..", "names a/b", "names  a", f"names {'a' * 256}"]
        self.wants_bad_replies([*replies, f"names {' '.join(f'{it:04}' for it in range(1_025))}"], "list", "/")


class Programs(Case):
    def test_on_the_path(self):
        os.symlink(PROGRAM, self.room / "landtree")
        with mock.patch.dict(os.environ, {"PATH": str(self.room)}):
            with Landtree.run() as tree:
                self.assertEqual(tree.client.list("/"), [])

    def test_no_program(self):
        self.assertRaises(FileNotFoundError, Landtree.run, self.room / "landtree")

    def test_options_that_are_no_numbers(self):
        for name in ("nodes", "abi", "history"):
            self.assertRaises(ValueError, run, **{name: True})
            self.assertRaises(TypeError, run, **{name: "1"})

    def test_worked_faults(self):
        seen = 0
        for name, words, folder in worked(1):
            if name in BEYOND_OPTIONS:
                continue
            with self.subTest(name):
                fault = int((folder / "status").read_text()), (folder / "stderr").read_text().split("\n")[0]
                self.raises(ProgramFault, fault, lambda: run(**options_of(words, folder)).__exit__(None, None, None))
                seen += 1
        self.assertGreater(seen, 15)

    def test_close_tells_the_status(self):
        tree = run()
        self.assertEqual(tree.close(), 0)
        self.assertEqual(tree.close(), 0)
        self.raises(ProgramFault, (0, ""), tree.client.stat, "/")
        tree = run(save=self.room / "no-such-folder/history")
        self.assertEqual(tree.close(), 1)

    def test_no_hint_on_the_probe(self):
        tree = run()
        tree.close()
        error = self.raises(ProgramFault, (0, ""), tree.client.stat, "/")
        self.assertEqual((error.hints, str(error)), ("", "the program has ended with status 0"))
        tree = run()
        tree._transport.send("stat")
        self.assertEqual(tree._transport.close().hints.count("\n"), 0)
        error = self.raises(ProgramFault, (0, ""), tree.client.stat, "/")
        self.assertTrue(error.hints.startswith("  -:2:"), error.hints)

    def test_saves_its_calls_alone(self):
        with run(save=self.room / "history", nodes=7) as tree:
            tree.client.make("reg", "/f")
            tree.client.spawn().exec("/f")
        wanted = ["landtree-history 3 nodes 7 abi 3", "1 connect = ok", "1 make reg /f = ok", "1 spawn = client 2"]
        self.assertEqual(lines_of(self.room / "history"), [*wanted, "2 exec /f = ok"])

    def test_a_program_that_is_killed(self):
        tree = run()
        tree.client.make("reg", "/f")
        child = tree._transport.way._child
        child.kill()
        self.raises(ProgramFault, (-signal.SIGKILL, ""), tree.client.stat, "/f")
        self.raises(ProgramFault, (-signal.SIGKILL, ""), tree.client.spawn)
        self.assertEqual(tree.close(), -signal.SIGKILL)

    def test_a_program_that_ends(self):
        ends = "read line; echo ok; read line; echo 'a line before' >&2; echo 'landtree: no memory' >&2; exit 4"
        fault = (4, "landtree: no memory")
        tree = Landtree.run(self.stand_in(ends))
        tree.client.make("reg", "/f")
        error = self.raises(ProgramFault, fault, tree.client.stat, "/f")
        self.assertEqual((error.status, error.line), fault)
        self.assertEqual(str(error), "the program has ended with status 4: landtree: no memory")
        self.raises(ProgramFault, fault, tree.client.stat, "/f")
        self.assertEqual(tree.close(), 4)

    def test_a_reply_without_its_end(self):
        tree = Landtree.run(self.stand_in("read line; printf o"))
        self.raises(ProgramFault, (0, ""), tree.client.make, "reg", "/f")

    def test_a_program_that_ends_unasked(self):
        with self.assertRaises(ProgramFault) as caught:
            with Landtree.run(self.stand_in("exit 4")):
                pass
        self.assertEqual(caught.exception.args, (4, "", ""))

    def test_an_error_in_the_block_goes_first(self):
        with self.assertRaises(KeyError):
            with Landtree.run(self.stand_in("exit 4")):
                raise KeyError

    def test_no_landtree(self):
        other = self.file("other", "#!/bin/sh\nread line; echo hello; read line\n")
        other.chmod(0o755)
        self.raises(BadReply, ("hello",), Landtree.run, other)

    def test_an_interrupted_call(self):
        tree = Landtree.run(self.stand_in("read line; read line; echo ok"))
        with interrupted_after(0.2):
            self.assertRaises(KeyboardInterrupt, tree.client.make, "reg", "/f")
        with self.assertRaises(LandtreeError) as caught:
            tree.client.make("reg", "/g")
        self.assertIs(type(caught.exception), LandtreeError)
        self.assertEqual(tree.close(), 0)


    def test_hints(self):
        policy = self.file("policy.toml", 'version = 2\nabi = 3\n[[node]]\npath = "/a"\nkind = "hole"\n')
        error = self.raises(ProgramFault, (2, "landtree: policy BadKind"), run, policy=policy)
        self.assertIn('node 1: kind = "hole"', error.hints)
        first = "the program has ended with status 2: landtree: policy BadKind"
        self.assertEqual(str(error), f"{first}\n{error.hints}")
        folder = TOP / "worked/policy-profile-call-refused"
        error = self.raises(OpeningRefused, (3, "ENOENT"), run, policy=folder / "policy.toml", profile="reader")
        self.assertIn("profile reader, layer 1, rule 1", error.hints)
        self.assertEqual(str(error), f"refused 3 ENOENT\n{error.hints}")

    def test_a_long_standard_error(self):
        lines = "yes '  a hint' | head -n 50000 >&2; echo 'landtree: file' >&2; echo '  a hint' >&2; exit 1"
        tree = Landtree.run(self.stand_in(f"read line; {lines}"))
        error = self.raises(ProgramFault, (1, "landtree: file"), tree.client.stat, "/")
        self.assertEqual(error.hints, "  a hint")
        tree = Landtree.run(self.stand_in("yes '  a hint' | head -n 50000 >&2; exit 1"))
        self.raises(ProgramFault, (1, ""), tree.client.stat, "/")

    def late(self, call, *words, **options):
        """Wants the call to time out, and not long after its time."""
        with self.within(LONGEST / 2):
            error = self.assertRaises(TimedOut, call, *words, **options)
        return error

    def test_a_late_opening(self):
        silent = self.file("silent", "#!/bin/sh\nexec sleep 1000\n")
        silent.chmod(0o755)
        with self.leaves_nothing():
            self.late(Landtree.run, silent, timeout=0.2)

    def test_a_late_reply(self):
        with self.leaves_nothing():
            tree = Landtree.run(self.stand_in("read line; echo ok; exec sleep 1000"))
            tree.client.make("reg", "/f")
            tree.timeout = 0.2
            with self.assertRaises(TimeoutError) as caught:
                tree.client.make("reg", "/g")
            self.assertEqual(str(caught.exception), "make reg /g: no reply within 0.2 seconds")
            self.raises_no_call(tree)
            self.assertEqual(tree.close(), -signal.SIGKILL)
            error = self.raises(ProgramFault, (-signal.SIGKILL, tree._transport.close().line), tree.client.stat, "/")
            self.assertIn("killed", str(error))

    def raises_no_call(self, tree):
        """Wants no further call to be made, since one was left."""
        with self.assertRaises(LandtreeError) as caught:
            tree.client.make("reg", "/h")
        self.assertIs(type(caught.exception), LandtreeError)

    def test_a_reply_that_drips(self):
        tree = Landtree.run(self.stand_in("read line; while :; do printf x; sleep 0.05; done"))
        tree.timeout = 0.3
        self.late(tree.client.stat, "/")
        self.assertEqual(tree.close(), -signal.SIGKILL)

    def test_a_late_reply_that_comes_before_the_end(self):
        tree = Landtree.run(self.stand_in(f"read line; {self.waiting()}; echo ok; read line; exit 3"))
        tree.timeout = 0.2
        self.late(tree.client.make, "reg", "/f")
        self.let_go()
        tree.timeout = None
        with mock.patch.object(transports, "GRACE", LONGEST):
            self.assertEqual(tree.close(), 3)

    def test_a_late_end(self):
        with self.assertRaises(ProgramFault) as caught, self.within(LONGEST / 2):
            with Landtree.run(self.stand_in("exec sleep 1000")) as tree:
                tree.timeout = 0.2
        self.assertEqual(caught.exception.status, -signal.SIGKILL)
        self.assertIn("killed", caught.exception.line)

    def test_timeouts(self):
        for seconds in (0, -1, float("nan"), float("inf"), 1_000_001, True):
            self.assertRaises(ValueError, run, timeout=seconds)
            self.assertRaises(ValueError, Landtree.connect, 7000, timeout=seconds)
        self.assertRaises(TypeError, run, timeout="1")
        with run(timeout=1_000_000) as tree:
            self.assertEqual((tree.timeout, tree.client.list("/")), (1_000_000, []))
            tree.timeout = LONGEST
            self.assertEqual((tree.timeout, tree.client.list("/")), (LONGEST, []))
            with self.assertRaises(ValueError):
                tree.timeout = 0
            self.assertEqual(tree.timeout, LONGEST)

    def answering(self, reply):
        """A session with a program that answers so."""
        self.room.joinpath("reply").write_bytes(reply)
        return Landtree.run(self.stand_in(f"read line; cat '{self.room}/reply'; read line; exit 0"))

    def test_the_longest_reply(self):
        names = [f"{number:04}" + "n" * 251 for number in range(1_024)]
        reply = " ".join(["names", *names])
        with self.answering(f"{reply}\n".encode()) as tree:
            self.assertEqual(tree.client.list("/"), names)
        with self.leaves_nothing():
            tree = self.answering(f"{reply}x\n".encode())
            self.raises(BadReply, (f"{reply}x\n",), tree.client.list, "/")
            self.assertRaises(ProgramFault, tree.client.stat, "/")

    def test_a_reply_without_end(self):
        with self.leaves_nothing():
            tree = Landtree.run(self.stand_in("read line; exec cat /dev/zero"))
            with self.assertRaises(BadReply) as caught, self.within(LONGEST / 2):
                tree.client.list("/")
            self.assertLess(len(caught.exception.reply), 400_000)
            self.assertRaises(ProgramFault, tree.client.stat, "/")

    def test_two_replies_to_one_call(self):
        tree = self.answering(b"ok\nok\n")
        self.raises(BadReply, ("ok\nok\n",), tree.client.make, "reg", "/f")
        self.assertRaises(ProgramFault, tree.client.make, "reg", "/f")

    def test_close_in_a_call(self):
        with self.leaves_nothing(), mock.patch.object(transports, "GRACE", 0.2):
            tree = Landtree.run(self.stand_in("read line; exec sleep 1000"), timeout=LONGEST)
            error = self.in_thread(tree, tree.client.stat, "/")
            with self.within(LONGEST / 2):
                self.assertEqual(tree.close(), -signal.SIGKILL)
            self.assertIs(type(error()), ProgramFault)
            self.assertEqual(str(error()), "the session has ended: it was closed during the call")

    def test_close_in_a_call_that_is_answered(self):
        history = self.room / "history"
        tree = run(save=history)
        child = tree._transport.way._child
        child.send_signal(signal.SIGSTOP)
        error = self.in_thread(tree, tree.client.make, "reg", "/f")
        goes_on = threading.Timer(0.5, child.send_signal, [signal.SIGCONT])
        goes_on.start()
        with mock.patch.object(transports, "GRACE", LONGEST):
            self.assertEqual(tree.close(), 0)
        goes_on.join()
        self.assertIs(type(error()), ProgramFault)
        self.assertEqual(lines_of(history)[2:], ["1 make reg /f = ok"])

    def test_a_signal_that_closes_in_a_call(self):
        with self.leaves_nothing(), mock.patch.object(transports, "GRACE", 0.2):
            tree = Landtree.run(self.stand_in("read line; exec sleep 1000"), timeout=LONGEST / 4)
            with done_after(0.2, tree.close), self.within(LONGEST / 2):
                self.assertRaises(ProgramFault, tree.client.stat, "/")
            self.assertEqual(tree.close(), -signal.SIGKILL)

    def test_a_signal_that_calls_in_a_call(self):
        def call():
            self.raises_no_call(tree)
            self.let_go()

        tree = Landtree.run(self.stand_in(f"read line; {self.waiting()}; echo ok; read line"))
        with done_after(0.2, call):
            tree.client.make("reg", "/f")
        tree.close()

    def test_a_dropped_session(self):
        with self.leaves_nothing(), mock.patch.object(transports, "GRACE", LONGEST):
            tree = run(save=self.room / "history")
            client = tree.client
            del tree
            gc.collect()
            client.make("reg", "/f")
            del client
        self.assertEqual(lines_of(self.room / "history")[2:], ["1 make reg /f = ok"])

    def test_a_dropped_session_that_does_not_end(self):
        with self.leaves_nothing(), mock.patch.object(transports, "GRACE", 0.2):
            Landtree.run(self.stand_in("exec sleep 1000"))

    def test_a_session_that_is_open_at_the_exit(self):
        lines = "import landtree\ntree = landtree.Landtree.run(PROGRAM)\nprint(tree._transport.way._child.pid)\n"
        program = self.file("program.py", lines.replace("PROGRAM", repr(PROGRAM)))
        environment = {**os.environ, "PYTHONPATH": str(HERE), "PYTHONDONTWRITEBYTECODE": "1"}
        how = {"env": environment, "capture_output": True, "text": True, "timeout": LONGEST}
        ran = subprocess.run([sys.executable, program], **how)
        self.assertEqual((ran.returncode, ran.stderr), (0, ""))
        self.assertRaises(ProcessLookupError, os.kill, int(ran.stdout), 0)

    def test_a_fork_that_lives(self):
        tree = run()
        with self.a_fork():
            self.assertEqual(tree.close(), 0)

    def test_a_fork_makes_no_call(self):
        def call():
            self.raises_no_call(tree)
            tree.close()

        with run() as tree, self.a_fork(call):
            tree.client.make("reg", "/f")

    def test_a_fork_that_drops_the_session(self):
        def drop():
            trees.clear()
            gc.collect()

        trees = [run()]
        with self.a_fork(drop):
            trees[0].client.make("reg", "/f")
        self.assertEqual(trees[0].close(), 0)


class Connections(Case):
    def stand_in_at(self, act):
        """The port of one that answers the first line as a program that serves does, and does then as `act` says with
        the connection and its lines."""

        def serve_one():
            connection, _ = listener.accept()
            with connection, connection.makefile("rwb") as lines:
                lines.readline()
                answer(lines, BAD_LINE)
                act(connection, lines)

        listener = socket.create_server(("127.0.0.1", 0))
        thread = threading.Thread(target=serve_one)
        thread.start()
        self.addCleanup(listener.close)
        self.addCleanup(thread.join)
        return listener.getsockname()[1]

    def wants_fault(self, call, *words):
        """Wants the connection to have ended, and returns the error."""
        with self.assertRaises(ProgramFault) as caught:
            call(*words)
        self.assertIsNone(caught.exception.status)
        self.assertTrue(caught.exception.line)
        return caught.exception

    def test_two_at_once(self):
        history = self.room / "history"
        server = self.serve(connections=2, save=history)
        with Landtree.connect(server.port) as one, Landtree.connect(server.port) as other:
            self.assertIsNone(one.client.make("dir", "/a"))
            self.assertEqual(other.client.stat("/a"), Stat(2, "dir", 0, 1))
        self.wants_well(server)
        ran = subprocess.run([PROGRAM, "audit", history], capture_output=True, text=True, timeout=LONGEST)
        self.assertEqual((ran.returncode, ran.stdout, ran.stderr), (0, "legal 4\n", ""))

    def test_clients_of_two(self):
        server = self.serve(connections=2)
        with Landtree.connect(server.port) as one, Landtree.connect(server.port) as other:
            clients = one.client.spawn(), other.client.spawn()
            self.assertEqual([it.number for it in clients], [2, 2])
            clients[0].confine(clients[0].ruleset(Rights.MAKE_DIR))
            self.raises(Denied, ("EACCES", 1, Rights.MAKE_DIR, "at"), clients[0].make, "dir", "/a")
            clients[1].make("dir", "/a")
            self.assertEqual(clients[0].list("/"), ["a"])
            self.raises(Refused, (11, "EBADF"), clients[1].confine, 0)

    def test_a_profile(self):
        build = {"policy": TOP / "examples/build-service.toml", "profile": "build"}
        server = self.serve(connections=2, **build)
        for _ in range(2):
            with Landtree.connect(server.port) as tree:
                denial = ("EACCES", 1, Rights.WRITE_FILE, "at")
                self.raises(Denied, denial, tree.client.open, "w", "/src/main.c")

    def test_a_refused_profile(self):
        folder = TOP / "worked/policy-profile-call-refused"
        server = self.serve(connections=3, policy=folder / "policy.toml", profile="reader")
        for _ in range(3):
            self.raises(OpeningRefused, (3, "ENOENT"), Landtree.connect, server.port)

    def test_a_tree_with_all_its_clients(self):
        server = self.serve(connections=2)
        with Landtree.connect(server.port) as tree:
            for number in range(2, 65):
                self.assertEqual(tree.client.spawn().number, number)
            self.raises(OpeningRefused, (12, "EMFILE"), Landtree.connect, server.port)
            self.assertEqual(tree.client.list("/"), [])

    def test_waits_for_a_worker(self):
        server = self.serve(connections=2, workers=1)
        first = Landtree.connect(server.port)
        came = []
        thread = threading.Thread(target=lambda: came.append(Landtree.connect(server.port)))
        thread.start()
        thread.join(0.5)
        self.assertEqual(came, [])
        first.client.make("dir", "/a")
        self.assertIsNone(first.close())
        thread.join()
        with came[0] as second:
            self.assertEqual(second.client.list("/"), ["a"])

    def test_closed_by_idle(self):
        server = self.serve(connections=2, idle=2)
        with Landtree.connect(server.port) as talking:
            silent = Landtree.connect(server.port)
            silent.client.make("dir", "/a")
            for _ in range(6):
                time.sleep(0.5)
                self.assertEqual(talking.client.list("/"), ["a"])
            self.wants_fault(silent.client.make, "dir", "/b")
            self.wants_fault(silent.client.stat, "/a")
            self.assertIsNone(silent.close())
            self.assertEqual(talking.client.list("/"), ["a"])

    def test_closed_without_a_call(self):
        server = self.serve(idle=1)
        with Landtree.connect(server.port):
            self.wants_well(server)

    def test_a_program_that_is_killed(self):
        server = Server(free_port(), [])
        tree = Landtree.connect(server.port)
        tree.client.make("reg", "/f")
        server.child.kill()
        self.assertEqual(server.ended()[0], -signal.SIGKILL)
        self.wants_fault(tree.client.stat, "/f")
        self.assertIsNone(tree.close())

    def test_close_tells_no_status(self):
        server = self.serve()
        tree = Landtree.connect(server.port)
        self.assertIsNone(tree.close())
        self.assertIsNone(tree.close())
        error = self.raises(ProgramFault, (None, ""), tree.client.stat, "/")
        self.assertEqual(str(error), "the session has ended")

    def test_nobody_listens(self):
        self.assertRaises(ConnectionRefusedError, Landtree.connect, free_port())

    def test_ports(self):
        for port in (0, -1, 65_536, True):
            self.assertRaises(ValueError, Landtree.connect, port)
        for port in ("7000", 7000.0, None):
            self.assertRaises(TypeError, Landtree.connect, port)

    def test_one_that_closes(self):
        tree = Landtree.connect(self.stand_in_at(lambda _, lines: lines.readline()))
        fault = (None, "the program has closed it")
        error = self.raises(ProgramFault, fault, tree.client.stat, "/")
        self.assertEqual((error.status, error.line), fault)
        self.assertEqual(str(error), "the session has ended: the program has closed it")
        self.raises(ProgramFault, fault, tree.client.stat, "/")
        self.assertIsNone(tree.close())

    def test_one_that_resets(self):
        def reset(connection, lines):
            lines.readline()
            reset_at_close(connection)

        tree = Landtree.connect(self.stand_in_at(reset))
        self.raises(ProgramFault, (None, os.strerror(errno.ECONNRESET)), tree.client.stat, "/")

    def test_a_reply_without_its_end(self):
        def answer_half(_, lines):
            lines.readline()
            lines.write(b"o")

        tree = Landtree.connect(self.stand_in_at(answer_half))
        self.wants_fault(tree.client.make, "reg", "/f")

    def test_one_that_closes_unasked(self):
        with Landtree.connect(self.stand_in_at(lambda *_: None)):
            pass

    def test_one_that_resets_unasked(self):
        with self.assertRaises(ProgramFault) as caught:
            with Landtree.connect(self.stand_in_at(lambda connection, _: reset_at_close(connection))):
                time.sleep(0.2)
        self.assertIsNone(caught.exception.status)

    def test_an_error_in_the_block_goes_first(self):
        with self.assertRaises(KeyError):
            with Landtree.connect(self.stand_in_at(lambda connection, _: reset_at_close(connection))):
                time.sleep(0.2)
                raise KeyError

    def test_no_landtree(self):
        with mock.patch(f"{__name__}.BAD_LINE", "hello"):
            self.raises(BadReply, ("hello",), Landtree.connect, self.stand_in_at(lambda _, lines: lines.readline()))

    def test_an_interrupted_call(self):
        def answer_late(_, lines):
            lines.readline()
            lines.readline()

        tree = Landtree.connect(self.stand_in_at(answer_late))
        with interrupted_after(0.2):
            self.assertRaises(KeyboardInterrupt, tree.client.make, "reg", "/f")
        with self.assertRaises(LandtreeError) as caught:
            tree.client.make("reg", "/g")
        self.assertIs(type(caught.exception), LandtreeError)
        self.assertIsNone(tree.close())

    def test_a_late_connection(self):
        with socket.create_server(("127.0.0.1", 0)) as silent:
            with self.leaves_nothing(), self.within(LONGEST / 2):
                self.assertRaises(TimedOut, Landtree.connect, silent.getsockname()[1], timeout=0.2)
        with mock.patch("socket.create_connection", side_effect=socket.timeout):
            self.assertRaises(TimedOut, Landtree.connect, 7000, timeout=0.2)

    def test_a_late_reply(self):
        tree = Landtree.connect(self.stand_in_at(lambda _, lines: lines.read()))
        tree.timeout = 0.2
        self.assertRaises(TimedOut, tree.client.stat, "/")
        self.assertIsNone(tree.close())

    def test_a_late_end(self):
        done = threading.Event()
        port = self.stand_in_at(lambda *_: done.wait())
        self.addCleanup(done.set)
        with self.assertRaises(ProgramFault) as caught, self.within(LONGEST / 2):
            with Landtree.connect(port) as tree:
                tree.timeout = 0.2
        self.assertEqual(caught.exception.args, (None, "the program has not closed it in time", ""))

    def test_a_reply_without_end(self):
        def answer_for_ever(connection, lines):
            lines.readline()
            with contextlib.suppress(ConnectionError):
                while True:
                    connection.sendall(b"names a ")

        tree = Landtree.connect(self.stand_in_at(answer_for_ever))
        with self.assertRaises(BadReply) as caught, self.within(LONGEST / 2):
            tree.client.list("/")
        self.assertLess(len(caught.exception.reply), 400_000)
        self.assertRaises(ProgramFault, tree.client.stat, "/")

    def test_one_that_speaks_unasked(self):
        def speak(_, lines):
            time.sleep(0.2)
            answer(lines, "ok")

        with self.assertRaises(ProgramFault) as caught, Landtree.connect(self.stand_in_at(speak)):
            pass
        self.assertEqual(caught.exception.line, "the program sent what no call asked for")

    def test_close_in_a_call(self):
        tree = Landtree.connect(self.stand_in_at(lambda _, lines: lines.read()))
        error = self.in_thread(tree, tree.client.stat, "/")
        with self.within(LONGEST / 2):
            self.assertIsNone(tree.close())
        self.assertIs(type(error()), ProgramFault)

    def test_a_dropped_session(self):
        server = self.serve()
        before = os.listdir("/proc/self/fd")
        Landtree.connect(server.port)
        gc.collect()
        self.assertEqual(os.listdir("/proc/self/fd"), before)
        self.wants_well(server)

    def test_a_fork_that_lives(self):
        server = self.serve()
        tree = Landtree.connect(server.port)
        with self.a_fork():
            self.assertIsNone(tree.close())
            self.wants_well(server)

    def test_an_interrupted_opening(self):
        with socket.create_server(("127.0.0.1", 0)) as silent, interrupted_after(0.2):
            self.assertRaises(KeyboardInterrupt, Landtree.connect, silent.getsockname()[1])


def answer(lines, reply):
    lines.write(f"{reply}\n".encode())
    lines.flush()


def reset_at_close(connection):
    connection.setsockopt(socket.SOL_SOCKET, socket.SO_LINGER, struct.pack("ii", 1, 0))


def interrupted_after(seconds):
    def interrupt():
        raise KeyboardInterrupt

    return done_after(seconds, interrupt)


@contextlib.contextmanager
def done_after(seconds, act):
    """Has a signal do this in the middle of what is done."""
    before = signal.signal(signal.SIGALRM, lambda *_: act())
    signal.setitimer(signal.ITIMER_REAL, seconds)
    try:
        yield
    finally:
        signal.setitimer(signal.ITIMER_REAL, 0)
        signal.signal(signal.SIGALRM, before)


# ---- snapshots


MODES = {"reg": stat.S_ISREG, "dir": stat.S_ISDIR, "sym": stat.S_ISLNK, "fifo": stat.S_ISFIFO, "sock": stat.S_ISSOCK}
MODES.update({"char": stat.S_ISCHR, "block": stat.S_ISBLK})


def kind_at(place):
    return next(kind for kind, is_of in MODES.items() if is_of(os.lstat(place).st_mode))


def places_in(folder):
    """Yields all that lies in a real directory: each directory before what lies in it, names rising."""
    for name in sorted(os.listdir(folder)):
        place = folder / name
        yield place
        if kind_at(place) == "dir":
            yield from places_in(place)


class Snapshots(Case):
    def setUp(self):
        super().setUp()
        self.real = self.room / "real"
        self.real.mkdir()

    def put(self, name, data=b""):
        place = self.real / name
        place.parent.mkdir(parents=True, exist_ok=True)
        place.write_bytes(data)
        return place

    def opened(self, taken, **options):
        """A session over a snapshot's policy."""
        tree = run(policy=self.file("policy.toml", taken.text), **options)
        self.addCleanup(tree.close)
        return tree

    def fill(self):
        """Makes a real directory with a thing of each kind that can be made here."""
        self.put("src/main.c", b"int x;")
        self.put("src/empty")
        self.put("src/odd\"na\\me'#=[]", b"\x00\xff\n")
        self.put("whole", bytes(range(256)) * 256)
        self.put("two-pieces", b"x" * 4097)
        (self.real / "none").mkdir()
        os.symlink("src/main.c", self.real / "to-file")
        os.symlink("src", self.real / "to-folder")
        os.symlink("nowhere", self.real / "dangling")
        os.mkfifo(self.real / "fifo")
        with socket.socket(socket.AF_UNIX) as it:
            it.bind(str(self.real / "sock"))
        with contextlib.suppress(PermissionError):
            os.mknod(self.real / "char", 0o600 | stat.S_IFCHR, os.makedev(1, 3))
            os.mknod(self.real / "block", 0o600 | stat.S_IFBLK, os.makedev(7, 0))

    def wants_nodes(self, client, places, path_of, first):
        """Wants the tree to have these real places, made in this order, the first with this inode."""
        for inode, place in enumerate(places, first):
            kind = kind_at(place)
            size = os.lstat(place).st_size if kind == "reg" else 0
            self.assertEqual(client.stat(path_of(place)), Stat(inode, kind, size, 1), place)
            if kind == "reg":
                file = client.open("r", path_of(place))
                self.assertEqual(client.read_all(file), place.read_bytes(), place)
                client.close(file)
            if kind == "dir":
                self.assertEqual(client.list(path_of(place)), sorted(os.listdir(place)), place)

    def test_each_node(self):
        self.fill()
        taken = snapshot(self.real, data=True)
        self.assertEqual((taken.left_out, taken.excluded), ([], []))
        tree = self.opened(taken)
        self.wants_nodes(tree.client, list(places_in(self.real)), lambda it: f"/{it.relative_to(self.real)}", 2)
        self.assertEqual(tree.client.list("/"), sorted(os.listdir(self.real)))

    def test_elsewhere(self):
        self.fill()
        taken = snapshot(os.fsencode(self.real), at=PurePosixPath("/srv/www"), data=True)
        tree = self.opened(taken)
        self.assertEqual(tree.client.list("/"), ["srv"])
        self.assertEqual(tree.client.list("/srv"), ["www"])
        path_of = lambda it: f"/srv/www/{it.relative_to(self.real)}"
        self.wants_nodes(tree.client, list(places_in(self.real)), path_of, 4)

    def test_a_policy_with_a_profile(self):
        self.put("f", b"x")
        profile = '[[profile.look.layer]]\nhandled = "read_file"\n'
        policy = self.file("policy.toml", f"{snapshot(self.real).text}\n{profile}")
        with run(policy=policy, profile="look") as tree:
            self.raises(Denied, ("EACCES", 1, Rights.READ_FILE, "at"), tree.client.open, "r", "/f")

    def test_an_empty_directory(self):
        taken = snapshot(self.real)
        self.assertEqual((taken.left_out, taken.entries), ([], 1))
        self.assertEqual(self.opened(taken).client.list("/"), [])

    def test_levels(self):
        for abi, refused in ((1, True), (2, False)):
            client = self.opened(snapshot(self.real, abi=abi)).client
            if refused:
                self.raises(Refused, (8, "EINVAL"), client.ruleset, Rights.REFER)
            else:
                self.assertEqual(client.ruleset(Rights.REFER), 0)
            self.raises(Refused, (8, "EINVAL"), client.ruleset, Rights.TRUNCATE)

    def test_entries(self):
        self.put("a")
        self.put("b", b"x" * 4096)
        self.put("c/d", b"x" * 4097)
        self.assertEqual(snapshot(self.real).entries, 1 + 4)
        taken = snapshot(self.real, data=True)
        # The connect; a, b, c and d; open, write and close of b; open, two writes and close of d.
        self.assertEqual(taken.entries, 1 + 4 + 3 + 4)
        policy = self.file("policy.toml", taken.text)
        fault = (2, "landtree: opening call refused")
        self.raises(ProgramFault, fault, run, policy=policy, history=taken.entries - 1)
        self.raises(OpeningRefused, (21, "HistoryFull"), run, policy=policy, history=taken.entries)
        with run(policy=policy, history=taken.entries + 2) as tree:
            tree.client.stat("/c/d")
            self.raises(Refused, (21, "HistoryFull"), tree.client.stat, "/c/d")

    def wants_left_out(self, taken, places, reason):
        self.assertEqual([place for place, _ in taken.left_out], [os.fsdecode(os.fspath(it)) for it in places])
        for _, told in taken.left_out:
            self.assertIn(reason, told)

    def test_names(self):
        odd = [b"a b", b"\xc3\xa4", b"\xff", b"tab\t", b"new\nline", b"\x7f"]
        for name in odd:
            Path(os.fsdecode(os.path.join(os.fsencode(self.real), name))).mkdir()
        self.put("a b/inside")
        self.put("good")
        taken = snapshot(self.real)
        places = [os.path.join(os.fsencode(self.real), name) for name in sorted(odd)]
        self.wants_left_out(taken, places, "its name isn't")
        self.assertEqual(self.opened(taken).client.list("/"), ["good"])

    def test_sizes(self):
        over = self.put("over", bytes(65_537))
        self.put("whole", bytes(65_536))
        self.assertEqual(snapshot(self.real).left_out, [])
        taken = snapshot(self.real, data=True)
        self.wants_left_out(taken, [over], "65,536 bytes")
        self.assertEqual(self.opened(taken).client.list("/"), ["whole"])

    def test_further_links(self):
        first = self.put("a b")
        os.link(first, self.real / "c")
        os.link(first, self.real / "d")
        os.symlink("x", self.real / "s")
        os.link(self.real / "s", self.real / "t", follow_symlinks=False)
        taken = snapshot(self.real)
        left_out = dict(taken.left_out)
        self.assertEqual(sorted(left_out), [str(self.real / name) for name in ("a b", "d", "t")])
        self.assertEqual(left_out[str(self.real / "d")], "it is a further link of /c")
        self.assertEqual(left_out[str(self.real / "t")], "it is a further link of /s")
        client = self.opened(taken).client
        self.assertEqual(client.list("/"), ["c", "s"])
        self.assertEqual(client.stat("/c").links, 1)

    def test_deep_paths(self):
        deep = self.real
        for _ in range(64):
            deep = deep / "d"
            deep.mkdir()
        (deep / "below").touch()
        (deep.parent / "e").touch()
        taken = snapshot(self.real)
        self.wants_left_out(taken, [deep / "below"], "64 names")
        self.assertEqual(self.opened(taken).client.list("/d" * 63), ["d", "e"])
        self.wants_left_out(snapshot(deep.parent, at="/x" * 64), [deep, deep.parent / "e"], "64 names")

    def test_long_paths(self):
        # Sixteen names of 255 bytes are 4,096 bytes with their slashes: one too many.
        at = f"/{'n' * 255}" * 15
        places = [self.put("n" * 255), self.put("n" * 254)]
        taken = snapshot(self.real, at=at)
        self.wants_left_out(taken, places[:1], "4,095 bytes")
        self.assertEqual(self.opened(taken).client.stat(f"{at}/{'n' * 254}"), Stat(17, "reg", 0, 1))

    def test_crowds(self):
        for number in range(1_026):
            self.put(f"many/{number:04}")
        taken = snapshot(self.real, nodes=2_000)
        self.wants_left_out(taken, [self.real / "many/1024", self.real / "many/1025"], "1,024 names")
        self.assertEqual(len(self.opened(taken, nodes=2_000).client.list("/many")), 1_024)

    def test_room(self):
        for name in ("a", "b", "c/d", "e"):
            self.put(name)
        taken = snapshot(self.real, nodes=4)
        self.wants_left_out(taken, [self.real / "c/d", self.real / "e"], "no node left")
        self.assertEqual(self.opened(taken, nodes=4).client.list("/"), ["a", "b", "c"])
        self.assertRaises(ValueError, snapshot, self.real, at="/x/y", nodes=2)

    def before_opening(self, name, act):
        """Has this done right before a snapshot opens what has this name."""
        really = os.open

        def opens(place, flags, **options):
            if place == name:
                act()
            return really(place, flags, **options)

        return mock.patch("os.open", opens)

    def test_what_cannot_be_read(self):
        def refuse():
            raise PermissionError(errno.EACCES, os.strerror(errno.EACCES))

        for name in ("f", "d/g", "h"):
            self.put(name, b"x")
        with self.before_opening("f", refuse), self.before_opening("d", refuse):
            taken = snapshot(self.real, data=True)
        self.assertEqual(taken.left_out, [(str(self.real / name), "Permission denied") for name in ("d", "f")])
        self.assertEqual(self.opened(taken).client.list("/"), ["h"])

    def test_a_file_that_becomes_a_link(self):
        outside = self.file("outside", "secret")
        place = self.put("f", b"x")

        def replace():
            place.unlink()
            place.symlink_to(outside)

        with self.before_opening("f", replace):
            taken = snapshot(self.real, data=True)
        self.assertEqual(taken.left_out, [(str(place), os.strerror(errno.ELOOP))])
        self.assertEqual(self.opened(taken).client.list("/"), [])

    def test_a_file_that_becomes_a_fifo(self):
        place = self.put("f", b"x")

        def replace():
            place.unlink()
            os.mkfifo(place)

        with self.before_opening("f", replace):
            self.wants_left_out(snapshot(self.real, data=True), [place], "it was replaced")

    def outside(self):
        """A directory elsewhere, with a file of the name that `d` has too."""
        self.put("d/f", b"inside")
        outside = self.room / "outside"
        outside.mkdir()
        (outside / "f").write_bytes(b"secret")
        (outside / "key").touch()
        return outside

    def test_a_directory_that_becomes_a_link(self):
        outside, place = self.outside(), self.real / "d"

        def replace():
            place.rename(self.room / "moved")
            place.symlink_to(outside)

        with self.before_opening("d", replace):
            taken = snapshot(self.real, data=True)
        self.wants_left_out(taken, [place], os.strerror(errno.ENOTDIR))
        self.assertEqual(self.opened(taken).client.list("/"), [])

    def test_a_directory_that_another_one_replaces(self):
        outside, place = self.outside(), self.real / "d"

        def replace():
            place.rename(self.room / "moved")
            outside.rename(place)

        with self.before_opening("d", replace):
            taken = snapshot(self.real, data=True)
        self.wants_left_out(taken, [place], "it was replaced")

    def test_a_directory_that_becomes_a_link_while_it_is_read(self):
        outside, place = self.outside(), self.real / "d"

        def replace():
            place.rename(self.room / "moved")
            place.symlink_to(outside)

        with self.before_opening("f", replace):
            taken = snapshot(self.real, data=True)
        self.assertEqual(taken.left_out, [])
        client = self.opened(taken).client
        self.assertEqual(client.list("/d"), ["f"])
        self.assertEqual(client.read_all(client.open("r", "/d/f")), b"inside")

    def test_no_contents(self):
        self.fill()
        self.put("huge", bytes(70_000))
        with mock.patch("os.read", side_effect=AssertionError):
            taken = snapshot(self.real)
        self.assertEqual(taken.left_out, [])
        self.assertNotIn("data", re.sub('^path = ".*"$', "", taken.text, flags=re.MULTILINE))
        self.assertEqual(self.opened(taken).client.stat("/huge").size, 0)

    def wants_excluded(self, exclude, excluded, files):
        """Wants these patterns to exclude these places, and these files to be left."""
        taken = snapshot(self.real, exclude=exclude)
        self.assertEqual((taken.excluded, taken.left_out), ([str(self.real / it) for it in excluded], []), exclude)
        self.assertEqual(re.findall('path = "/(.*)"\nkind = "reg"', taken.text), files, exclude)

    def test_exclude(self):
        for name in (".git/x", "a.c", "a.o", "src/.git/x", "src/a.c", "src/b.o", "src/lib/b.o"):
            self.put(name)
        self.wants_excluded([], [], [".git/x", "a.c", "a.o", "src/.git/x", "src/a.c", "src/b.o", "src/lib/b.o"])
        self.wants_excluded([".git", "src/lib"], [".git", "src/.git", "src/lib"], ["a.c", "a.o", "src/a.c", "src/b.o"])
        self.wants_excluded("*.o", ["a.o", "src/b.o", "src/lib/b.o"], [".git/x", "a.c", "src/.git/x", "src/a.c"])
        left = [".git/x", "a.c", "a.o", "src/.git/x", "src/a.c"]
        self.wants_excluded(["src/*.o"], ["src/b.o", "src/lib/b.o"], left)
        self.wants_excluded((it for it in ["src/[!.]*", "A.C"]), ["src/a.c", "src/b.o", "src/lib"], left[:-1])
        self.wants_excluded("*", [".git", "a.c", "a.o", "src"], [])

    def test_excluded_names_need_be_no_names(self):
        self.put("a b/c")
        self.wants_excluded("a b", ["a b"], [])

    def test_no_patterns(self):
        for exclude in ("", "/a", "a/", ["*.o", "build/"], [""]):
            self.assertRaises(ValueError, snapshot, self.real, exclude=exclude)

    def test_what_is_of_no_kind(self):
        place = self.put("f")
        with mock.patch.object(directories, "REAL_KINDS", {stat.S_IFDIR: "dir"}):
            taken = snapshot(self.real)
        self.wants_left_out(taken, [place], "no kind")

    def test_wrong_words(self):
        for options in ({"nodes": 0}, {"nodes": 4_097}, {"abi": 0}, {"abi": 4}, {"at": "srv"}, {"at": ""}):
            self.assertRaises(ValueError, snapshot, self.real, **options)
        for at in ("/a b", "/../x", "//", "/a/", "/" + "n" * 256, "/x" * 65):
            self.assertRaises(ValueError, snapshot, self.real, at=at)
        self.assertRaises(FileNotFoundError, snapshot, self.room / "nowhere")
        self.assertRaises(NotADirectoryError, snapshot, self.put("f"))


class Guide(Case):
    """What stands in docs/GUIDE.md, tried as a reader would."""

    def blocks(self, section):
        """The blocks of a section, each without its fences and prompts."""
        text = (TOP / "docs/GUIDE.md").read_text(encoding="utf-8")
        text = text.split(f"\n## {section}\n", 1)[1].split("\n## ", 1)[0]
        blocks = re.findall("^```[a-z]*\n(.*?)^```$", text, re.MULTILINE | re.DOTALL)
        return [re.sub(r"^\$ ", "", it, flags=re.MULTILINE) for it in blocks]

    def run_python(self, name, program):
        os.symlink(PROGRAM, self.room / "landtree")
        path = {"PYTHONPATH": str(HERE), "PATH": f"{self.room}:{os.environ['PATH']}", "PYTHONDONTWRITEBYTECODE": "1"}
        how = {"cwd": TOP, "env": {**os.environ, **path}, "capture_output": True, "text": True, "timeout": 120}
        ran = subprocess.run([sys.executable, self.file(name, program)], **how)
        self.assertEqual(ran.returncode, 0, ran.stderr)
        return ran

    def test_testing_from_python(self):
        program = self.blocks("Testing from Python")[0]
        ran = self.run_python("test_sandbox.py", program)
        tests = program.count("    def test_")
        self.assertGreater(tests, 0)
        self.assertIn(f"Ran {tests} tests in ", ran.stderr)
        self.assertEqual(ran.stderr.splitlines()[-1], "OK")

    def test_serving_many_clients(self):
        begin, typed, program, printed, log, audit = self.blocks("Serving many clients")
        command, listening = begin.splitlines()
        first = ["landtree", "serve", "--port", "7000"]
        words = command.replace(" examples/", f" {TOP}/examples/").split(" ")
        self.assertEqual((words[:4], words[-2:], listening), (first, ["--save", "history"], "listening 7000"))
        history = self.room / "history"
        server = Server(free_port(), [*words[4:-1], history])
        self.type_in(server.port, typed)
        ran = self.run_python("program.py", program.replace("7000", str(server.port)))
        self.assertEqual(ran.stdout, printed)
        self.assertEqual(server.ended(), (0, f"listening {server.port}\n", log))
        ran = subprocess.run([PROGRAM, "audit", history], capture_output=True, text=True, timeout=LONGEST)
        self.assertEqual(f"landtree audit history\n{ran.stdout}", audit)

    def type_in(self, port, typed):
        """Types what stands in a session of nc, and wants what is answered there."""
        command, *lines = typed.splitlines()
        self.assertEqual((command, len(lines) % 2), ("nc -N 127.0.0.1 7000", 0))
        with socket.create_connection(("127.0.0.1", port)) as nc, nc.makefile("rwb") as peer:
            for line, reply in zip(lines[0::2], lines[1::2]):
                answer(peer, line)
                self.assertEqual(peer.readline().decode(), f"{reply}\n", line)


def main(words):
    global PROGRAM
    if words[:1] == ["-p"] and len(words) > 1:
        PROGRAM = os.path.abspath(words[1])
        words = words[2:]
    loader = unittest.TestLoader()
    here = sys.modules[__name__]
    tests = loader.loadTestsFromNames(words, here) if words else loader.loadTestsFromModule(here)
    result = unittest.TextTestRunner(stream=sys.stdout).run(tests)
    missed = {test.id().split(" ")[0] for test, _ in result.failures + result.errors}
    print(f"{result.testsRun - len(missed)} passed, {len(missed)} failed")
    return 0 if result.wasSuccessful() and result.testsRun else 1


if __name__ == "__main__":
    sys.exit(main(sys.argv[1:]))
