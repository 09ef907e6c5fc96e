"""Programs that are executed, and where processes are."""

import os

from tests.traces import Tracing

from landtree.trace.inventory import Entry, Inventory
from landtree.trace.loaders import USUAL_LOADER, elf_loader, interpreter_of
from landtree.trace.reader import read


class Executing(Tracing):
    def programs(self, name, *more):
        """Executes a file of the test's directory, and returns the commands with this directory as /t."""
        log = self.put("log", f'7 execve("{self.room}/{name}", [], 0x1 /* 1 var */) = 0\n7 +++ exited with 0 +++\n')
        trace = read(log, Inventory(["/nowhere"], 2.0**40), "/")
        self.told = [it.text for it in trace.notes]
        return [it.text.replace(str(self.room), "/t") for event in trace.events for it in event.commands]

    def test_a_script(self):
        self.put("script", f"#!{self.room}/other -x\n")
        self.put("other", "hello")
        self.assertEqual(self.programs("script"), ["exec /t/script", "exec /t/other"])

    def test_a_script_of_a_script_through_a_link(self):
        self.put("one", f"#! {self.room}/two\n")
        self.put("two", f"#!{self.room}/link x\n")
        self.put("three", "hello")
        (self.room / "link").symlink_to("three")
        self.assertEqual(self.programs("one"), ["exec /t/one", "exec /t/two", "exec /t/three"])

    def test_a_program_with_a_loader(self):
        shell = os.path.realpath("/bin/sh")
        (self.room / "sh").symlink_to(shell)
        loader = os.path.realpath(interpreter_of(shell))
        self.assertEqual(self.programs("sh"), [f"exec {shell}", f"exec {loader}"])

    def test_rights(self):
        line = 'execve("/w/f", ["f"], 0x1 /* 1 var */) = 0'
        self.assertEqual(self.asks(line)[:2], [("execute", "/w/f"), ("read_file", "/w/f")])

    def test_errors(self):
        for error in ("ENOENT", "EACCES"):
            self.assertEqual(self.commands(f'execve("/w/f", ["f"], 0x1) = -1 {error} (..)'), [])
        # These come after the layers were asked.
        for error in ("ENOEXEC", "ETXTBSY"):
            self.assertEqual(self.commands(f'execve("/w/f", ["f"], 0x1) = -1 {error} (..)')[0], "exec /w/f")

    def test_gone(self):
        notes = self.notes('execve("/w/f", ["f"], 0x1 /* 1 var */) = 0')
        text = f"/w/f can't be read any more: it is taken for a program whose loader is {USUAL_LOADER}"
        self.assertEqual(notes[0], (1, text))

    def test_by_a_descriptor(self):
        line = 'execveat(3</w/f>, "", ["f"], 0x1 /* 1 var */, AT_EMPTY_PATH) = 0'
        self.assertEqual(self.commands(line)[0], "exec /w/f")
        line = 'execveat(3</w/d>, "x", ["x"], 0x1 /* 1 var */, 0) = 0'
        self.assertEqual(self.commands(line)[0], "exec /w/d/x")

    def test_heads_that_are_cut(self):
        for head in (b"\x7fELF", b"\x7fELF" + bytes(60), b"\x7fELF\x02\x01" + b"\xff" * 100, b"#!", b"#! \n", b""):
            self.put("head").write_bytes(head)
            self.assertIsNone(interpreter_of(str(self.room / "head")))

    def test_a_loader_by_hand(self):
        # ELF64, least byte first: the table of headers at 64, one entry of 56 bytes; its text is 8 bytes at 120.
        head = bytearray(b"\x7fELF\x02\x01" + bytes(58))
        head[32], head[54], head[56] = 64, 56, 1
        entry = bytearray(56)
        entry[0], entry[8], entry[32] = 3, 120, 8
        self.assertEqual(elf_loader(bytes(head + entry) + b"/lib/ld\0"), "/lib/ld")


class Places(Tracing):
    def test_working_directories(self):
        move = 'chdir("d") = 0'
        self.assertEqual(self.commands(move, 'mkdir("n", 0777) = 0'), ["make dir /w/d/n"])
        self.assertEqual(self.commands("fchdir(3</w/d>) = 0", 'mkdir("n", 0777) = 0'), ["make dir /w/d/n"])
        self.assertEqual(self.commands('chdir("none") = -1 ENOENT (..)', 'mkdir("n", 0777) = 0'), ["make dir /w/n"])
        self.assertEqual(self.commands(move, 'mkdir("../../n", 0777) = 0'), ["make dir /n"])

    def test_inherited(self):
        lines = ['chdir("d") = 0', "fork() = 8", 'chdir("e") = 0', '8 mkdir("n", 0777) = 0', 'mkdir("m", 0777) = 0']
        self.assertEqual(self.commands(*lines), ["make dir /w/d/n", "make dir /w/d/e/m"])

    def test_threads_share_one(self):
        clone = "clone(child_stack=0x7f, flags=CLONE_VM|CLONE_FS|CLONE_FILES|CLONE_THREAD) = 8"
        self.assertEqual(self.commands(clone, '8 chdir("d") = 0', 'mkdir("n", 0777) = 0'), ["make dir /w/d/n"])

    def test_as_strace_says(self):
        # The working directory of a call is that of its own line, whatever was seen before.
        lines = ['mkdirat(AT_FDCWD</w/d>, "n", 0777) = 0', 'mkdir("m", 0777) = 0']
        self.assertEqual(self.commands(*lines), ["make dir /w/d/n", "make dir /w/d/m"])

    def test_calls_that_change_what_paths_mean(self):
        for call, text in {
            'chroot("/w") = 0': "chroot changes what paths mean",
            'mount("a", "/w", "tmpfs", 0, NULL) = 0': "mount changes what paths mean",
            "unshare(CLONE_NEWNS) = 0": "unshare may change what paths mean",
            "setns(3, CLONE_NEWNS) = 0": "setns may change what paths mean",
            "io_uring_setup(8, {flags=0}) = 3": "io_uring_setup makes calls that no log has",
            "open_by_handle_at(3, {handle_bytes=8}, O_RDONLY) = 4": "open_by_handle_at opens a file without its path",
            "clone3({flags=CLONE_NEWNS}, 88) = 8": "clone3 may change what paths mean",
        }.items():
            self.assertEqual(self.notes(call), [(1, text)])
        self.assertEqual(self.notes('chroot("/w") = -1 EPERM (..)', "unshare(CLONE_FILES) = 0"), [])

    def test_other_calls(self):
        self.assertEqual((self.commands("getpid() = 7"), self.notes("getpid() = 7")), ([], []))
        self.assertEqual(self.notes("mkdir() = 0"), [(1, "mkdir has fewer arguments than it takes: ")])


class Trees(Tracing):
    def test_several_names(self):
        lines = "".join(f'7 open("/w/{it}", O_RDONLY) = 3</w/{it}>\n' for it in "ab")
        log = self.put("log", f"{lines}7 +++ exited with 0 +++\n")
        files = {"/w": Entry("dir"), "/w/a": Entry("reg", None, (1, 9)), "/w/b": Entry("reg", None, (1, 9))}
        trace = read(log, Inventory(["/"], 0.0, files), "/w")
        self.assertEqual(trace.tree.shared, [("/w/a", "/w/b")])

    def test_loops(self):
        lines = ['open("loop", O_RDONLY) = -1 ELOOP (..)', 'unlink("loop") = 0']
        self.assertEqual(self.commands(*lines), ["unlink /w/loop"])
        text = 'it isn\'t known which file truncate names: "loop/x": it leads through over 40 links'
        self.assertEqual(self.notes('truncate("loop/x", 0) = 0'), [(1, text)])
