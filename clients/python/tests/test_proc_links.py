"""Paths through the links of /proc that lead to what a process has: its working directory, open files and program."""

import subprocess

from tests.support import COMMAND, ENVIRONMENT, LONGEST, PROGRAM, Case, needs_strace
from tests.traces import Tracing

from landtree import Commands
from landtree.trace import convert

OPEN = 'openat(AT_FDCWD</w>, "in/d", O_RDONLY|O_CLOEXEC) = 3</w/in/d>'
FD, CWD = "/proc/self/fd/3", "/proc/self/cwd/in/d"
HERE = "/w/in/d"


class Links(Tracing):
    FILES = {
        **Tracing.FILES,
        "/w/in": "dir",
        "/w/in/d": "dir",
        "/w/in/d/a": "reg",
        "/w/in/d/e": "dir",
        "/w/in/d/t": "reg",
        "/w/to-fd": "-> /proc/self/fd/3",
        "/w/to-cwd": "-> /proc/self/cwd/in",
        "/dev/fd": "-> /proc/self/fd",
        "/lib64": "dir",
        "/lib64/ld-linux-x86-64.so.2": "reg",
    }

    def one(self, *lines):
        """Returns the commands after that of the opening of in/d, and wants no note but that a program is gone."""
        trace = self.read(OPEN, *lines)
        notes = [it.text for it in trace.notes if "can't be read any more" not in it.text]
        self.assertEqual(notes, [])
        return [it.text for event in trace.events[1:] for it in event.commands]

    def test_each_call(self):
        for call, commands in {
            f'rename("{FD}/a", "{FD}/b") = 0': [f"rename {HERE}/a {HERE}/b"],
            f'rmdir("{FD}/e") = 0': [f"rmdir {HERE}/e"],
            f'unlink("{FD}/a") = 0': [f"unlink {HERE}/a"],
            f'unlink("{CWD}/a") = 0': [f"unlink {HERE}/a"],
            f'rename("{CWD}/a", "{CWD}/b") = 0': [f"rename {HERE}/a {HERE}/b"],
            f'symlink("x", "{FD}/s") = 0': [f"make sym {HERE}/s"],
            f'truncate("{FD}/a", 0) = 0': [f"truncate {HERE}/a 0"],
            f'openat(AT_FDCWD</w>, "{CWD}/a", O_RDONLY) = 4<{HERE}/a>': [f"open r {HERE}/a = fd 0", "close 0"],
            f'link("{FD}/a", "{FD}/l") = 0': [f"link {HERE}/a {HERE}/l"],
        }.items():
            self.assertEqual(self.one(call), commands, call)
        for path in (f"{FD}/t", f"{CWD}/t"):
            self.assertEqual(self.one(f'execve("{path}", ["t"], 0x1 /* 1 var */) = 0')[0], f"exec {HERE}/t")
        there = self.one(f'chdir("{FD}/e") = 0', 'mkdir("new", 0777) = 0', 'rmdir("new") = 0')
        self.assertEqual(there, [f"make dir {HERE}/e/new", f"rmdir {HERE}/e/new"])
        up = f'openat(AT_FDCWD<{HERE}/e>, "../a", O_WRONLY) = 4<{HERE}/a>'
        self.assertEqual(self.one(f'chdir("{CWD}/e") = 0', up)[0], f"open w {HERE}/a = fd 0")

    def test_the_rights_are_on_its_directory(self):
        # Not on what is above the link's target, whose name a move seemed to change.
        asks = self.asks(OPEN, f'rename("{FD}/a", "{FD}/b") = 0')
        self.assertEqual(asks[1:], [("remove_file", HERE), ("make_reg", HERE)])

    def test_other_ways_to_the_same(self):
        for path in (
            "/dev/fd/3/a",
            "/proc/7/fd/3/a",
            "/proc/thread-self/fd/3/a",
            "/proc/self/task/7/fd/3/a",
            "/proc/self/root/w/in/d/a",
            "/proc/self/root/proc/self/cwd/in/d/a",
            "/proc/self/cwd/../w/in/./d/a",
            "/proc/self/fd/3/../../in/d/a",
            "/proc/self/cwd/to-fd/a",
            "/proc/thread-self/../../fd/3/a",
            "to-fd/a",
            "to-cwd/d/a",
        ):
            self.assertEqual(self.one(f'unlink("{path}") = 0'), [f"unlink {HERE}/a"], path)

    def test_those_of_another_process(self):
        lines = ["fork() = 8", '8 chdir("in") = 0', 'unlink("/proc/8/cwd/d/a") = 0']
        self.assertEqual(self.one(*lines), [f"unlink {HERE}/a"])
        lines = ["fork() = 8", "8 close(3</w/in/d>) = 0", 'unlink("/proc/8/fd/3/a") = 0']
        text = 'it isn\'t known which file unlink names: "/proc/8/fd/3/a": it isn\'t known what /proc/8/fd/3 leads to'
        self.assertEqual(self.notes(OPEN, *lines), [(4, text)])

    def test_those_of_a_thread(self):
        # A thread with files of its own: /proc/self is the process, and /proc/thread-self is the thread.
        clone = "clone(child_stack=0x7f, flags=CLONE_VM|CLONE_FS|CLONE_SIGHAND|CLONE_THREAD) = 8"
        mine = [clone, '8 openat(AT_FDCWD</w>, "d", O_RDONLY) = 3</w/d>']
        self.assertEqual(self.one(*mine, '8 unlink("/proc/thread-self/fd/3/x") = 0')[1:], ["unlink /w/d/x"])
        self.assertEqual(self.one(*mine, '8 unlink("/proc/self/fd/3/a") = 0')[1:], [f"unlink {HERE}/a"])

    def test_the_program_itself(self):
        lines = ['execve("/w/in/d/t", ["t"], 0x1) = 0', 'execve("/proc/self/exe", ["t"], 0x1) = 0']
        found = [it for it in self.one(*lines) if it.startswith("exec /w")]
        self.assertEqual(found, [f"exec {HERE}/t", f"exec {HERE}/t"])
        lines[1] = f'openat(AT_FDCWD</w>, "/proc/self/exe", O_RDONLY) = 4<{HERE}/t>'
        self.assertIn(f"open r {HERE}/t = fd 0", self.one(*lines))

    def test_a_directory_that_has_moved(self):
        self.assertEqual(self.one('rename("in", "out") = 0', f'unlink("{FD}/a") = 0')[1:], ["unlink /w/out/d/a"])

    def test_what_an_execution_has_closed(self):
        # Of the number 3 nothing is known then, so no rule rests on what it was.
        lines = [OPEN, 'execve("/w/in/d/t", ["t"], 0x1) = 0', f'unlink("{FD}/a") = 0']
        text = f'it isn\'t known which file unlink names: "{FD}/a": it isn\'t known what /proc/7/fd/3 leads to'
        self.assertEqual(self.notes(*lines)[-1], (3, text))
        for keeps in ("fcntl(3</w/in/d>, F_SETFD, 0) = 0", "fcntl(3</w/in/d>, F_DUPFD, 3) = 4</w/in/d>"):
            number = 4 if "DUPFD" in keeps else 3
            lines = [keeps, 'execve("/w/in/d/t", ["t"], 0x1) = 0', f'unlink("/proc/self/fd/{number}/a") = 0']
            self.assertEqual(self.one(*lines)[-1], f"unlink {HERE}/a")
        closes = "close_range(3, 4294967295, CLOSE_RANGE_CLOEXEC) = 0"
        lines = [OPEN.replace("|O_CLOEXEC", ""), closes, 'execve("/w/in/d/t", ["t"], 0x1) = 0', lines[-1]]
        self.assertEqual(len([it for it in self.notes(*lines) if it[0] == 4]), 1)

    def test_what_strace_shows_is_taken(self):
        line = f'openat(AT_FDCWD</w>, "{CWD}/a", O_RDONLY) = 4</w/d/x>'
        self.assertEqual(self.commands(line)[0], "open r /w/d/x = fd 0")
        self.assertEqual(self.notes(line), [(1, f"it has opened /w/d/x, where {HERE}/a was expected")])
        nameless = f'openat(AT_FDCWD</w>, "{FD}", O_WRONLY|O_TMPFILE, 0600) = 4</w/d/#9>(deleted)'
        self.assertEqual(self.asks(OPEN, nameless)[1:], [("write_file", "/w/d")])
        line = 'mkdirat(4</w/d>, "n", 0777) = 0'
        opened = f'openat(AT_FDCWD</w>, "in/d", O_RDONLY) = 4<{HERE}>'
        self.assertEqual(self.commands(opened, line)[1], "make dir /w/d/n")
        self.assertEqual(self.notes(opened, line), [(2, f"its descriptor 4 is /w/d, where {HERE} was expected")])
        line = 'mkdirat(AT_FDCWD</w/d>, "n", 0777) = 0'
        self.assertEqual(self.notes(line), [(1, "its working directory is /w/d, where /w was expected")])

    def test_a_thread_that_goes_elsewhere_meanwhile(self):
        # strace has shown the working directory when the call began, and the call of the other thread ended first.
        clone = "clone(child_stack=0x7f, flags=CLONE_VM|CLONE_FS|CLONE_FILES|CLONE_THREAD) = 8"
        lines = [clone, '8 mkdirat(AT_FDCWD</w>, "n" <unfinished ...>', '7 chdir("d") = 0']
        lines += ["8 <... mkdirat resumed>, 0777) = 0", '7 mkdir("m", 0777) = 0']
        self.assertEqual((self.commands(*lines), self.notes(*lines)), (["make dir /w/n", "make dir /w/d/m"], []))

    def test_the_link_itself(self):
        line = 'openat(AT_FDCWD</w>, "/proc/self/cwd", O_RDONLY|O_PATH|O_NOFOLLOW) = 4</proc/7/cwd>'
        self.assertEqual((self.commands(line), self.notes(line)), ([], []))

    def test_what_is_no_file(self):
        # The number is that of a pipe now, whatever was open there before.
        line = 'openat(AT_FDCWD</w>, "/proc/self/fd/3", O_RDONLY) = 4<pipe:[7]>'
        self.assertEqual(self.one(line), [])

    def test_a_directory_that_is_not_known(self):
        lines = ['chdir("/proc/9/cwd") = 0', 'mkdir("n", 0777) = 0', 'mkdirat(AT_FDCWD</w/d>, "m", 0777) = 0']
        lines.append('mkdir("o", 0777) = 0')
        self.assertEqual(self.commands(*lines), ["make dir /w/d/m", "make dir /w/d/o"])
        why = "it isn't known what /proc/9/cwd leads to"
        told = [(1, f'it isn\'t known which directory chdir names: "/proc/9/cwd": {why}')]
        told.append((2, 'it isn\'t known which file mkdir names: "n": it isn\'t known in which directory it begins'))
        self.assertEqual(self.notes(*lines), told)

    def test_a_nameless_file_by_another_way(self):
        lines = ['open("d", O_WRONLY|O_TMPFILE, 0600) = 4</w/d/#7>(deleted)']
        lines.append('linkat(AT_FDCWD</w>, "/dev/fd/4", AT_FDCWD</w>, "d/n", AT_SYMLINK_FOLLOW) = 0')
        self.assertEqual(self.commands(*lines)[1], "make reg /w/d/n")
        lines.append('unlink("/proc/self/cwd/d/n") = 0')
        self.assertEqual(self.commands(*lines)[2], "unlink /w/d/n")


CALLS = """
import os, subprocess
d = os.open("in/d", os.O_RDONLY)
fd, cwd = f"/proc/self/fd/{d}", "/proc/self/cwd/in/d"
os.rename(fd + "/a", fd + "/b")
os.rename(cwd + "/b", cwd + "/a")
os.rmdir(fd + "/e1")
os.unlink(fd + "/u1")
os.unlink(cwd + "/u2")
os.symlink("x", fd + "/s")
os.truncate(f"/dev/fd/{d}/c", 0)
os.open(cwd + "/a", os.O_RDONLY)
os.link(fd + "/a", fd + "/l")
if not os.fork():
    os.execv(fd + "/t", ["t"])
os.wait()
if not os.fork():
    os.execv(cwd + "/t2", ["t"])
os.wait()
os.symlink(fd, "by-fd")
os.unlink("by-fd/u3")
os.chdir(fd + "/e")
os.mkdir("new"), os.rmdir("new")
os.chdir("/proc/self/cwd/../e2")
os.open("../w", os.O_WRONLY)
"""


class Recorded(Case):
    @needs_strace
    def test_a_program(self):
        folder = self.room / "work"
        for name in ("e", "e1", "e2"):
            (folder / "in/d" / name).mkdir(parents=True)
        for name in ("a", "c", "u1", "u2", "u3", "w"):
            self.put(f"work/in/d/{name}", "x")
        for name in ("t", "t2"):
            self.put(f"work/in/d/{name}", "#!/bin/true\n").chmod(0o755)
        log = self.room / "run.log"
        words = [*COMMAND, "record", "--to", log, "--"]
        words += ["/usr/bin/python3", "-I", "-S", "-c", CALLS]
        ended = subprocess.run(words, cwd=folder, env=ENVIRONMENT, capture_output=True, timeout=LONGEST, check=False)
        self.assertEqual(ended.returncode, 0, ended.stderr)
        converted = convert(log, whole=True)
        self.assertEqual(converted.told(), [])
        lines = [it.replace(str(folder), "") for it in converted.checks.splitlines() if str(folder) in it]
        d = "/in/d"
        self.assertEqual(lines, [
            f"list {d}", f"rename {d}/a {d}/b", f"rename {d}/b {d}/a", f"rmdir {d}/e1", f"unlink {d}/u1",
            f"unlink {d}/u2", f"make sym {d}/s", f"truncate {d}/c 0", f"open r {d}/a = fd 0", f"link {d}/a {d}/l",
            f"exec {d}/t", f"exec {d}/t2", "make sym /by-fd", f"unlink {d}/u3", f"make dir {d}/e/new",
            f"rmdir {d}/e/new", f"open w {d}/w = fd 0",
        ])  # fmt: skip
        nodes, checks = self.room / "nodes.toml", self.room / "run.check"
        converted.write(nodes, checks)
        self.assertEqual(Commands(PROGRAM).check([checks], nodes).failed, 0)
