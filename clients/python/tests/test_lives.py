"""Numbers of processes that are used again, and processes of which the log doesn't show all."""

import os
import subprocess
import unittest

from tests.support import COMMAND, ENVIRONMENT, LONGEST, Case, needs_strace
from tests.traces import Tracing

from landtree.trace import convert

FORK = "clone(child_stack=NULL, flags=CLONE_CHILD_CLEARTID|CLONE_CHILD_SETTID|SIGCHLD)"
THREAD = "clone(child_stack=0x7f, flags=CLONE_VM|CLONE_FS|CLONE_FILES|CLONE_SIGHAND|CLONE_THREAD)"
GONE = "8 +++ exited with 0 +++"
LAST = "/proc/sys/kernel/ns_last_pid"
REUSE = f"""
import os
first = os.fork()
if not first:
    os.chdir("a"), os._exit(0)
os.wait()
for _ in range(100):
    with open({LAST!r}, "w") as last:
        last.write(str(first - 1))
    again = os.fork()
    if not again:
        if os.getpid() == first:
            os.rename("f", "g"), os.mkdir("new"), os.rmdir("new")
        os._exit(0)
    os.wait()
    if again == first:
        print("again")
        break
"""


class Numbers(Tracing):
    def test_a_number_of_two_processes(self):
        # The first 8 goes to d. The second one is where its parent is.
        lines = [f"{FORK} = 8", '8 chdir("d") = 0', GONE, f"{FORK} = 8"]
        lines += ['8 rename("f", "n") = 0', '8 mkdir("m", 0777) = 0']
        self.assertEqual(self.commands(*lines), ["rename /w/f /w/n", "make dir /w/m"])
        asked = [("remove_file", "/w"), ("make_reg", "/w"), ("make_dir", "/w")]
        self.assertEqual((self.asks(*lines), self.notes(*lines)), (asked, []))

    def test_children_that_are_faster_than_their_calls(self):
        line = FORK.rstrip(")") + " <unfinished ...>"
        again = [f"7 {line}", '8 mkdir("m{}", 0777) = 0', "7 <... clone resumed>) = 8", '8 chdir("d") = 0', GONE]
        lines = [it.format(number) for number in (1, 2) for it in again]
        self.assertEqual((self.commands(*lines), self.notes(*lines)), (["make dir /w/m1", "make dir /w/m2"], []))

    def test_children_that_end_before_their_calls(self):
        # As after vfork. The end of the call isn't the beginning of another process then.
        child = ["7 vfork( <unfinished ...>", '8 chdir("d") = 0', GONE, "7 <... vfork resumed>) = 8"]
        lines = [*child, f"{FORK} = 8", '8 mkdir("m", 0777) = 0']
        self.assertEqual((self.commands(*lines), self.notes(*lines)), (["make dir /w/m"], []))

    def test_another_parent(self):
        lines = [f"{FORK} = 8", GONE, f"{FORK} = 9", '9 chdir("d") = 0', f"9 {FORK} = 8", '8 mkdir("m", 0777) = 0']
        self.assertEqual(self.commands(*lines), ["make dir /w/d/m"])

    def test_descriptors_of_before(self):
        lines = [f"{FORK} = 8", '8 open("d", O_RDONLY) = 3</w/d>', GONE]
        lines += [f"{FORK} = 8", '8 unlink("/proc/self/fd/3/x") = 0']
        self.assertEqual(len(self.notes(*lines)), 1)
        self.assertEqual(self.commands(*lines), ["list /w/d"])

    def test_a_thread_of_a_number_of_before(self):
        lines = [f"{FORK} = 8", '8 chdir("d") = 0', GONE]
        lines += [f"{THREAD} = 8", '8 chdir("empty") = 0', 'mkdir("m", 0777) = 0']
        self.assertEqual(self.commands(*lines), ["make dir /w/empty/m"])

    def test_a_thread_that_executes(self):
        # It goes on as 7, where it was. Another process may be 8 then.
        lines = [f"{THREAD} = 8", "8 unshare(CLONE_FS) = 0", '8 chdir("d") = 0']
        lines += ['8 execve("/w/f", ["f"], 0x1 <unfinished ...>', "7 +++ superseded by execve in pid 8 +++"]
        lines += ["7 <... execve resumed>) = 0", 'mkdir("m", 0777) = 0', f"{FORK} = 8", '8 mkdir("n", 0777) = 0']
        made = [it for it in self.commands(*lines) if it.startswith("make")]
        self.assertEqual(made, ["make dir /w/d/m", "make dir /w/d/n"])

    def test_many_that_are_under_way(self):
        # Each child starts the next one before its own call has ended.
        count = 2_000
        lines = ["7 chdir(\"d\") = 0", *(f"{it} vfork( <unfinished ...>" for it in range(7, count))]
        lines += [f'{count} mkdir("m", 0777) = 0', *(f"{it} <... vfork resumed>) = {it + 1}" for it in range(7, count))]
        self.assertEqual((self.commands(*lines), self.notes(*lines)), (["make dir /w/d/m"], []))

    def test_who_is_not_known(self):
        # 7 was killed in its call, so the log doesn't say that 8 is its child.
        lines = [f"7 {FORK.rstrip(')')} <unfinished ...>", "7 +++ killed by SIGKILL +++", '8 mkdir("m", 0777) = 0']
        lines.append('8 mkdirat(AT_FDCWD</w/d>, "m", 0777) = 0')
        self.assertEqual(self.commands(*lines), ["make dir /w/d/m"])
        told = [(3, "it isn't known who has started process 8, nor where")]
        told.append((3, 'it isn\'t known which file mkdir names: "m": it isn\'t known in which directory it begins'))
        self.assertEqual(self.notes(*lines), told)

    def test_who_is_not_followed(self):
        call = "clone(child_stack=NULL, flags=CLONE_UNTRACED|SIGCHLD) = 8"
        text = "clone starts a process that strace doesn't follow: nothing that it does is known"
        self.assertEqual(self.notes(call), [(1, text)])
        # The number isn't taken for that of a child that is followed later.
        lines = [call, 'chdir("d") = 0', f"{FORK} = 8", '8 mkdir("m", 0777) = 0']
        self.assertEqual(self.commands(*lines), ["make dir /w/d/m"])

    def test_what_a_process_has_for_itself(self):
        lines = [f"{THREAD} = 8", "8 unshare(CLONE_FS) = 0", '8 chdir("d") = 0', 'mkdir("m", 0777) = 0']
        self.assertEqual(self.commands(*lines), ["make dir /w/m"])
        lines = [f"{THREAD} = 8", "8 unshare(CLONE_FILES) = 0", '8 open("d", O_RDONLY) = 3</w/d>']
        self.assertEqual(len(self.notes(*lines, 'unlink("/proc/self/fd/3/x") = 0')), 1)


@needs_strace
class Recorded(Case):
    @unittest.skipUnless(os.access(LAST, os.W_OK), "the next process's number can't be set here")
    def test_a_number_of_two_processes(self):
        self.put("work/f"), self.put("work/a/x")
        log = self.room / "run.log"
        words = [*COMMAND, "record", "--to", log, "--"]
        words += ["/usr/bin/python3", "-I", "-S", "-c", REUSE]
        how = {"cwd": self.room / "work", "env": ENVIRONMENT, "capture_output": True, "timeout": LONGEST}
        ended = subprocess.run(words, check=False, **how)
        if ended.stdout != b"again\n":
            self.skipTest("no number was used again")
        converted = convert(log, whole=True)
        self.assertEqual(converted.told(), [])
        work = str(self.room / "work")
        lines = [it.replace(work, "") for it in converted.checks.splitlines() if work in it]
        self.assertEqual(lines, ["rename /f /g", "make dir /new", "rmdir /new"])
