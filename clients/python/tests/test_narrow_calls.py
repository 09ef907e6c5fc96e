"""Calls of 32-bit code, which a 64-bit program may run too, and calls that no policy can say."""

import subprocess

from tests.support import COMMAND, ENVIRONMENT, LONGEST, Case, needs_strace, needs_tools
from tests.traces import Tracing

from landtree.trace import convert

# Cuts a file by truncate64, by ftruncate64 on a copy that fcntl64 has made, and binds a socket by socketcall.
PROGRAM = r"""
#define _GNU_SOURCE
#include <string.h>
#include <sys/mman.h>
static int call(int number, int a, int b, int c) {
    int result;
    __asm__ volatile("int $0x80" : "=a"(result) : "a"(number), "b"(a), "c"(b), "d"(c)
                     : "memory", "r8", "r9", "r10", "r11");
    return result;
}
int main(void) {
    char *low = mmap((void *)0x10000000, 4096, PROT_READ | PROT_WRITE, MAP_PRIVATE | MAP_ANONYMOUS | MAP_FIXED, -1, 0);
    int at = 0x10000000;
    int *words = (int *)(low + 256);
    strcpy(low, "cut");
    if (call(193, at, 0, 0)) return 3;
    strcpy(low, "file");
    int file = call(5, at, 2, 0), copy = call(221, file, 0, 20);
    if (file < 0 || copy != 20 || call(194, copy, 0, 0)) return 4;
    words[0] = 1, words[1] = 1, words[2] = 0;
    int socket = call(102, 1, at + 256, 0);
    low[0] = 1, low[1] = 0;
    strcpy(low + 2, "sock");
    words[0] = socket, words[1] = at, words[2] = 7;
    return socket < 0 || call(102, 2, at + 256, 0) ? 5 : 0;
}
"""


class Calls(Tracing):
    def test_cuts(self):
        lines = ['open("f", O_RDWR) = 3</w/f>', "fcntl64(3</w/f>, F_DUPFD, 9) = 9</w/f>", "close(3</w/f>) = 0"]
        lines += ["ftruncate64(9</w/f>, 0) = 0", 'truncate64("g", 0) = 0']
        self.assertEqual(self.commands(*lines)[2:], ["truncate /w/f 0", "truncate /w/g 0"])

    def test_what_no_policy_can_say(self):
        queue = "opens a message queue, on which no policy can have a rule: under a profile it is denied"
        for call, text in {
            'mq_open("q", O_RDWR|O_CREAT, 0600, NULL) = 3': f"mq_open {queue}",
            'umount("/w") = 0': "umount changes what paths mean",
        }.items():
            self.assertEqual((self.commands(call), self.notes(call)), ([], [(1, text)]))
        self.assertEqual(self.notes('mq_open("q", O_RDWR) = -1 ENOENT (No such file or directory)'), [])


class Recorded(Case):
    @needs_strace
    @needs_tools("cc")
    def test_a_program(self):
        source = self.put("narrow.c", PROGRAM)
        binary = self.room / "narrow"
        built = subprocess.run(["cc", "-w", "-o", binary, source], capture_output=True, check=False)
        self.put("work/cut", "x"), self.put("work/file", "x"), self.put("other/cut"), self.put("other/file")
        if built.returncode or subprocess.run([binary], cwd=self.room / "other", check=False).returncode:
            self.skipTest("no 32-bit calls here")
        log = self.room / "run.log"
        words = [*COMMAND, "record", "--to", log, "--", binary]
        how = {"cwd": self.room / "work", "env": ENVIRONMENT, "timeout": LONGEST, "capture_output": True}
        self.assertEqual(subprocess.run(words, check=False, **how).returncode, 0)
        converted = convert(log)
        self.assertEqual(converted.told(), [])
        work = f"{self.room}/work"
        lines = [it.replace(work, "") for it in converted.checks.splitlines() if work in it]
        self.assertEqual(lines, ["truncate /cut 0", "open rw /file = fd 0", "truncate /file 0", "make sock /sock"])
