"""Lines of strace 6.1, as it has written them here, and what they say."""

import os

from tests.support import Case

from landtree import Fault

from landtree.trace.log import Call, Descriptor, arguments_of, calls, descriptor_of, string_of, unescaped

END = "7 +++ exited with 0 +++\n"


class Logs(Case):
    def log(self, text):
        path = self.room / "log"
        path.write_bytes(text.encode("latin-1"))
        return path

    def calls(self, text):
        return list(calls(self.log(text)))

    def only(self, line):
        (call,) = self.calls(f"7 {line}\n{END}")
        return call

    def wants_cut(self, text, fault):
        self.wants_fault(f"{self.room}/log{fault}", self.calls, text)

    def test_a_call(self):
        line = 'openat(AT_FDCWD</w>, "f", O_RDONLY|O_CLOEXEC) = 3</w/f>'
        arguments = ("AT_FDCWD</w>", '"f"', "O_RDONLY|O_CLOEXEC")
        self.assertEqual(self.only(line), Call(1, 7, "openat", arguments, 3, "", "</w/f>"))

    def test_an_error(self):
        call = self.only('rmdir("/d") = -1 ENOTEMPTY (Directory not empty)')
        self.assertEqual((call.result, call.error, call.is_done), (-1, "ENOTEMPTY", False))

    def test_an_unknown_result(self):
        call = self.only('openat(AT_FDCWD</>, "f", O_RDONLY) = ? ERESTARTSYS (To be restarted)')
        self.assertEqual((call.result, call.error, call.is_done), (None, "", False))

    def test_spaces_before_the_result(self):
        self.assertEqual(self.only('mkdir("d", 0777)                   = 0').arguments, ('"d"', "0777"))

    def test_no_arguments(self):
        self.assertEqual(self.only("vfork()                 = 8").arguments, ())

    def test_signs_in_strings(self):
        call = self.only(r'rename("a, b) = 0", "c\"d(<3")    = 0')
        self.assertEqual([string_of(it) for it in call.arguments], ["a, b) = 0", 'c"d(<3'])

    def test_signs_in_paths_of_descriptors(self):
        call = self.only(r'openat(3</w/a, (b\74c\76>, "x", O_RDONLY) = 4</w/a, (b\74c\76/x>')
        self.assertEqual(descriptor_of(call.arguments[0]), Descriptor(3, "/w/a, (b<c>", False))
        self.assertEqual(descriptor_of(f"{call.result}{call.returned}"), Descriptor(4, "/w/a, (b<c>/x", False))

    def test_nested_arguments(self):
        line = 'clone3({flags=CLONE_VM|CLONE_FS, child_tid=[0x1, 0x2], stack="("}, 88) = 9'
        call = self.only(line)
        self.assertEqual((len(call.arguments), call.arguments[1], call.result), (2, "88", 9))

    def test_interrupted_calls(self):
        text = '7 openat(AT_FDCWD</>, "a" <unfinished ...>\n8 close(3</b>) = 0\n'
        text += "7 <... openat resumed>, O_RDONLY) = 3</a>\n8 +++ exited with 0 +++\n" + END
        found = [(it.line, it.process, it.name, it.arguments) for it in self.calls(text)]
        opened = (3, 7, "openat", ("AT_FDCWD</>", '"a"', "O_RDONLY"))
        self.assertEqual(found, [(2, 8, "close", ("3</b>",)), opened])

    def test_a_call_that_never_ends(self):
        self.assertEqual(self.calls('7 open("/f", O_RDONLY <unfinished ...>\n7 +++ killed by SIGKILL +++\n'), [])
        self.assertEqual(self.calls('7 open("/f", O_RDONLY <unfinished ...>) = ?\n7 +++ exited with 0 +++\n'), [])

    def test_a_thread_that_executes(self):
        text = '7 close(3</b>) = 0\n8 execve("/bin/true", ["true"], 0x1 /* 3 vars */ <unfinished ...>\n'
        text += "7 +++ superseded by execve in pid 8 +++\n7 <... execve resumed>) = 0\n" + END
        self.assertEqual([(it.process, it.name) for it in self.calls(text)], [(7, "close"), (7, "execve")])

    def test_ends_and_signals(self):
        for end in ("exited with 3", "killed by SIGTERM", "killed by SIGSEGV (core dumped)"):
            self.assertEqual(self.calls(f"7 --- SIGCHLD {{si_pid=8}} ---\n7 +++ {end} +++\n"), [])

    def test_padded_numbers(self):
        self.assertEqual(self.calls('12    rmdir("d")  = 0\n12    +++ exited with 0 +++\n')[0].process, 12)

    def test_escapes(self):
        self.assertEqual(unescaped(r"\303\251"), "\u00e9")
        self.assertEqual(unescaped(r"\"\\\t\n\33[\x0a\0"), '"\\\t\n\x1b[\n\0')
        self.assertEqual(os.fsencode(unescaped(r"\377\3761")), b"\xff\xfe1")

    def test_strings(self):
        self.assertEqual(string_of('""'), "")
        self.assertEqual(string_of(r'"a\40b"'), "a b")
        for text in ('"cut"...', "NULL", "0x7ffd", '"a', '"a" b'):
            self.assertIsNone(string_of(text))

    def test_descriptors(self):
        self.assertEqual(descriptor_of("AT_FDCWD</w>"), Descriptor(None, "/w", False))
        self.assertEqual(descriptor_of("3</w/f>(deleted)"), Descriptor(3, "/w/f", True))
        self.assertEqual(descriptor_of("3<pipe:[77]>"), Descriptor(3, None, False))
        self.assertEqual(descriptor_of("5"), Descriptor(5, None, False))
        self.assertIsNone(descriptor_of('"f"'))

    def test_arguments(self):
        self.assertEqual(arguments_of(") = 0"), ([], 0))
        self.assertEqual(arguments_of("1, [2, 3]) = 0"), (["1", "[2, 3]"], 9))
        for text in ("1, 2", '"a', "3</a, 4)", "[1)"):
            self.assertIsNone(arguments_of(text))

    def test_logs_that_were_cut(self):
        self.wants_cut("", ": the log is empty")
        self.wants_cut('7 rmdir("d") = 0', ":1: the log was cut in this line")
        self.wants_cut('7 rmdir("d") = 0\n', ":1: the log was cut after this line: the end of process 7 is missing")
        two = '7 fork() = 8\n8 rmdir("d") = 0\n' + END
        self.wants_cut(two, ":3: the log was cut after this line: the end of process 8 is missing")

    def test_each_cut(self):
        text = '7 openat(AT_FDCWD</>, "a", O_RDONLY) = 3</a>\n7 fork( <unfinished ...>\n8 close(3</a>) = 0\n'
        text += "7 <... fork resumed>) = 8\n8 +++ killed by SIGKILL +++\n7 +++ exited with 0 +++\n"
        self.assertEqual(len(self.calls(text)), 3)
        for length in range(len(text)):
            with self.assertRaises(Fault, msg=text[:length]):
                self.calls(text[:length])

    def test_lines_of_others(self):
        for line in ("hello", "7 hello", "7 rmdir(", '7 rmdir("d")', '7 rmdir("d") = x', "7 +++ gone +++", "7"):
            self.wants_cut(f"{line}\n{END}", f":1: no line of strace's: {line}")
        self.wants_cut(f"7 <... rmdir resumed>) = 0\n{END}", ":1: no line of strace's: 7 <... rmdir resumed>) = 0")
        self.wants_cut("x" * 300 + "\n", ":1: no line of strace's: " + "x" * 200 + "..")
