"""What `try` says of two runs: that they differ in a status, in an output or in a call, or that it isn't known."""

import os
import pty
import signal
import socket
import subprocess
from unittest import mock

from tests.support import COMMAND, LONGEST, PROGRAM, Case, needs_landlock, needs_strace

from landtree import landlock
from landtree.denials import traced_calls
from landtree.outputs import PipeKeeper, Written, difference, line_text

RUNS = "without a layer the program has ended with status {}, under the profile with {}"


class Verdicts(Case):
    def setUp(self):
        super().setUp()
        self.home = self.room / "home"
        self.home.mkdir()

    def tour(self, script, *options, **how):
        words = ["try", "--program", PROGRAM, *options, "--", "sh", "-c", script]
        return self.run_command(*words, **{"cwd": self.home, **how})

    def told(self, ended):
        return [it.replace("landtree: ", "", 1) for it in ended.stderr.splitlines()]

    def first_line_of_the_profile(self):
        text = (self.home / "landtree.try/policy.toml").read_text()
        lines = text.split("[[profile")[0].splitlines()
        return next(it for it in lines if it.startswith("# least") or it.startswith("# learned"))


@needs_strace
@needs_landlock
class Denials(Verdicts):
    """Landlock refuses these with EPERM, but for TCP and devices."""

    def wants_denied(self, script, call, *options, level=1, error="EPERM"):
        if landlock.level() < level:
            self.skipTest(f"a kernel of level {landlock.level()}")
        ended = self.tour(script, *options)
        self.assertEqual(ended.returncode, 3, ended.stderr)
        denied = [it for it in self.told(ended) if it.startswith("it would be denied now: ")]
        self.assertTrue(any(f": {call}" in it and it.endswith(f": {error}") for it in denied), ended.stderr)
        self.assertNotIn("each layer over these rights that lets it run so", ended.stderr)

    def python(self, text):
        return f"/usr/bin/python3 -c '{text}' || true"

    def test_a_signal(self):
        script = f"kill -0 {os.getpid()} 2>/dev/null; true"
        self.wants_denied(script, f"kill {os.getpid()} 0", "--deny", "signal", level=6)

    def test_a_signal_that_was_refused_before(self):
        if landlock.level() < 6 or os.geteuid() != 0 or not os.path.exists("/usr/bin/setpriv"):
            self.skipTest("no level 6, or not root")
        self.home.chmod(0o755)
        script = f"setpriv --reuid 65534 --clear-groups kill -0 {os.getpid()} 2>/dev/null; true"
        ended = self.tour(script, "--deny", "signal")
        self.assertNotIn(": kill ", ended.stderr)

    def test_an_abstract_socket(self):
        with socket.socket(socket.AF_UNIX) as server:
            name = f"landtree-{os.getpid()}"
            server.bind(f"\0{name}")
            server.listen()
            script = f"import socket; socket.socket(socket.AF_UNIX).connect(chr(0) + \"{name}\")"
            script = self.python(script) + " 2>/dev/null"
            self.wants_denied(script, "connect ", "--deny", "abstract_unix_socket", level=6)

    def test_tcp_and_devices(self):
        script = self.python("import socket; socket.create_server((\"127.0.0.1\", 0))") + " 2>/dev/null"
        self.wants_denied(script, "bind ", "--deny", "tcp", level=4, error="EACCES")
        code = "import fcntl, os; fcntl.ioctl(os.open(\"/dev/urandom\", os.O_RDONLY), 0x80045200, bytes(4))"
        script, options = self.python(code) + " 2>/dev/null", ("--deny", "ioctl_dev", "--to", "two")
        self.wants_denied(script, "ioctl /dev/urandom RNDGETENTCNT", *options, level=5, error="EACCES")

    def test_a_trace_of_another_process(self):
        with subprocess.Popen(["sleep", "60"]) as other:
            self.addCleanup(other.kill)
            text = f"import ctypes; ctypes.CDLL(None).ptrace(16, {other.pid}, 0, 0); "
            self.wants_denied(self.python(text), f"ptrace PTRACE_ATTACH {other.pid}")
            other.kill()

    def test_a_mount(self):
        if os.geteuid() != 0:
            self.skipTest("not root")
        (self.home / "d").mkdir()
        script = "mount -t tmpfs none d 2>/dev/null && umount d; true"
        self.wants_denied(script, "mount ")

    def test_calls_that_are_logged(self):
        self.assertIn("ptrace", traced_calls([]))
        self.assertNotIn("kill", traced_calls([]))
        words = ["signal", "abstract_unix_socket", "tcp", "ioctl_dev"]
        self.assertLessEqual({"kill", "connect", "bind", "ioctl"}, set(traced_calls(words)))
        self.assertEqual(len(traced_calls(words)), len(set(traced_calls(words))))


@needs_strace
@needs_landlock
class Differences(Verdicts):
    def test_standard_output(self):
        script = f"echo same; test -e {self.room}/again && echo two || echo one; echo >{self.room}/again"
        ended = self.tour(script, "--changes", self.room)
        self.assertEqual((ended.returncode, ended.stdout), (3, "same\none\nsame\ntwo\n"), ended.stderr)
        said = 'standard output differs in line 2: "one" without a layer, "two" under the profile'
        self.assertIn(said, self.told(ended))
        self.assertNotIn("each layer over these rights that lets it run so", ended.stderr)

    def test_standard_error(self):
        script = f"test -e {self.room}/again && echo 'no' >&2; : >>{self.room}/again; true"
        ended = self.tour(script, "--changes", self.room)
        self.assertEqual(ended.returncode, 3, ended.stderr)
        said = 'standard error differs in line 1: no line without a layer, "no" under the profile'
        self.assertIn(said, self.told(ended))

    def test_the_same(self):
        ended = self.tour("echo one; echo two >&2; pwd; echo x >f; cat f; printf 'no end'")
        self.assertEqual(ended.returncode, 0, ended.stderr)
        self.assertEqual(ended.stdout.count("one\n"), 2)
        self.assertEqual(ended.stderr.splitlines()[:2], ["two", "two"])
        self.assertIn("each layer over these rights that lets it run so", ended.stderr)
        self.assertNotIn("compared", ended.stderr)

    def test_rules_whose_files_are_missing_then(self):
        # `exec` says which files are missing. That is nothing that the program has written.
        (self.home / "d").mkdir()
        (self.home / "d/f").write_text("x\n")
        ended = self.tour("test ! -d d || rm -r d", "--in-place")
        self.assertEqual(ended.returncode, 0, ended.stderr)
        self.assertNotIn("it isn't there", ended.stderr)

    def test_files(self):
        for mode in ("wb", "ab"):
            with open(self.room / "out", mode) as out:
                how = {"stdout": out, "stderr": out, "capture_output": False}
                ended = self.tour("echo same", "--to", f"to-{mode}", **how)
            self.assertEqual(ended.returncode, 0, (self.room / "out").read_text())
        with open(self.room / "out", "wb") as out:
            how = {"stdout": out, "stderr": out, "capture_output": False}
            ended = self.tour("echo $PPID", "--to", "pid", **how)
        text = (self.room / "out").read_text()
        self.assertEqual((ended.returncode, text.count("the output differs in line 1: ")), (3, 1), text)

    def test_both_streams_in_their_order(self):
        script = "for i in 1 2 3 4 5 6 7 8 9; do echo $i; echo e$i >&2; done"
        ended = self.tour(script, stderr=subprocess.STDOUT, stdout=subprocess.PIPE, capture_output=False)
        one = [line for it in range(1, 10) for line in (f"{it}", f"e{it}")]
        self.assertEqual((ended.returncode, ended.stdout.splitlines()[:36]), (0, one + one))

    def test_a_closed_stream(self):
        script = 'exec "$@" >&-'
        words = ["sh", "-c", script, "sh", *COMMAND, "try", "--program", PROGRAM, "--", "true"]
        ended = subprocess.run(words, cwd=self.home, capture_output=True, text=True, timeout=LONGEST, check=False)
        self.assertEqual(ended.returncode, 0, ended.stderr)

    def test_a_reader_that_has_gone(self):
        words = [*COMMAND, "try", "--program", PROGRAM, "--", "sh", "-c", "yes"]
        script = 'trap "" PIPE; "$@" | head -1; echo "${PIPESTATUS[0]}"'
        call = ["bash", "-c", f"set -o pipefail; {script}", "bash", *words]
        ended = subprocess.run(call, cwd=self.home, capture_output=True, text=True, timeout=LONGEST, check=False)
        self.assertEqual(ended.stdout.splitlines()[0], "y")
        self.assertNotIn("Traceback", ended.stderr)

    def test_a_full_device(self):
        with open("/dev/full", "wb") as full:
            ended = self.tour("yes | head -100000", stdout=full, stderr=subprocess.PIPE, capture_output=False)
        self.assertEqual(ended.returncode, 128 + signal.SIGPIPE, ended.stderr)
        self.assertNotIn("Traceback", ended.stderr)

    def test_a_terminal(self):
        control, terminal = pty.openpty()
        self.addCleanup(os.close, control)
        ended = self.tour("test -t 1 && echo $$", stdout=terminal, stderr=subprocess.PIPE, capture_output=False)
        os.close(terminal)
        self.assertEqual(ended.returncode, 0, ended.stderr)
        self.assertIn("standard output isn't compared: it is a terminal", self.told(ended))

    def test_an_input(self):
        with open(self.put("typed", "hello\n")) as typed:
            ended = self.tour("cat", stdin=typed)
        self.assertEqual((ended.returncode, ended.stdout), (0, "hello\nhello\n"), ended.stderr)
        ended = self.tour("cat", "--to", "two", stdin=None, input="hello\n")
        self.assertEqual((ended.returncode, ended.stdout), (3, "hello\n"), ended.stderr)
        told = self.told(ended)
        said = 'standard output differs in line 1: "hello" without a layer, no line under the profile'
        place = told.index(said)
        why = "the first run may have read its input, so that the second one had the rest of it alone"
        self.assertEqual(told[place + 1], why)

    def test_a_process_that_is_left(self):
        output = {}
        with mock.patch("landtree.outputs.LAST_SECONDS", 0.1), PipeKeeper((1,), self.room / "o").keep(output, "it"):
            held = os.dup(1)
        os.close(held)
        self.assertEqual(output["it"].unknown, "a process that is left has it open")

    def test_lines(self):
        files = {}
        for name, data in {"a": b"1\n2", "b": b"1\n2\n", "c": b"", "d": b"1\n\xff", "e": b"1\n" + b"x" * 300}.items():
            self.put(name).write_bytes(data)
            files[name] = Written(str(self.room / name), 0, len(data))
        none = (b"", b"")
        self.assertEqual(difference(files["a"], files["a"], none), "")
        text = 'in line 2: "2" and no line feed without a layer, "2" under the profile'
        self.assertEqual(difference(files["a"], files["b"], none), text)
        text = 'in line 1: no line without a layer, "1" under the profile'
        self.assertEqual(difference(files["c"], files["a"], none), text)
        self.assertEqual(difference(files["d"], files["d"], none), "")
        self.assertEqual(line_text(b"1\xff\n"), '"1\\xff"')
        self.assertEqual(line_text(b"x" * 300 + b"\n"), f'"{"x" * 100}.."')
        self.assertEqual(difference(files["a"], files["e"], (b"x" * 300, b"2")), "")


@needs_strace
@needs_landlock
class Statuses(Verdicts):
    def test_a_program_that_fails(self):
        ended = self.tour("echo x >f; exit 7")
        self.assertEqual(ended.returncode, 7, ended.stderr)
        self.assertIn(RUNS.format(7, 7), self.told(ended))
        self.assertEqual(self.first_line_of_the_profile(), "# learned from a run that ended with 7")

    def test_a_program_that_a_signal_ends(self):
        ended = self.tour("kill -USR1 $$")
        self.assertEqual(ended.returncode, 128 + signal.SIGUSR1, ended.stderr)
        self.assertIn(RUNS.format(*[128 + signal.SIGUSR1] * 2), self.told(ended))
        note = f"# learned from a run that ended with {128 + signal.SIGUSR1}"
        self.assertEqual(self.first_line_of_the_profile(), note)

    def test_a_program_that_fails_under_the_profile_alone(self):
        ended = self.tour(f"test ! -e {self.room}/again; s=$?; : >>{self.room}/again; exit $s")
        self.assertEqual(ended.returncode, 3, ended.stderr)
        self.assertIn("# least", self.first_line_of_the_profile())

    def test_learning_from_a_run_that_failed(self):
        self.run_command("record", "--", "sh", "-c", "echo x >f; exit 3", cwd=self.home)
        self.run_command("convert", "run.log", cwd=self.home)
        words = ["learn", "run.check", "--policy", "run.nodes.toml", "--program", PROGRAM]
        ended = self.run_command(*words, cwd=self.home)
        self.assertEqual(ended.returncode, 0, ended.stderr)
        lines = ended.stdout.splitlines()
        self.assertEqual(lines[0], "# learned from a run that ended with 3")
        self.assertTrue(lines[1].startswith("# least"), lines[1])
