"""The commands as a user types them: what they write, and how they end."""

import os
import signal
import subprocess
import sys

from tests.support import ENVIRONMENT, LONGEST, PACKAGE, PROGRAM, TOP, Case, needs_landlock, needs_strace

from landtree import Commands, Layer, Rights, Rule, load_policy
from landtree.trace.recording import strace_words
from landtree.trace.runs import Run

POLICY = TOP / "examples/build-service.toml"
# Runs the package's commands under as many layers as a process may have; each denies make_char.
UNDER_LAYERS = """
import contextlib, sys
sys.path.append(sys.argv.pop(1))
from landtree import landlock
from landtree.__main__ import main
with contextlib.suppress(OSError):
    while True:
        landlock.restrict_self(landlock.create_ruleset(1 << 6))
sys.exit(main())
"""


class Words(Case):
    def test_help(self):
        ended = self.run_command("--help")
        self.assertEqual(ended.returncode, 0)
        for command in ("record", "convert", "learn", "exec", "try", "lint"):
            self.assertIn(f"\n    {command} ", ended.stdout)
            self.assertEqual(self.run_command(command, "--help").returncode, 0)

    def test_wrong_words(self):
        for words, status in {
            (): 2,
            ("nope",): 2,
            ("convert",): 2,
            ("learn", "x"): 2,
            ("lint",): 2,
            ("lint", "--nope", "p"): 2,
            ("record",): 125,
            ("record", "--"): 125,
            ("record", "true"): 125,
            ("try", "--most", "x", "--", "true"): 125,
            ("try", "--never", "x", "--", "true"): 125,
            ("exec", "--", "true"): 125,
        }.items():
            ended = self.run_command(*words)
            self.assertEqual((ended.returncode, ended.stdout), (status, ""), words)
            self.assertNotIn("Traceback", ended.stderr)
        self.assertEqual(list(self.room.iterdir()), [])

    def test_lint(self):
        ended = self.run_command("lint", POLICY, "--program", PROGRAM)
        self.assertEqual((ended.returncode, ended.stderr), (3, ""))
        text = f"{POLICY}: profile build: /build: a file in it can be written and then executed"
        self.assertIn(text, ended.stdout.splitlines())
        ended = self.run_command("lint", "none")
        self.assertEqual((ended.returncode, ended.stderr), (2, "landtree: none: No such file or directory\n"))

    def test_learn(self):
        nodes = self.put("n.toml", 'version = 2\nabi = 3\n[[node]]\npath = "/f"\nkind = "reg"\n')
        checks, more = self.put("c.check", "open r /f = fd 0\n"), self.put("d.check", "open w /f = fd 0\n")
        ended = self.run_command("learn", checks, more, "--policy", nodes, "--name", "p", "--program", PROGRAM)
        self.assertEqual(ended.returncode, 0, ended.stderr)
        (layer,) = load_policy(nodes.read_text() + ended.stdout).profiles["p"]
        self.assertEqual(layer, Layer(Rights.ALL, [Rule("/f", Rights.READ_FILE | Rights.WRITE_FILE)]))
        checks.write_text("open r /g = fd 0\n")
        ended = self.run_command("learn", checks, "--policy", nodes, "--program", PROGRAM)
        said = f"landtree: {checks}:1: open r /g: expected fd 0, got refused 3 ENOENT\n"
        self.assertEqual((ended.returncode, ended.stdout, ended.stderr), (2, "", said))
        checks.write_text("open r /f\nmake reg /g\n")
        words = ["--policy", nodes, "--most", "1", "--program", PROGRAM]
        said = "landtree: 2 rules, 1 may be: --most 256, or --beneath DIR\n"
        self.assertEqual(self.run_command("learn", checks, *words).stderr, said)
        words[3] = "0"
        ended = self.run_command("learn", checks, *words)
        self.assertEqual((ended.returncode, ended.stdout), (2, ""))
        self.assertIn("0 is not in 1..=256", ended.stderr)

    def test_bytes_that_steer_a_terminal(self):
        ended = self.run_command("lint", "a\x1b[2J\nb")
        self.assertEqual(ended.stderr, "landtree: a\\x1b[2J; b: No such file or directory\n")


@needs_strace
class Recording(Case):
    def record(self, *words, **how):
        return self.run_command("record", *words, **how)

    def convert(self, *words):
        return self.run_command("convert", "run.log", *words)

    def test_a_program(self):
        ended = self.record("--", "sh", "-c", "echo hello; echo x >f; exit 3")
        said = "landtree: run.log: the program has ended with status 3\n"
        self.assertEqual((ended.returncode, ended.stdout, ended.stderr), (3, "hello\n", said))
        self.assertEqual(self.convert().returncode, 0)
        checks = (self.room / "run.check").read_text().splitlines()
        self.assertIn(f"open wtc {self.room}/f = fd 0", checks)
        checked = Commands(PROGRAM).check([self.room / "run.check"], self.room / "run.nodes.toml")
        self.assertEqual(checked.failed, 0)

    def test_streams_are_passed_on(self):
        self.assertEqual(self.record("--", "cat", stdin=None, input="typed").stdout, "typed")

    def test_it_has_the_descriptors(self):
        with open(self.room / "out", "w") as out:
            ended = self.record("--", "sh", "-c", f"echo hi >&{out.fileno()}", pass_fds=[out.fileno()])
        self.assertEqual((ended.returncode, (self.room / "out").read_text()), (0, "hi\n"))

    def test_what_was_there_asks_otherwise(self):
        self.put("f")
        self.record("--", "sh", "-c", "echo x >f; echo x >new")
        self.convert()
        checks = (self.room / "run.check").read_text().splitlines()
        self.assertIn(f"open wt {self.room}/f = fd 0", checks)
        self.assertIn(f"open wtc {self.room}/new = fd 0", checks)

    def test_a_directory_beside(self):
        other = self.put("other/f").parent
        self.put("here/x")
        words = ["record", "--changes", other, "--", "sh", "-c", "rm ../other/f; echo x >../other/f"]
        self.assertEqual(self.run_command(*words, cwd=self.room / "here").returncode, 0)
        self.run_command("convert", "run.log", cwd=self.room / "here")
        checks = (self.room / "here/run.check").read_text().splitlines()
        self.assertEqual([it for it in checks if "other" in it], [f"unlink {other}/f", f"open wtc {other}/f = fd 0"])

    def test_a_program_that_is_not_there(self):
        for name in ("no-such-program", "./none", "/etc/passwd", "/etc"):
            ended = self.record("--", name)
            self.assertEqual((ended.returncode, ended.stderr), (125, f"landtree: {name}: no such program\n"))
        self.assertEqual(list(self.room.iterdir()), [])

    def test_nothing_is_overwritten(self):
        for name in ("run.log", "run.log.before"):
            file = self.put(name, "mine")
            ended = self.record("--", "touch", "ran")
            said = (125, f"landtree: run.log{name[7:]}: it is there already\n")
            self.assertEqual((ended.returncode, ended.stderr), said)
            file.unlink()
        self.assertEqual(list(self.room.iterdir()), [])

    def test_no_directory(self):
        ended = self.record("--changes", "none", "--", "touch", "ran")
        self.assertEqual((ended.returncode, ended.stderr), (125, "landtree: none: no directory\n"))
        ended = self.record("--to", "none/log", "--", "touch", "ran")
        said = "landtree: none/log: No such file or directory\n"
        self.assertEqual((ended.returncode, ended.stderr), (125, said))
        self.assertEqual(list(self.room.iterdir()), [])

    def test_other_straces(self):
        for version, fault in {
            "strace -- version 5.2": "strace: version 5.2, and 5.3 or later is needed",
            "another strace": "strace: it doesn't say which version it is, and 5.3 or later is needed",
        }.items():
            self.put("bin/strace", f"#!/bin/sh\necho '{version}'\n").chmod(0o755)
            path = {**os.environ, "PATH": f"{self.room}/bin:{os.environ['PATH']}"}
            ended = self.record("--", "touch", "ran", env=path)
            self.assertEqual((ended.returncode, ended.stderr), (125, f"landtree: {fault}\n"))
        path["PATH"] = f"{self.room}/none"
        ended = self.record("--", "/usr/bin/touch", "ran", env=path)
        fault = "strace: No such file or directory; Debian's package strace has it"
        self.assertEqual((ended.returncode, ended.stderr), (125, f"landtree: {fault}\n"))
        self.assertFalse((self.room / "ran").exists())

    def test_a_strace_that_may_not_trace(self):
        text = '#!/bin/sh\n[ "$1" != -V ] || { echo "strace -- version 6.1"; exit; }\necho no >&2; exit 1\n'
        self.put("bin/strace", text).chmod(0o755)
        path = {**os.environ, "PATH": f"{self.room}/bin:{os.environ['PATH']}"}
        ended = self.record("--", "touch", "ran", env=path)
        said = "no\nlandtree: run.log: strace has logged nothing, so the program wasn't run\n"
        self.assertEqual((ended.returncode, ended.stderr), (125, said))
        self.assertEqual([it.name for it in self.room.iterdir()], ["bin"])

    def test_a_log_that_was_cut(self):
        self.record("--", "sh", "-c", "true; echo x >f")
        log = self.room / "run.log"
        whole = log.read_bytes()
        lines = whole.splitlines(keepends=True)
        last, first = b"".join(lines[:-1]), whole[: len(lines[0]) - 9]
        for text, line in ((whole[:-5], len(lines)), (last, len(lines) - 1), (first, 1)):
            log.write_bytes(text)
            ended = self.convert()
            self.assertEqual((ended.returncode, ended.stdout, ended.stderr.count("\n")), (2, "", 1))
            self.assertTrue(ended.stderr.startswith(f"landtree: run.log:{line}: the log was cut "), ended.stderr)
        self.assertEqual(sorted(it.name for it in self.room.iterdir()), ["f", "run.log", "run.log.before"])

    def test_a_signal_ends_it(self):
        self.assertEqual(self.record("--", "sh", "-c", "kill -TERM $$").returncode, 128 + 15)
        self.assertEqual(self.convert().returncode, 0)

    @needs_landlock
    def test_never_refer(self):
        script = "mkdir d; echo x >f; mv f d/f"
        self.assertEqual(self.record("--never", "refer", "--", "sh", "-c", script).returncode, 0)
        self.convert()
        checks = (self.room / "run.check").read_text()
        self.assertNotIn("rename", checks)
        self.assertIn(f"unlink {self.room}/f\n", checks)  # Since it may not move it, mv has copied it.
        ended = self.record("--to", "two", "--never", "truncate", "--", "touch", "ran")
        said = "landtree: truncate: of all rights refer alone can be kept from a program while it is recorded\n"
        self.assertEqual((ended.returncode, ended.stderr, (self.room / "two").exists()), (125, said, False))

    @needs_landlock
    def test_never_refer_under_all_layers(self):
        ended = subprocess.run(
            [sys.executable, "-I", "-c", UNDER_LAYERS, PACKAGE, "record", "--never", "refer", "--", "touch", "ran"],
            cwd=self.room, env=ENVIRONMENT, capture_output=True, text=True, timeout=LONGEST, check=False,
        )
        said = "landtree: the kernel enforces no layer on the program: a process has 16 at most\n"
        self.assertEqual((ended.returncode, ended.stderr), (125, said))
        self.assertEqual(list(self.room.iterdir()), [])

    def test_an_interrupt_is_for_the_program(self):
        script = "trap 'exit 5' INT; kill -INT 0; sleep 9"
        ended = self.record("--", "sh", "-c", script, start_new_session=True)
        self.assertEqual(ended.returncode, 5, ended.stderr)
        self.assertEqual(self.convert().returncode, 0)

    def test_it_is_asked_to_end(self):
        # The shell's child gets the signal too. Without it, this would last ten minutes.
        for number in (signal.SIGTERM, signal.SIGHUP):
            log, status = f"{int(number)}.log", 128 + number
            words = ["record", "--to", log, "--", "sh", "-c", "echo up; sleep 600; true"]
            said = f"landtree: {log}: the program has ended with status {status}"
            self.assertEqual(self.signalled_command(number, *words), (128 + number, said))
            self.assertEqual(self.run_command("convert", log).returncode, 0)
        script = "trap 'sleep 0.3; echo end >end; exit 5' TERM; echo up; sleep 600 & wait"
        self.assertEqual(self.signalled_command(signal.SIGTERM, "record", "--", "sh", "-c", script)[0], 5)
        self.assertEqual((self.room / "end").read_text(), "end\n")

    def test_it_is_asked_to_end_early(self):
        run = Run()
        run.handle(signal.SIGTERM, None)
        with subprocess.Popen([*strace_words(self.room / "log"), "sleep", "600"]) as strace:
            run.wait_for(strace)
        self.assertEqual((run.status, run.signal), (-15, signal.SIGTERM))

    def test_a_locale_and_signals_as_they_were(self):
        environment = {"PATH": os.environ["PATH"], "A": "b"}
        ended = self.record("--", "env", env=environment)
        self.assertEqual(sorted(ended.stdout.split()), sorted(f"{k}={v}" for k, v in environment.items()))
        ended = self.record("--to", "two.log", "--", "grep", "SigIgn", "/proc/self/status")
        self.assertEqual(ended.stdout, f"SigIgn:\t{0:016x}\n")
