"""The command `try` as a user types it: what it writes, and how it ends."""

import os
import signal

from tests.support import ENVIRONMENT, PROGRAM, Case, needs_landlock, needs_strace


@needs_strace
@needs_landlock
class Touring(Case):
    def setUp(self):
        super().setUp()
        self.home = self.room / "home"
        self.home.mkdir()

    def tour(self, *words, **how):
        return self.run_command("try", "--program", PROGRAM, *words, **{"cwd": self.home, **how})

    def test_a_program(self):
        (self.home / "f").write_text("one\n")
        ended = self.tour("--", "sh", "-c", "cat f; echo two >f; echo x >new")
        self.assertEqual((ended.returncode, ended.stdout), (0, "one\none\n"), ended.stderr)
        last = ended.stderr.splitlines()[-2:]
        both = "without a layer the program has ended with status 0, under the profile with 0"
        self.assertEqual(last[0], f"landtree: {both}")
        self.assertTrue(last[1].startswith(f"landtree: {self.home}/landtree.try/policy.toml: the profile has "))
        names = ["confined.log", "nodes.toml", "policy.toml", "run.check", "run.log", "run.log.before"]
        self.assertEqual(sorted(it.name for it in (self.home / "landtree.try").iterdir()), names)
        self.assertEqual(sorted(it.name for it in self.home.iterdir()), ["f", "landtree.try", "new"])

    def test_the_second_run_changes_nothing_here(self):
        ended = self.tour("--", "sh", "-c", "echo x >>log")
        self.assertEqual(ended.returncode, 0, ended.stderr)
        self.assertEqual((self.home / "log").read_text(), "x\n")

    def test_what_would_be_denied(self):
        # The second run reads what the first one hasn't.
        (self.home / "secret").write_text("key\n")
        script = f"test -e {self.room}/again && cat secret; echo >{self.room}/again"
        ended = self.tour("--", "sh", "-c", script)
        self.assertEqual(ended.returncode, 3, ended.stderr)
        self.assertIn("landtree: the second run was in a copy of the working directory; ", ended.stderr)
        denied = [it for it in ended.stderr.splitlines() if "would be denied" in it]
        self.assertTrue(any(it.endswith(": execve /usr/bin/cat: EACCES") for it in denied), ended.stderr)
        self.assertTrue(any(it.endswith(f": openat {self.room}/again: EACCES") for it in denied), ended.stderr)

    def test_in_place(self):
        ended = self.tour("--in-place", "--", "sh", "-c", "cat /dev/null")
        self.assertEqual(ended.returncode, 0, ended.stderr)

    def test_a_directory_that_is_there(self):
        (self.home / "landtree.try").mkdir()
        ended = self.tour("--", "touch", "ran")
        text = "landtree: landtree.try: it is there already; --to names another directory\n"
        self.assertEqual((ended.returncode, ended.stderr), (125, text))
        self.assertFalse((self.home / "ran").exists())

    def test_no_program(self):
        ended = self.run_command("try", "--program", self.room / "none", "--", "touch", "ran", cwd=self.home)
        said = f"landtree: {self.room}/none: No such file or directory\n"
        self.assertEqual((ended.returncode, ended.stderr), (125, said))
        self.assertEqual(list(self.home.iterdir()), [])

    def test_what_cannot_be_learned(self):
        text = '#!/bin/sh\n[ "$1" = --version ] && exit\necho "run.check:1: why" >&2\n'
        text += 'echo "  as it is" >&2\nexit 3\n'
        self.put("bad", text).chmod(0o755)
        ended = self.run_command("try", "--program", self.room / "bad", "--", "touch", "ran", cwd=self.home)
        checks, nodes = (f"{self.home}/landtree.try/{it}" for it in ("run.check", "nodes.toml"))
        again = f"`landtree learn {checks} --policy {nodes}` learns from this run again"
        said = f"landtree: {checks}: no profile is learned: run.check:1: why; as it is; {again}\n"
        self.assertEqual((ended.returncode, ended.stderr), (125, said))
        self.assertFalse((self.home / "landtree.try/policy.toml").exists())

    def test_what_is_found_after_the_program_was_run(self):
        ended = self.tour("--beneath", "/no-such", "--", "touch", "ran")
        self.assertEqual(ended.returncode, 125)
        self.assertIn(": no profile is learned: --beneath /no-such: no such node; `landtree learn ", ended.stderr)
        self.assertTrue((self.home / "landtree.try/run.log").exists())

    def test_what_is_found_before_the_program_is_run(self):
        name = "a name has 1 to 32 of a to z, 0 to 9 and the hyphen"
        denied = "some of tcp, ioctl_dev, signal, abstract_unix_socket are expected"
        for words, fault in {
            ("--name", "A_b"): f"--name: 'A_b': {name}",
            ("--most", "257"): "--most: 257: 1 to 256 is expected",
            ("--most", "0"): "--most: 0: 1 to 256 is expected",
            ("--beneath", "rel"): "--beneath: 'rel' is no path",
            ("--beneath", "/d/"): "--beneath: '/d/' is no path",
            ("--deny", "tpc"): f"--deny: 'tpc': {denied}",
            ("--deny", "tcp,"): f"--deny: '': {denied}",
            ("--changes", "/no-such"): "/no-such: no directory",
            ("--to", "none/x"): "none/x: No such file or directory",
        }.items():
            ended = self.tour(*words, "--", "touch", "ran")
            self.assertEqual((ended.returncode, ended.stderr), (125, f"landtree: {fault}\n"))
        ended = self.tour("--", "no-such-program")
        self.assertEqual((ended.returncode, ended.stderr), (125, "landtree: no-such-program: no such program\n"))
        self.assertEqual(list(self.home.iterdir()), [])

    def test_names_of_directories(self):
        to = "/landtree.try: its path isn't UTF-8, or has a control character; --to names another directory"
        copy = ": no copy can stand for a path with =/; --in-place needs none"
        names = {b"a\nb": f"a; b{to}", b"a\x7f": f"a\\x7f{to}", b"a\xff": f"a\\xff{to}", b"a=/b": f"a=/b{copy}"}
        for name, fault in names.items():
            here = self.home / os.fsdecode(name)
            here.mkdir(parents=True)
            ended = self.tour("--", "touch", "ran", cwd=here)
            self.assertEqual((ended.returncode, ended.stderr), (125, f"landtree: {self.home}/{fault}\n"))
            self.assertEqual(list(here.iterdir()), [])
        ended = self.tour("--to", self.room / "to", "--", "touch", "ran", cwd=self.home / "a\nb")
        self.assertEqual(ended.returncode, 0, ended.stderr)
        ended = self.tour("--in-place", "--", "touch", "ran", cwd=self.home / "a=/b")
        self.assertEqual(ended.returncode, 0, ended.stderr)
        here = self.home / "\u00e9"
        here.mkdir()
        ended = self.tour("--", "touch", "ran", cwd=here)
        self.assertEqual(ended.returncode, 0, ended.stderr)

    def test_a_folder_without_a_recording(self):
        text = '#!/bin/sh\n[ "$1" != -V ] || { echo "strace -- version 6.1"; exit; }\nexit 1\n'
        self.put("bin/strace", text).chmod(0o755)
        ended = self.tour("--", "true", env={**ENVIRONMENT, "PATH": f"{self.room}/bin:{os.environ['PATH']}"})
        said = f"landtree: {self.home}/landtree.try/run.log: strace has logged nothing, so the program wasn't run\n"
        self.assertEqual((ended.returncode, ended.stderr), (125, said))
        self.assertEqual(list(self.home.iterdir()), [])

    def test_it_is_asked_to_end(self):
        words = ["try", "--program", PROGRAM, "--", "sh", "-c", "echo up; sleep 600; true"]
        said = f"landtree: {self.home}/landtree.try/run.log: SIGTERM came, so no profile is learned"
        self.assertEqual(self.signalled_command(signal.SIGTERM, *words, cwd=self.home), (125, said))
