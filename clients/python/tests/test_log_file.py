"""A recording's files: who may read them, and what a program can do to them while it runs."""

import os
import subprocess
from pathlib import Path
from unittest import mock

from tests.support import COMMAND, ENVIRONMENT, LONGEST, Case, needs_landlock, needs_strace

from landtree.trace.log_file import LogFile

LINES = b'7 rmdir("d") = 0\n7 +++ exited with 0 +++\n'
FORGED = "printf '7 rmdir(\"d\") = 0\\n7 +++ exited with 0 +++\\n' >forged; "


class Files(Case):
    def kept(self, written=LINES):
        """Writes these bytes as strace would, and gives the log its name."""
        with LogFile(self.room / "log") as log:
            self.assertEqual(list(self.room.iterdir()), [])
            with open(log.path_of(os.getpid()), "wb") as file:
                file.write(written)
            log.keep()
        return self.room / "log"

    def both_ways(self):
        """Yields twice: the second time on a file system that can't make a file without a name."""
        yield
        (self.room / "log").unlink(missing_ok=True)
        real = os.open
        refuse = lambda path, flags, *more, **how: real(  # noqa: E731
            "/none" if flags & os.O_TMPFILE == os.O_TMPFILE else path, flags, *more, **how
        )
        with mock.patch.object(os, "open", refuse), mock.patch("tempfile._O_TMPFILE_WORKS", False):
            yield

    def test_its_name_comes_last(self):
        for _ in self.both_ways():
            log = self.kept()
            self.assertEqual((log.read_bytes(), log.stat().st_mode & 0o777), (LINES, 0o600))
            self.assertEqual([it.name for it in self.room.iterdir()], ["log"])

    def test_it_replaces_nothing(self):
        for _ in self.both_ways():
            with LogFile(self.room / "log") as log:
                Path(log.path_of(os.getpid())).write_bytes(LINES)
                (self.room / "log").symlink_to("mine")
                text = f"{self.room}/log: this file has come while the program ran, so the log isn't kept"
                self.wants_fault(text, log.keep)
            self.assertEqual([it.name for it in self.room.iterdir()], ["log"])

    def test_what_was_cut_or_changed(self):
        place = self.room / "log"
        changed = f"{place}: something has changed the log while the program ran, so it isn't kept"
        for text, fault in {
            b"": f"{place}: strace has logged nothing, so the program wasn't run",
            b"7 rmdir(": f"{place}: the log was cut while the program ran, so it isn't kept",
            bytes(9) + LINES: changed,
            b"7 a\n" * 300_000 + b"\0\n": changed,
        }.items():
            self.wants_fault(fault, self.kept, text)
            self.assertEqual(list(self.room.iterdir()), [])

    def test_what_replaces_it_at_once(self):
        real = os.link

        def replaced(*words, **how):
            real(*words, **how)
            self.put("forged", "7 +++ exited with 0 +++\n").replace(self.room / "log")

        fault = f"{self.room}/log: something has replaced or changed the log, so don't use it"
        with mock.patch.object(os, "link", replaced):
            self.wants_fault(fault, self.kept)

    def test_no_directory(self):
        self.wants_fault(f"{self.room}/none/log: No such file or directory", LogFile, self.room / "none/log")


@needs_strace
class Hostile(Case):
    def record(self, script, *words):
        call = [*COMMAND, "record", *words, "--", "sh", "-c", script]
        how = {"cwd": self.room, "env": ENVIRONMENT, "timeout": LONGEST, "capture_output": True, "text": True}
        return subprocess.run(call, check=False, **how)

    def wants(self, text, ended):
        self.assertEqual((ended.returncode, ended.stderr), (125, f"landtree: run.log: {text}\n"))

    def test_only_the_owner_may_read_it(self):
        self.assertEqual(self.record("umask 0; ls").stdout, "")
        modes = {it.name: it.stat().st_mode & 0o777 for it in self.room.iterdir()}
        self.assertEqual(modes, {"run.log": 0o600, "run.log.before": 0o600})

    def test_a_forged_log(self):
        ended = self.record(FORGED + "mv forged run.log")
        self.wants("this file has come while the program ran, so the log isn't kept", ended)
        self.assertEqual([it.name for it in self.room.iterdir()], ["run.log"])

    def test_a_forged_record_of_what_was_there(self):
        ended = self.record("echo {} >run.log.before")
        said = "landtree: run.log.before: it is there already\n"
        self.assertEqual((ended.returncode, ended.stderr), (125, said))
        self.assertEqual([it.name for it in self.room.iterdir()], ["run.log.before"])

    def test_a_log_that_is_emptied(self):
        # A program may still find what strace has open. What it cuts off is missed.
        script = "for it in /proc/$PPID/fd/*; do case $(readlink $it) in */#*) : >$it; esac; done; ls >/dev/null"
        self.wants("something has changed the log while the program ran, so it isn't kept", self.record(script))
        self.assertEqual(list(self.room.iterdir()), [])

    @needs_landlock
    def test_under_a_layer(self):
        # strace is under the layer too, and may look into no process that isn't.
        self.assertEqual(self.record("true", "--never", "refer").returncode, 0)
        self.assertIn(b" execve(", (self.room / "run.log").read_bytes())
