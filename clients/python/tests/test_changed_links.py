"""Symbolic links outside the recorded directories, which are read only when a log is converted."""

import os
import subprocess
import time
from unittest import mock

from tests.support import COMMAND, ENVIRONMENT, LONGEST, Case, needs_strace

from landtree.trace import convert
from landtree.trace.inventory import Inventory
from landtree.trace.reader import read

OLD, BEGAN = 1_000_000.0, 2_000_000.0


class Links(Case):
    """Links and directories are as old as `ages` says, in seconds after the program began."""

    def setUp(self):
        super().setUp()
        for name in ("victim/x", "right/x"):
            self.put(name)
        (self.room / "pub").mkdir()
        (self.room / "pub/link").symlink_to("../victim")
        self.ages = {}

    def read(self, *lines):
        log = self.put("log", "".join(f"7 {it}\n" for it in lines).replace("/t/", f"{self.room}/"))
        log.write_text(log.read_text() + "7 +++ exited with 0 +++\n")
        real = os.lstat

        def dated(path):
            found = list(real(path))
            age = self.ages.get(os.path.relpath(path, self.room), OLD - BEGAN)
            return os.stat_result([*found[:9], int(BEGAN + age)], {"st_ctime": BEGAN + age})

        old = mock.patch("landtree.trace.inventory.birth_of", lambda _: OLD)  # A move keeps it.
        with mock.patch.object(os, "lstat", dated), old:
            trace = read(log, Inventory(["/nowhere"], BEGAN), "/")
        commands = [it.text.replace(str(self.room), "/t") for event in trace.events for it in event.commands]
        return commands, [it.text.replace(str(self.room), "/t") for it in trace.notes]

    def test_old_links_are_followed(self):
        commands, notes = self.read('truncate("/t/pub/link/x", 0) = 0')
        self.assertEqual((commands, notes), (["truncate /t/victim/x 0"], []))

    def test_changed_links_are_not(self):
        why = "the link /t/pub/link has changed since the program began"
        for changed in ("pub/link", "pub"):
            self.ages = {changed: 0.0}
            for call, what in {
                'truncate("/t/pub/link/x", 0)': 'file truncate names: "/t/pub/link/x"',
                'rename("/t/pub/link/x", "/t/y")': 'file rename names: "/t/pub/link/x"',
                'rename("/t/right/x", "/t/pub/link/y")': 'file rename names: "/t/pub/link/y"',
                'chdir("/t/pub/link")': 'directory chdir names: "/t/pub/link"',
                'execve("/t/pub/link/x", [], 0x1)': "file is executed: /t/pub/link/x",
            }.items():
                self.assertEqual(self.read(f"{call} = 0"), ([], [f"it isn't known which {what}: {why}"]), call)

    def test_what_strace_shows_is_taken(self):
        self.ages = {"pub/link": 1.0}
        commands, notes = self.read('openat(AT_FDCWD</>, "/t/pub/link/x", O_WRONLY) = 3</t/right/x>')
        self.assertEqual((commands[0], notes), ("open w /t/right/x = fd 0", []))

    def test_the_link_itself_may_be_named(self):
        self.ages = {"pub/link": 1.0}
        self.assertEqual(self.read('unlink("/t/pub/link") = 0'), (["unlink /t/pub/link"], []))

    def test_where_files_have_no_dates(self):
        inventory = Inventory([], BEGAN)
        with mock.patch.object(Inventory, "is_late", lambda *_: True):
            self.assertFalse(inventory.has_changed("/dev/fd"))
            self.assertFalse(inventory.has_changed("/proc/mounts"))
            self.assertTrue(inventory.has_changed("/dev/shm/link"))  # There anybody may make links.

    def test_in_a_recorded_directory(self):
        # What lay there was listed before the program began.
        inventory = Inventory([str(self.room)], 0.0)
        self.assertIsNone(inventory.entry(str(self.room / "pub/link")))


@needs_strace
class Replaced(Case):
    def test_a_link_that_was_replaced(self):
        for name in ("work/f", "victim/x", "right/x"):
            self.put(name)
        (self.room / "pub").mkdir()
        (self.room / "pub/link").symlink_to("../right")
        (self.room / "pub/evil").symlink_to("../victim")
        time.sleep(0.1)
        script = "import os; os.truncate('../pub/link/x', 0); os.rename('../pub/link/x', '../pub/link/y')"
        log = self.room / "run.log"
        words = [*COMMAND, "record", "--to", log, "--"]
        words += ["/usr/bin/python3", "-I", "-S", "-c", script]
        how = {"cwd": self.room / "work", "env": ENVIRONMENT, "timeout": LONGEST, "capture_output": True}
        self.assertEqual(subprocess.run(words, check=False, **how).returncode, 0)
        (self.room / "pub/evil").replace(self.room / "pub/link")
        converted = convert(log)
        self.assertNotIn("/victim", converted.checks + converted.nodes)
        why = f"the link {self.room}/pub/link has changed since the program began"
        self.assertEqual([it.text.endswith(why) for it in converted.notes], [True, True])
