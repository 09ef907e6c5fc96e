"""What the tests of the package share."""

import os
import shutil
import subprocess
import sys
import tempfile
import unittest
from pathlib import Path

HERE = Path(__file__).resolve().parent
PACKAGE = HERE.parent
TOP = PACKAGE.parent.parent
sys.path.insert(0, str(PACKAGE))

from landtree import Fault, landlock  # noqa: E402

# The program, which test_package.py sets.
PROGRAM = os.environ.get("LANDTREE_PROGRAM", str(TOP / "crates/landtree/out/landtree"))
LONGEST = 120
# The command as its first line starts it, by this very Python.
COMMAND = [sys.executable, "-I", "-S", str(PACKAGE / "landtree-sandbox")]
ENVIRONMENT = dict(os.environ)


def can_trace():
    """Says whether strace may follow a program here, as far as it is installed."""
    words = ["strace", "-o", "/dev/null", "true"]
    return not shutil.which("strace") or subprocess.run(words, capture_output=True, check=False).returncode == 0


def needs(is_there, what):
    """Skips a test where something isn't installed, unless nothing may be missing (LANDTREE_ALL_TESTS)."""
    return unittest.skipUnless(is_there or os.environ.get("LANDTREE_ALL_TESTS"), what)


def needs_strace(test):
    allowed = unittest.skipUnless(can_trace(), "strace may follow no program here")
    return needs(shutil.which("strace"), "no strace")(allowed(test))


needs_landlock = unittest.skipUnless(landlock.level() > 0, "no Landlock in this kernel")


def needs_tools(*names):
    missing = [it for it in names if not shutil.which(it)]
    return needs(not missing, f"no {', '.join(missing)}")


class Case(unittest.TestCase):
    """A test with a directory of its own."""

    def setUp(self):
        folder = tempfile.TemporaryDirectory()
        self.addCleanup(folder.cleanup)
        self.room = Path(folder.name).resolve()

    def put(self, name, text=""):
        path = self.room / name
        path.parent.mkdir(parents=True, exist_ok=True)
        path.write_text(text)
        return path

    def wants_fault(self, text, call, *words, **options):
        """Wants a call to raise a fault of one line, which is this text."""
        with self.assertRaises(Fault) as caught:
            call(*words, **options)
        self.assertEqual(str(caught.exception), text)

    def run_command(self, *words, **how):
        """Runs the package's commands as a user does."""
        how = {"cwd": self.room, "env": ENVIRONMENT, "timeout": LONGEST, **how}
        how = {"capture_output": True, "text": True, "stdin": subprocess.DEVNULL, **how}
        return subprocess.run([*COMMAND, *map(os.fspath, words)], check=False, **how)

    def signalled_command(self, number, *words, **how):
        """Sends a command a signal once its program has written a line, and returns its status and its last line."""
        call = [*COMMAND, *map(os.fspath, words)]
        pipes = {"stdout": subprocess.PIPE, "stderr": subprocess.PIPE, "stdin": subprocess.DEVNULL}
        with subprocess.Popen(call, **{"cwd": self.room, "env": ENVIRONMENT, "text": True, **pipes, **how}) as child:
            child.stdout.readline()
            child.send_signal(number)
            _, told = child.communicate(timeout=LONGEST)
        return child.returncode, told.splitlines()[-1]
