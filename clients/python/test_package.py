#!/usr/bin/env python3
"""Tests the package beside the client: policies, commands, and the way from a real program to a confined one.

    clients/python/test_package.py [-p PROGRAM] [NAME..]

PROGRAM is the program to run, crates/landtree/out/landtree where it isn't told. With NAMEs only these tests are run, as
test_log or test_log.Logs.test_escapes. What needs strace, Landlock or Debian's packages is skipped where these are
missing, and a line says so; with LANDTREE_ALL_TESTS in the environment it fails there. The last line is
'N passed, M failed'.
"""

import os
import signal
import sys
import unittest
from pathlib import Path

sys.dont_write_bytecode = True
HERE = Path(__file__).resolve().parent
TOP = HERE.parent.parent
sys.path.insert(0, str(HERE))


def heed_signals():
    """Undoes that whoever runs this in the background ignores some signals: the tests look at what programs inherit."""
    for it in (signal.SIGHUP, signal.SIGINT, signal.SIGQUIT):
        if signal.getsignal(it) == signal.SIG_IGN:
            signal.signal(it, signal.default_int_handler if it == signal.SIGINT else signal.SIG_DFL)


def main(words):
    heed_signals()
    program = str(TOP / "crates/landtree/out/landtree")
    if words[:1] == ["-p"] and len(words) > 1:
        program = os.path.abspath(words[1])
        words = words[2:]
    os.environ["LANDTREE_PROGRAM"] = program
    loader = unittest.TestLoader()
    if words:
        tests = loader.loadTestsFromNames([f"tests.{it}" for it in words])
    else:
        tests = loader.discover(str(HERE / "tests"), top_level_dir=str(HERE))
    result = unittest.TextTestRunner(stream=sys.stdout).run(tests)
    missed = {test.id().split(" ")[0] for test, _ in result.failures + result.errors}
    skipped = {test.id().split(" ")[0]: reason for test, reason in result.skipped}
    for name, reason in skipped.items():
        print(f"skipped: {name}: {reason}")
    print(f"{result.testsRun - len(missed) - len(skipped)} passed, {len(missed)} failed")
    return 0 if result.wasSuccessful() and result.testsRun else 1


if __name__ == "__main__":
    sys.exit(main(sys.argv[1:]))
