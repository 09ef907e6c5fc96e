"""What stands in docs/GUIDE.md of the way from a real program to a confined one, typed as a reader would."""

import os
import re
import subprocess
import sys

from tests.support import LONGEST, PACKAGE, PROGRAM, TOP, Case, needs_landlock, needs_strace, needs_tools

from landtree import load_policy

SECTION = "From a real program to a confined one"


def blocks():
    """The blocks of the section, each without its fences."""
    text = (TOP / "docs/GUIDE.md").read_text(encoding="utf-8")
    text = text.split(f"\n## {SECTION}\n", 1)[1].split("\n## ", 1)[0]
    return re.findall("^```[a-z]*\n(.*?)^```$", text, re.MULTILINE | re.DOTALL)


class Guide(Case):
    def setUp(self):
        super().setUp()
        self.put("bin/landtree", f'#!/bin/sh\nexec {PROGRAM} "$@"\n').chmod(0o755)
        (self.room / "bin/landtree-sandbox").symlink_to(PACKAGE / "landtree-sandbox")
        path = f"{self.room}/bin:{os.path.dirname(sys.executable)}:{os.environ['PATH']}"
        self.environment = {**os.environ, "PATH": path, "PYTHONPATH": str(PACKAGE), "PYTHONDONTWRITEBYTECODE": "1"}
        self.how = {"cwd": self.room, "env": self.environment, "timeout": LONGEST, "text": True, "check": False}

    def shell(self, script):
        merged = {"stdin": subprocess.DEVNULL, "stdout": subprocess.PIPE, "stderr": subprocess.STDOUT}
        return subprocess.run(["sh", "-c", script], **merged, **self.how)

    @needs_strace
    @needs_landlock
    @needs_tools("make", "cc")
    def test_the_whole_way(self):
        typed = [it for it in blocks() if it.startswith("$ ")]
        self.assertEqual(len(typed), 5)
        script, wanted = ["set -e"], []
        for number, block in enumerate(typed):
            lines = block.splitlines()
            shown = [it for it in lines if not it.startswith("$ ")]
            commands = [it[2:] for it in lines if it.startswith("$ ")]
            # What is shown under the last command of a block is all that it writes. It fails there.
            script += [*commands[:-1], f"echo begin {number}", commands[-1] + (" || true" if shown else "")]
            script += [f"echo end {number}"]
            wanted += [(number, shown)] if shown else []
        ended = self.shell("\n".join(script))
        self.assertEqual(ended.returncode, 0, ended.stdout)
        for number, shown in wanted:
            written = ended.stdout.split(f"begin {number}\n")[1].split(f"end {number}\n")[0]
            self.assertEqual(written.splitlines(), shown)
        self.assertTrue((self.room / "hello/build/hello").exists())
        self.assertIn(" passed, 0 failed\n", ended.stdout)
        both = "without a layer the program has ended with status 0, under the profile with 0"
        self.assertIn(f"landtree: {both}\n", ended.stdout)
        self.assertNotIn("it would be denied now", ended.stdout)
        # The compiler's temporary files are in the project, so nothing of /tmp is granted.
        policy = load_policy((self.room / "hello/make.toml").read_text())
        self.assertNotIn("/tmp", [rule.path for rule in policy.profiles["make"][0].rules])

    def test_the_policy(self):
        (program,) = [it for it in blocks() if "import" in it]
        ended = subprocess.run([sys.executable, "-c", program], capture_output=True, **self.how)
        self.assertEqual((ended.returncode, ended.stderr), (0, ""))
        policy = load_policy(ended.stdout)
        home = os.environ["HOME"]
        self.assertEqual([it.path for it in policy.profiles["build"][0].rules], ["/usr", "/etc", f"{home}/build"])
