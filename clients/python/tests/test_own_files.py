"""What `exec` says of files that its next start uses, and that the profile lets the program change."""

import os
import shutil
import subprocess
import sys

from tests.support import LONGEST, PACKAGE, PROGRAM, Case, needs_landlock

from landtree import Policy

SAID = "landtree: the profile lets the program change {}: the next start uses what is there then\n"


@needs_landlock
class OwnFiles(Case):
    def setUp(self):
        super().setUp()
        self.put("work/f")
        self.policy = Policy(variables={})
        self.layer = self.policy.layer("p", "all")
        self.policy.allow(self.layer, ["/usr", "/etc"], "read, execute")

    def told(self, *options, file="policy.toml", command=None, program=PROGRAM):
        path = self.put(file, self.policy.dumps())
        words = ["exec", "--program", program, "--policy", path, "--profile", "p", *options, "--", "true"]
        if command:
            how = {"cwd": self.room, "capture_output": True, "text": True, "timeout": LONGEST, "check": False}
            ended = subprocess.run([sys.executable, "-I", "-S", command, *map(os.fspath, words)], **how)
        else:
            ended = self.run_command(*words)
        self.assertEqual((ended.returncode, ended.stdout), (0, ""), ended.stderr)
        return ended.stderr

    def test_nothing(self):
        self.policy.allow(self.layer, self.room / "work", "read, write, make")
        self.assertEqual(self.told(), "")

    def test_the_policy(self):
        self.policy.allow(self.layer, self.room / "work", "write_file")
        said = SAID.format(self.room / "work/policy.toml")
        self.assertEqual(self.told(file="work/policy.toml"), said)
        self.assertEqual(self.told("--quiet", file="work/policy.toml"), "")

    def test_by_rename(self):
        self.policy.allow(self.layer, self.room, "remove_dir, make_dir")
        self.assertEqual(self.told(file="work/policy.toml"), SAID.format(self.room / "work/policy.toml"))
        self.assertEqual(self.told(), "")

    def test_under_a_map(self):
        self.policy.allow(self.layer, "/w", "write_file")
        said = SAID.format(self.room / "work/policy.toml")
        self.assertEqual(self.told("--map", f"/w={self.room}/work", file="work/policy.toml"), said)

    def test_the_program_and_the_package(self):
        self.policy.allow(self.layer, self.room / "work", "write_file")
        fake = self.put("work/landtree", f'#!/bin/sh\nexec {PROGRAM} "$@"\n')
        fake.chmod(0o755)
        self.assertEqual(self.told(program=fake), SAID.format(fake))
        self.assertEqual(self.told(program=fake, file="work/p.toml"), SAID.format(f"{self.room}/work/p.toml, {fake}"))
        shutil.copytree(PACKAGE / "landtree", self.room / "work/package/landtree")
        shutil.copy(PACKAGE / "landtree-sandbox", self.room / "work/package/landtree-sandbox")
        said = self.told(command=self.room / "work/package/landtree-sandbox")
        self.assertEqual(said, SAID.format(self.room / "work/package/landtree"))
