"""From a real program to a confined one, for each of ten programs.

A program is recorded, its profile is learned, and it is run under this profile by the kernel: it must end as it did
unconfined, and the kernel may deny no call. Then single rights are left out, 100 of all programs: each time the kernel
must deny a call.
"""

import hashlib
import os
import random
import shutil
import stat
import subprocess
import sys

from tests.programs import TRIALS
from tests.support import LONGEST, PACKAGE, PROGRAM, Case, needs, needs_landlock, needs_strace

from landtree import Commands, read_policy
from landtree.denials import ENFORCED, denied_of, refused
from landtree.tour import ENTRY
from landtree.trace import convert
from landtree.trace.reader import TRACED
from landtree.trace.recording import strace_words
from landtree.values import SINGLE_RIGHTS

SAMPLE = 100
EACH = SAMPLE // len(TRIALS)


def left(folder, is_same):
    """What a program has left: paths, kinds and bytes, or of some only that they are there."""
    found = set()
    for path in sorted(folder.rglob("*")):
        mode = os.lstat(path).st_mode
        data = hashlib.sha256(path.read_bytes()).hexdigest() if stat.S_ISREG(mode) and is_same else ""
        found.add((str(path.relative_to(folder)), stat.S_IFMT(mode), data))
    return found


@needs_strace
@needs_landlock
class WholeWay(Case):
    def setUp(self):
        super().setUp()
        self.commands = Commands(PROGRAM, timeout=LONGEST)
        self.work = self.room / "work"
        self.policy = self.room / "policy.toml"

    def fresh(self, trial):
        shutil.rmtree(self.work, ignore_errors=True)
        self.work.mkdir()
        trial.fill(self.work)

    def run_words(self, words):
        streams = {"stdin": subprocess.DEVNULL, "stdout": subprocess.PIPE, "stderr": subprocess.PIPE}
        ended = subprocess.run(words, cwd=self.work, timeout=LONGEST, check=False, **streams)
        return ended.returncode, ended.stdout, ended.stderr

    def unconfined(self, trial):
        self.fresh(trial)
        return self.run_words(trial.words), left(self.work, trial.is_same)

    def learn(self, trial):
        """Records a program, and learns its profile."""
        self.fresh(trial)
        log = self.room / "run.log"
        record_words = [sys.executable, "-I", "-S", "-c", ENTRY, PACKAGE, "record", "--to", log, "--", *trial.words]
        self.run_words([os.fspath(it) for it in record_words])
        converted = convert(log)
        self.assertEqual(converted.told(), [])
        nodes, checks = self.room / "nodes.toml", self.room / "run.check"
        converted.write(nodes, checks)
        learned = self.commands.learn([checks], nodes)
        self.policy.write_text(f"{converted.nodes}\n{learned.profile}")
        checked = self.commands.check([checks], self.policy, "learned")
        self.assertTrue(checked.is_well, checked)
        return log

    def confined(self, trial, policy, log):
        self.fresh(trial)
        call = [sys.executable, "-I", "-S", "-c", ENTRY, str(PACKAGE), "exec", f"--program={PROGRAM}"]
        call += ["--quiet", f"--policy={policy}", "--profile=learned", "--", *trial.words]
        ended = self.run_words([*strace_words(log, [*TRACED, ENFORCED]), *call])
        return ended, left(self.work, trial.is_same)

    def left_out(self):
        """Returns each right of each rule."""
        (layer,) = read_policy(self.policy).profiles["learned"]
        return [(number, it) for number, rule in enumerate(layer.rules) for it in SINGLE_RIGHTS if it in rule.rights]

    def without(self, number, right):
        """Writes the policy without one right of one rule, and returns the rule's path and the file."""
        policy = read_policy(self.policy)
        (layer,) = policy.profiles["learned"]
        rule = layer.rules[number]
        rule.rights &= ~right
        layer.rules = [it for it in layer.rules if it.rights]
        return rule.path, self.put("less.toml", policy.dumps())

    def go(self, trial):
        wanted = self.unconfined(trial)
        recorded = refused(self.learn(trial))
        log = self.room / "confined.log"
        self.assertEqual(self.confined(trial, self.policy, log), wanted)
        self.assertEqual(denied_of(log, recorded), [])
        chosen = self.left_out()
        random.Random(trial.name).shuffle(chosen)
        self.assertGreaterEqual(len(chosen), EACH)
        for number, right in chosen[:EACH]:
            path, less = self.without(number, right)
            less_log = self.room / "less.log"
            (status, _, told), _ = self.confined(trial, less, less_log)
            if status == 126 and told.startswith(b"landtree: "):
                continue  # The kernel has denied the execution of the program itself.
            with self.subTest(path=path, right=str(right)):
                self.assertNotEqual(denied_of(less_log, recorded), [], told)


def add_test(trial):
    missing = [it for it in trial.tools if not shutil.which(it)]

    @needs(not missing, f"no {', '.join(missing)}")
    def test(self):
        self.go(trial)

    setattr(WholeWay, f"test_{trial.name.replace(' ', '_')}", test)


for it in TRIALS:
    add_test(it)
