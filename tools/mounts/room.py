"""A mount that is tried: how it is started, what it answers, and the audit of its history."""

import json
import os
import shutil
import subprocess
import sys
import time
from pathlib import Path

from fuzzing.program import Differs, holds, same

TOOLS = Path(__file__).resolve().parent
HEAD = "version = 2\nabi = 3\n"
# Seconds after which a run is taken for one that hangs.
LONGEST = 50
OLD = "the history of an earlier run\n"


class Missing(Exception):
    """Something that a test needs isn't there."""


class Ended:
    """How a run has ended."""

    def __init__(self, status, out, error):
        self.status, self.out, self.error = status, out, error
        self.lines = [it for it in error.splitlines() if it.startswith(("landtree-mount: ", "denied: "))]

    def found(self):
        holds(self.out, f"nothing is found: {self.error[-600:]}")
        return json.loads(self.out.splitlines()[-1])


class Room:
    """A folder of a test, with a directory to mount at."""

    def __init__(self, mount, program, folder):
        self.mount, self.program, self.folder = mount, program, Path(folder)
        self.at, self.history = self.folder / "m", self.folder / "history"
        self.at.mkdir()

    def words(self, *options, command=None):
        words = [str(self.mount), str(self.at), *map(str, options)]
        words += [] if "--landtree" in options else ["--landtree", self.program]
        return words + (["--", *command] if command else [])

    def start(self, *options, command=None, **how):
        pipes = {"stdout": subprocess.PIPE, "stderr": subprocess.PIPE, "stdin": subprocess.DEVNULL, "text": True}
        return subprocess.Popen(self.words(*options, command=command), cwd=self.folder, **{**pipes, **how})

    def end(self, run, longest=LONGEST):
        try:
            out, error = run.communicate(timeout=longest)
        except subprocess.TimeoutExpired as late:
            run.kill()
            out, error = run.communicate()
            raise Differs(f"it hangs: {error[-600:]}") from late
        holds("Sanitizer" not in error and "runtime error" not in error, f"memory is used wrongly: {error[-2000:]}")
        return Ended(run.returncode, out, error)

    def run(self, *options, command=("true",), longest=LONGEST, **how):
        return self.end(self.start(*options, command=command, **how), longest)

    def inside(self, name, *words):
        """The words that call a function of tools/mounts/inside.py."""
        return [sys.executable, "-B", str(TOOLS / "inside.py"), name, *map(str, words)]

    def wants_legal(self, file=None, cut=False):
        text = Path(file or self.history).read_text()
        text = text.rpartition("\n")[0] + "\n" if cut else text
        audit = subprocess.run([self.program, "audit", "-"], input=text, capture_output=True, text=True)
        same(audit.stdout, f"legal {text.count(chr(10)) - 1}\n", "the audit of the history")
        return text

    def learn(self, name):
        words = [self.program, "learn", "--history", str(self.history), "--name", name]
        learned = subprocess.run(words, capture_output=True, text=True)
        same((learned.returncode, learned.stderr), (0, ""), "how learn ends")
        policy = self.folder / f"{name}.toml"
        policy.write_text(HEAD + learned.stdout)
        return policy


def needs(*programs):
    for it in programs:
        if not shutil.which(it):
            raise Missing(f"there is no {it}")


def child_of(pid, name):
    """The child of this name, once it is there."""
    for _ in range(500):
        for it in Path(f"/proc/{pid}/task/{pid}/children").read_text().split():
            if Path(f"/proc/{it}/comm").read_text().strip() == name:
                return int(it)
        time.sleep(0.01)
    raise Differs(f"{name} isn't started")


def behind_proxy(room):
    """The same room, where the tree is behind tools/mounts/proxy.py."""
    here = Room.__new__(Room)
    here.__dict__.update(room.__dict__, program=str(TOOLS / "proxy.py"))
    return here


def proxied(room, **environment):
    return {"env": {**os.environ, "LANDTREE_REAL": room.program, **environment}}
