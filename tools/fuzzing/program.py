"""The program that is tried, and what a case is."""

import subprocess
import threading
from dataclasses import dataclass, field

# Seconds after which a run is taken for one that hangs.
LONGEST = 10


class Differs(Exception):
    """The program answers otherwise than it should."""


def same(got, want, what):
    if got == want:
        return
    if isinstance(got, list):
        at = next((i for i, (a, b) in enumerate(zip(got, want)) if a != b), min(len(got), len(want)))
        what, got, want = f"{what}, line {at + 1}", got[at : at + 1], want[at : at + 1]
    raise Differs(f"{what}: {want!r:.300} is wanted, {got!r:.300} was given")


def holds(is_so, what):
    if not is_so:
        raise Differs(what)


class Talk:
    """A run of the program that is given its lines one at a time."""

    def __init__(self, words):
        pipes = {"stdin": subprocess.PIPE, "stdout": subprocess.PIPE, "stderr": subprocess.DEVNULL}
        self.process, self.is_late = subprocess.Popen(words, **pipes), False
        self.watch = threading.Timer(LONGEST, self.stop)
        self.watch.start()

    def stop(self):
        self.is_late = True
        self.process.kill()

    def ask(self, line):
        """What is answered before the next line is given; nothing where the run has ended."""
        try:
            self.process.stdin.write(f"{line}\n".encode("latin-1"))
            self.process.stdin.flush()
        except BrokenPipeError:
            return ""
        answer = self.process.stdout.readline().decode("latin-1")
        holds(answer or not self.is_late, f"no answer comes to {line!r:.99}")
        return answer.removesuffix("\n")

    def __enter__(self):
        return self

    def __exit__(self, *_):
        self.process.communicate()
        self.watch.cancel()


class Program:
    def __init__(self, path, room):
        self.path, self.room = path, room

    def ran(self, *words, text=""):
        """Its status, standard output and standard error, without hints unless they are asked for."""
        hints = [] if "--explain" in words else ["--terse"]
        try:
            how = {"input": text.encode("latin-1"), "capture_output": True, "timeout": LONGEST}
            ran = subprocess.run([self.path, *words, *hints], **how)
        except subprocess.TimeoutExpired as error:
            raise Differs(f"{words[0]} hangs") from error
        return ran.returncode, ran.stdout.decode("latin-1"), ran.stderr.decode("latin-1")

    def lines(self, *words, text="", status=0):
        """The lines that it writes where it ends well."""
        ended, out, error = self.ran(*words, text=text)
        what = f"how {words[0]} ends after writing {out[-99:]!r}"
        same((ended, error, out[-1:]), (status, "", "\n" if out else ""), what)
        return out.split("\n")[:-1]

    def talk(self, *words):
        return Talk([self.path, *words])


@dataclass
class Case:
    """The lines of a script, a schedule or a history, of which the last has no line feed; and of its policy, if any."""

    lines: list
    policy: list = field(default_factory=list)
    nodes: int = 1024
    history: int = 5000
    abi: int = 3

    def text(self):
        return "\n".join(self.lines)

    def words(self):
        return ["--nodes", str(self.nodes), "--history", str(self.history), "--abi", str(self.abi)]
