"""A profile of a policy, and the programs that are exported of it."""

import os
import subprocess
import tomllib
from pathlib import Path

from fuzzing.policies import opening_calls
from linux.world import Stuck

HERE = Path(__file__).resolve().parent
FLAGS = ["-Wall", "-Wextra", "-Werror"]
UNENFORCED, UNABLE, ABSENT = 125, 126, 127
DENIALS = "tcp", "ioctl_dev", "signal", "abstract_unix_socket"


class Tally:
    def __init__(self):
        self.passed = self.failed = 0

    def count(self, is_well, what):
        self.passed += is_well
        self.failed += not is_well
        if not is_well:
            print(f"failed: {what}")

    def add(self, trial, *args):
        """Makes a trial, which counts here; one failed where it comes to no end."""
        try:
            trial(self, *args)
        except (Stuck, OSError, ValueError, subprocess.SubprocessError) as error:
            self.count(False, f"{trial.__name__}: {error}")


class Profile:
    """A profile of a policy's file, which the program is asked about."""

    def __init__(self, program, policy, name):
        self.program, self.policy, self.name = program, policy, name
        self.document = tomllib.loads(policy.read_text(encoding="utf-8"))
        self.words = ["--policy", str(policy), "--profile", name]

    def asked(self, *words):
        """What the program writes."""
        return subprocess.run([self.program, *words, *self.words], stdout=subprocess.PIPE, check=True).stdout.decode()

    def layers(self):
        """The layers as the policy tells them, in the shape of the JSON."""
        kinds = {"/": "dir"} | {node["path"]: node["kind"] for node in self.document.get("node", [])}
        return [
            {
                "handled": names_of(layer["handled"]),
                "rules": [
                    {"path": it["path"], "kind": kinds[it["path"]], "rights": names_of(it["rights"])}
                    for it in layer.get("rule", [])
                ],
            }
            for layer in self.document["profile"][self.name].get("layer", [])
        ]

    def rights(self):
        """The path and the kind of each node, and the rights that all layers grant on it."""
        rows = (line.split(" ") for line in self.asked("rights").splitlines())
        return [(path, kind, set(names_of(rights))) for path, kind, rights in rows]

    def calls(self):
        return opening_calls(self.document)


def names_of(rights):
    return [] if rights == "none" else rights.split(",")


def made(folder):
    folder.mkdir(parents=True)
    return folder


def also(*places):
    return [word for place in places for word in ("--also", str(place))]


def system_places():
    """The directories of programs and libraries."""
    return [place for place in ("/usr", "/bin", "/lib", "/lib64") if os.path.isdir(place)]


def compiled(profile, room, *words, name="confined", flags=()):
    """The C program that is exported with these words."""
    source, program = room / f"{name}.c", room / name
    source.write_text(profile.asked("export", "--as", "c", *words), encoding="utf-8")
    subprocess.run(["cc", *FLAGS, *flags, "-o", program, source], check=True)
    return program


def aged(profile, room, *words):
    """The same program on a kernel that may be older, as the environment says (kernel.c)."""
    return compiled(profile, room, *words, name="aged", flags=["-Dsyscall=older_syscall", str(HERE / "kernel.c")])


def ended(confined, *words, **older):
    """How the exported program ends that runs these words: its status, and what comes to both outputs."""
    environment = os.environ | {key: str(value) for key, value in older.items()}
    run = subprocess.run([confined, *words], env=environment, capture_output=True, timeout=60)
    return run.returncode, run.stdout.decode("utf-8", "replace"), run.stderr.decode("utf-8", "replace")


def policy_of(program, room, nodes, layers):
    """The profile `it` of a new policy with these nodes, by their paths and kinds, and these layers."""
    rows = (f'{{ path = "{path}", kind = "{kind}" }}' for path, kind in nodes.items())
    policy = room / "policy.toml"
    text = f"version = 2\nabi = 3\nnode = [{', '.join(rows)}]\nprofile = {{ it = {{ layer = [{layers}] }} }}\n"
    policy.write_text(text, encoding="utf-8")
    return Profile(program, policy, "it")


def layer(handled, **rules):
    """A layer that handles these rights, and grants rights on paths."""
    rows = (f'{{ path = "{path}", rights = "{rights}" }}' for path, rights in rules.items())
    return f'{{ handled = "{handled}", rule = [{", ".join(rows)}] }}, '
