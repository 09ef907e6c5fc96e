"""Tests of what runs in a mount: real programs, random calls beside another file system, and races of renames."""

import os
import shutil
import tempfile
from pathlib import Path

from fuzzing.program import holds, same

from .programs import LIMITED, SAMPLE, STEPS
from .room import needs


def run_steps(room, kept, steps):
    """Runs the steps in a mount; the names of those that fail."""
    script = ["exec 3>&1 1>/dev/null", SAMPLE]
    for number, (_, _, step) in enumerate(steps):
        script.append(f"if (set -e; {step}\n) 2>../last.{number}; then echo {number} >&3; fi")
    ended = room.run("--save", room.history, "--bytes", kept, "--quiet", command=["bash", "-c", "\n".join(script)])
    passed = {int(it) for it in ended.out.split()}
    same(ended.status, 0, f"how the steps end ({ended.error[-300:]})")
    room.wants_legal()
    return {name for number, (name, _, _) in enumerate(steps) if number not in passed}


def steps_with(room, kept, names=None):
    steps = [it for it in STEPS if (names is None or it[0] in names) and all(map(shutil.which, it[1].split()))]
    left = [it[0] for it in STEPS if (names is None or it[0] in names) and it not in steps]
    failed = run_steps(room, kept, steps)
    tells = {it: (room.folder / f"last.{[s[0] for s in steps].index(it)}").read_text()[-200:] for it in failed}
    same(failed, LIMITED[kept] & {it[0] for it in steps}, f"which steps fail ({tells})")
    return f"{len(steps)} steps, of which {len(failed)} meet a limit{', without ' + ', '.join(left) if left else ''}"


def programs_with_the_trees_bytes(room, seed):
    """git, make, gcc, sqlite3, Python and more: only those fail that meet a limit of the tree."""
    needs("bash")
    return steps_with(room, "tree")


def programs_with_the_mounts_bytes(room, seed):
    """Files may be larger if the mount has their bytes."""
    needs("bash")
    chosen = {"cp -a", "make and gcc", "tempfile, mmap, shutil", "sqlite3 with a journal", "git init, add, commit, log"}
    chosen |= {"git clone by hard links", *LIMITED["tree"]}
    return steps_with(room, "mount", chosen)


def random_calls(room, seed):
    """Some thousand random calls give in the mount what they give beside it."""
    chance, count, failed = seed * 1_000, 2_500, 0
    with tempfile.TemporaryDirectory(dir="/dev/shm" if os.access("/dev/shm", os.W_OK) else None) as beside:
        for number, kept in enumerate(("tree", "mount")):
            other = Path(beside) / kept
            other.mkdir()
            ended = room.run("--bytes", kept, "--save", room.history, command=room.inside("random_calls", other, chance + number, count))
            found = ended.found()
            same((found["differs"], ended.status), (None, 0), f"seed {chance + number} with --bytes {kept}")
            failed += found["failed"]
            room.wants_legal()
    return f"{2 * count} calls, of which {failed} fail on both sides"


def races_of_renames(room, seed):
    """For 3 seconds two move a directory against each other and one exchanges its parents; nobody sees wrong bytes."""
    ended = room.run("--save", room.history, command=room.inside("race", 3))
    found = ended.found()
    seen = {"in it": {"here", "ENOENT"}, "one way": {"done", "ENOENT"}, "the other": {"done", "ENOENT"}}
    for name, wanted in {**seen, "exchange": {"0"}, "read": {"here", "ENOENT"}}.items():
        same(set(found[name]) - wanted, set(), f"what {name} sees")
    holds(found["one way"].get("done") and found["read"].get("here"), "nothing is moved, or nothing is read")
    room.wants_legal()
    return f"{sum(sum(it.values()) for it in found.values())} calls"


TESTS = [programs_with_the_trees_bytes, programs_with_the_mounts_bytes, random_calls, races_of_renames]
