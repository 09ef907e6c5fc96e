"""Tests that a mount never hangs: a tree, a mount or a command that is stopped, killed or left behind."""

import os
import signal
import time
from pathlib import Path

from fuzzing.program import holds, same

from .room import LONGEST, Missing, behind_proxy, child_of, proxied


def ready(room, run):
    same(run.stdout.readline(), "ready\n", "what the command says")
    return child_of(run.pid, "landtree")


def with_lost_tree(room, end, options, acts, wanted, line, longest):
    """A tree that a signal ends, or stops, while a command makes calls."""
    go = room.folder / "go"
    run = room.start("--save", room.history, *options, command=room.inside("wait_for", go, acts))
    tree = ready(room, run)
    os.kill(tree, end)
    began = time.monotonic()
    go.touch()
    ended = room.end(run)
    outcomes, seconds = ended.found()
    same(outcomes, wanted, "what the command sees")
    holds(seconds < longest, f"it waits for {seconds} s")
    same((ended.status, len(ended.lines)), (125, 2), f"how it ends ({ended.error})")
    holds(line in ended.lines[0], f"what it says: {ended.lines[0]}")
    holds("history.part" in ended.lines[1], f"what it says: {ended.lines[1]}")
    holds(time.monotonic() - began < longest + 6, "it takes long to end")
    same(room.history.exists(), False, "whether the history is saved")
    room.wants_legal(room.folder / "history.part", cut=True)
    (room.folder / "history.part").unlink()
    go.unlink()


def a_killed_tree(room, seed):
    """Every call fails with EIO once the tree is gone; the part that was saved is legal."""
    with_lost_tree(room, signal.SIGKILL, [], "list,make,list", ["EIO"] * 3, "landtree has ended", 8)


def a_stopped_tree(room, seed):
    """A call that gets no reply in time fails with EIO, and all after it at once."""
    with_lost_tree(room, signal.SIGSTOP, ["--wait", "1"], "list,make,list", ["EIO"] * 3, "no reply in 1 s (list /)", 8)


def a_lying_tree(room, seed):
    """The mount doesn't wait for replies that it knows; if another one comes, every call fails from then on."""
    here = behind_proxy(room)
    ended = here.run(command=here.inside("lied_to"), **proxied(room))
    same((ended.found(), ended.status, len(ended.lines)), (["EIO", "EIO"], 125, 1), f"how it ends ({ended.error})")
    holds("answers stat 99 reg 7 1 where only refused 3 ENOENT is right" in ended.lines[0], ended.lines[0])


def an_interrupted_program(room, seed):
    """A program that waits for a stopped tree can be killed: at the latest when the time for the reply is over."""
    for end in (signal.SIGINT, signal.SIGKILL):
        run = room.start("--wait", "1", command=room.inside("wait_for", room.folder / "go", "list"))
        tree = ready(room, run)
        os.kill(tree, signal.SIGSTOP)
        (room.folder / "go").touch()
        time.sleep(0.3)
        began = time.monotonic()
        [command] = [int(it) for it in Path(f"/proc/{run.pid}/task/{run.pid}/children").read_text().split() if int(it) != tree]
        os.kill(command, end)
        ended = room.end(run)
        holds(time.monotonic() - began < 12, "it takes long to end")
        same(ended.status, 125, "how it ends")
        (room.folder / "go").unlink()


def a_killed_mount(room, seed):
    """Without the mount nothing is left of it; what the tree has answered is a legal record."""
    run = room.start("--save", room.history, command=room.inside("wait_for", room.folder / "go", "list"))
    tree = ready(room, run)
    [command] = [int(it) for it in Path(f"/proc/{run.pid}/task/{run.pid}/children").read_text().split() if int(it) != tree]
    run.kill()
    run.communicate(timeout=LONGEST)
    for _ in range(500):
        if not any(Path(f"/proc/{it}/exe").exists() for it in (tree, command)):
            break
        time.sleep(0.01)
    same([it for it in (tree, command) if Path(f"/proc/{it}/exe").exists()], [], "which processes are left")
    same(os.listdir(room.at), [], "what is left in DIR")
    part = room.folder / "history.part"
    room.wants_legal(part if part.exists() else room.history, cut=True)
    # The next one begins anew.
    same(room.run("--save", room.history).status, 0, "how the next one ends")


def a_busy_mount(room, seed):
    """What the command has left, and has a file open, keeps nothing up: the mount is detached, and a line says by whom."""
    shell = "echo a >x; exec 5<x; sleep 30 >/dev/null 2>&1 & echo $!"
    began = time.monotonic()
    ended = room.run("--save", room.history, command=["bash", "-c", shell])
    pid = int(ended.out)
    try:
        holds(time.monotonic() - began < 12, "it takes long to end")
        same((ended.status, len(ended.lines)), (0, 1), f"how it ends ({ended.error})")
        holds(f"sleep[{pid}]" in ended.lines[0] and "detached" in ended.lines[0], f"what it says: {ended.lines[0]}")
        room.wants_legal()
    finally:
        os.kill(pid, signal.SIGKILL)


def a_mount_in_another_namespace(room, seed):
    """What the command has left in a mount namespace of its own keeps nothing up either."""
    if os.getuid() != 0:
        raise Missing("only root may have further namespaces")
    shell = f"cd /; unshare -m --propagation private sleep 30 >/dev/null 2>&1 & sleep 0.2; echo $!; ls {room.at}"
    ended = room.run("--save", room.history, command=["bash", "-c", shell])
    try:
        same(ended.status, 0, f"how it ends ({ended.error})")
        room.wants_legal()
    finally:
        os.kill(int(ended.out.split()[0]), signal.SIGKILL)


def an_unmounted_mount(room, seed):
    """The command may unmount it itself, and goes on without it."""
    ended = room.run("--save", room.history, command=["sh", "-c", f"touch x; cd /; umount {room.at}; exit 4"])
    same((ended.status, len(ended.lines)), (4, 1), f"how it ends ({ended.error})")
    room.wants_legal()


def a_full_history(room, seed):
    """Once the history is full every call fails with EIO, and one line says so; the history is saved, and legal."""
    here = behind_proxy(room)
    ended = here.run("--save", room.history, command=here.inside("fill", 1_000), **proxied(room, LANDTREE_HISTORY="200"))
    number, first, then = ended.found()
    holds(30 < number < 100, f"it is full after {number} directories")
    same((first, then, ended.status, len(ended.lines)), ("EIO", "EIO", 0, 1), f"how it ends ({ended.error})")
    holds("the history is full" in ended.lines[0], f"what it says: {ended.lines[0]}")
    same(room.wants_legal().count("\n"), 201, "how many entries are saved")


def a_log_that_ends(room, seed):
    """A log that can't be written is said at the end."""
    if not os.path.exists("/dev/full"):
        raise Missing("there is no /dev/full")
    ended = room.run("--log", "/dev/full", command=["ls"])
    same((ended.status, len(ended.lines)), (125, 1), f"how it ends ({ended.error})")


TESTS = [a_killed_tree, a_stopped_tree, a_lying_tree, an_interrupted_program, a_killed_mount, a_busy_mount]
TESTS += [a_mount_in_another_namespace, an_unmounted_mount, a_full_history, a_log_that_ends]
