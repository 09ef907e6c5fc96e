"""Tests of how a mount is used: its words and places, what it ends with, second uses, and mounts that all see."""

import ctypes
import os
import shutil
import signal
import subprocess
import time
from contextlib import contextmanager

from fuzzing.program import holds, same

from .policies import POLICY
from .room import HEAD, LONGEST, OLD, Missing, child_of, needs


def wrong_words(room, seed):
    """Wrong words are refused with status 2 and one line; a place that doesn't fit with 125 and one line."""
    once = [f"--{it}" for it in ("in", "policy", "profile", "save", "out", "log", "wait", "bytes", "landtree")]
    values = {"--wait": "5", "--bytes": "tree"}
    mount, at = str(room.mount), str(room.at)
    wrong = [[mount, at, it, values.get(it, "x"), it, values.get(it, "x")] for it in once]
    wrong += [[mount, at, "--quiet", "--quiet"], [mount], [mount, ""], [mount, at, at], [mount, at, "--"], [mount, at, "--more"]]
    wrong += [[mount, at, it] for it in once] + [[mount, at, f"{it}="] for it in once]
    wrong += [[mount, at, "--wait", it] for it in ("0", "3601", "1x", "-1", "1e3")] + [[mount, at, "--bytes", "both"]]
    wrong += [[mount, at, "--profile", "p"], [mount, at, "--in", "--", "true"]]
    for words in wrong:
        ran = subprocess.run(words, capture_output=True, text=True, cwd=room.folder, timeout=LONGEST)
        same((ran.returncode, ran.stdout, ran.stderr.count("\n")), (2, "", 1), f"how {words[1:]} ends ({ran.stderr})")
    shown = subprocess.run([mount, "--help"], capture_output=True, text=True)
    same((shown.returncode, shown.stderr), (0, ""), "how --help ends")
    for it in [*once, "--quiet"]:
        holds(f"  {it} " in shown.stdout, f"--help doesn't say {it}")


def wrong_places(room, seed):
    """DIR must be an empty directory, files to write elsewhere, and what is read must fit."""
    file, full, link = room.folder / "file", room.folder / "full", room.folder / "link"
    file.write_text("x")
    (full / "x").mkdir(parents=True)
    link.symlink_to(room.at / "below")
    for place in (room.folder / "none", file, full, "/"):
        words = [str(room.mount), str(place), "--landtree", room.program, "--", "true"]
        ran = subprocess.run(words, capture_output=True, text=True, timeout=LONGEST)
        same((ran.returncode, ran.stderr.count("\n")), (125, 1), f"how DIR {place} ends")
    for option in ("--save", "--log", "--out"):
        for place in (room.at / "x", room.at, "m/../m/x", link, "none/x"):
            ended = room.run(option, place)
            same((ended.status, len(ended.lines)), (125, 1), f"how {option} {place} ends")
        same(os.listdir(room.at), [], "what is below DIR")
    bad = room.folder / "bad.toml"
    bad.write_text("version = 3\n")
    policy = room.folder / "policy.toml"
    policy.write_text(HEAD + POLICY)
    wrong = [["--in", "none"], ["--in", file], ["--policy", "none"], ["--policy", bad], ["--policy", policy, "--profile", "q"]]
    wrong += [["--policy", policy, "--profile", "p"], ["--landtree", "none"], ["--landtree", file], ["--landtree", "/bin/true"]]
    wrong += [["--out", full], ["--out", file]]
    for options in wrong:
        room.history.write_text(OLD)
        ended = room.run(*options, *([] if "--save" in options else ["--save", room.history]))
        same((ended.status, len(ended.lines)), (125, 1), f"how {options} ends ({ended.error})")
        # A refused profile is saved by landtree's own rule.
        if "p" not in options:
            same(room.history.read_text(), OLD, "the history of an earlier run")
    same([it.name for it in room.folder.glob("history.part*")], [], "the drafts")


def what_does_not_fit(room, seed):
    """A directory that doesn't fit into a tree is refused with a line that names what doesn't; nothing is run."""
    def names(real):
        for number in range(1_025):
            (real / f"{number}").touch()

    def nodes(real):
        for number in range(5):
            (real / f"{number}").mkdir()
            for inner in range(900):
                (real / f"{number}/{inner}").touch()

    def depth(real):
        (real / "/".join("d" * 65)).mkdir(parents=True)

    cases = {
        "--in: /big has over 65,536 bytes": lambda real: (real / "big").write_bytes(bytes(65_537)),
        "--in: / has more than 1,024 names": names,
        "--in: /4/": nodes,
        "is more than 64 names deep": depth,
        "has too long a name": lambda real: (real / ("ä" * 100)).touch(),
    }
    for number, (line, fill) in enumerate(cases.items()):
        real = room.folder / f"real{number}"
        real.mkdir()
        fill(real)
        ended = room.run("--in", real, command=["touch", "../ran"])
        same((ended.status, len(ended.lines)), (125, 1), f"how it ends ({ended.error})")
        holds(line in ended.lines[0], f"{line} is wanted, {ended.lines[0][:200]} is said")
        holds(not (room.folder / "ran").exists(), "the command was run")
    ended = room.run("--in", room.folder / "real0", "--bytes", "mount", command=["sh", "-c", "wc -c <big"])
    same((ended.status, ended.out.strip()), (0, "65537"), "how it ends with the mount's bytes")
    policy = room.folder / "clash.toml"
    policy.write_text(HEAD + '[[node]]\npath = "/big"\nkind = "dir"\n')
    ended = room.run("--in", room.folder / "real0", "--bytes", "mount", "--policy", policy)
    same((ended.status, len(ended.lines)), (125, 1), "how it ends if a node is in both")


def statuses(room, seed):
    """It ends with the command's status."""
    shells = {"exit 0": 0, "exit 7": 7, "kill -9 $$": 137, "kill -15 $$": 143, "exit 125": 125}
    for shell, status in shells.items():
        same(room.run(command=["sh", "-c", shell]).status, status, f"how {shell} ends")
    for command, status in (("none", 127), ("./none", 127), ("/etc/passwd", 126), ("/", 126)):
        ended = room.run(command=[command])
        same((ended.status, len(ended.lines)), (status, 1), f"how {command} ends")
    run = room.start(command=["sleep", "30"])
    child_of(run.pid, "sleep")
    run.send_signal(signal.SIGTERM)
    same(room.end(run).status, 143, "how it ends if it gets TERM")
    ended = room.run(command=["sh", "-c", "pwd; echo $PWD; ls -a; readlink /proc/self/cwd"])
    same(ended.out.split(), [str(room.at)] * 2 + [".", "..", str(room.at)], "where the command runs")


def second_uses(room, seed):
    """The same history is replaced as a whole, and the same directory is mounted at again; --out only makes a new one."""
    real, out = room.folder / "real", room.folder / "out"
    (real / "a b").mkdir(parents=True)
    (real / "a b/ä%").write_text("text")
    (real / "run").write_text("#!/bin/sh\n")
    (real / "run").chmod(0o750)
    (real / "link").symlink_to("no where")
    os.mkfifo(real / "fifo")
    odd = "q\"u'o\\te\n%41 \x01\x7fä]]"
    (real / odd).write_text("odd")
    os.utime(real / "a b/ä%", ns=(1, 1234567890123456789))
    os.utime(real / "a b", ns=(1, 987654321))
    for kept in ("tree", "mount"):
        room.history.write_text(OLD)
        words = ["--in", real, "--save", room.history, "--out", out, "--bytes", kept]
        shell = "echo more >>run; ln run second; echo new >new; rm fifo; cat 'a b/ä%'"
        ended = room.run(*words, command=["sh", "-c", shell])
        same((ended.status, ended.error, ended.out), (0, "", "text"), "how it ends")
        room.wants_legal()
        same(sorted(os.listdir(out)), sorted(["a b", "link", "new", "run", "second", odd]), "what is copied")
        same((out / odd).read_text(), "odd", "a file with an odd name")
        same(((out / "run").read_text(), (out / "run").stat().st_mode & 0o777), ("#!/bin/sh\nmore\n", 0o750), "a file")
        same((out / "run").stat().st_ino, (out / "second").stat().st_ino, "a file of two names")
        same(os.readlink(out / "link"), "no where", "a link")
        same(((out / "a b/ä%").stat().st_mtime_ns, (out / "a b").stat().st_mtime_ns), (1234567890123456789, 987654321), "times")
        again = room.run(*words)
        same((again.status, len(again.lines)), (125, 1), "how a second copy to the same place ends")
        shutil.rmtree(out)
        out.with_name("out.part").mkdir()
        same(room.run(*words).status, 125, "how a copy ends if there is a draft of another one")
        out.with_name("out.part").rmdir()
        out.mkdir()
        same(room.run(*words, command=["true"]).status, 0, "how a copy into an empty directory ends")
        shutil.rmtree(out)
    same(sorted(os.listdir(real)), sorted(["a b", "fifo", "link", "run", odd]), "the directory of --in")
    # Two at the same time, at the same directory.
    runs = [room.start("--save", room.history, command=["sh", "-c", "touch x; sleep 0.3; ls"]) for _ in range(2)]
    same([(it.status, it.out) for it in map(room.end, runs)], [(0, "x\n")] * 2, "how two at once end")
    room.wants_legal()


def policies_with_nodes(room, seed):
    """A policy's own nodes are there with their bytes, whoever keeps them, and directories may be in both."""
    real, policy = room.folder / "real", room.folder / "nodes.toml"
    (real / "both").mkdir(parents=True)
    (real / "both/mine").write_text("m")
    nodes = '[[node]]\npath = "/both"\nkind = "dir"\n[[node]]\npath = "/both/its"\nkind = "reg"\ndata = "697473"\n'
    policy.write_text(HEAD + nodes + '[[node]]\npath = "/link"\nkind = "sym"\n')
    shell = "cat both/its both/mine; echo; printf IT | dd of=both/its conv=notrunc status=none; cat both/its; readlink link"
    for kept in ("tree", "mount"):
        words = ["--policy", policy, "--in", real, "--bytes", kept, "--save", room.history, "--out", room.folder / kept]
        ended = room.run(*words, command=["sh", "-c", shell])
        same((ended.status, ended.out), (1, "itsm\nITs"), f"how it ends ({ended.error})")
        same((room.folder / kept / "both/its").read_text(), "ITs", "what is copied")
        # What the mount has read of the policy isn't in the history.
        holds("2 read" not in room.wants_legal().split("stat /link")[0].split("2 connect")[1][:200], "the history")


@contextmanager
def seen_by_all(room, *options):
    """A mount without a command. It ends with this process, whatever ends that."""
    run = room.start(*options, preexec_fn=lambda: ctypes.CDLL(None).prctl(1, signal.SIGKILL))
    try:
        for _ in range(500):
            if os.path.ismount(room.at) or run.poll() is not None:
                break
            time.sleep(0.01)
        holds(os.path.ismount(room.at), "it isn't mounted")
        yield run
    finally:
        if run.poll() is None:
            run.kill()
            run.communicate()
        subprocess.run(["umount", "-l", room.at], capture_output=True)


def without_a_command(room, seed):
    """Without a command the mount stays until it is unmounted, or a signal comes, which ends it even if it is in use."""
    if os.getuid() != 0:
        raise Missing("only root may mount for all")
    for end in (None, signal.SIGTERM, signal.SIGINT):
        with seen_by_all(room, "--save", room.history) as run:
            (room.at / "x").write_text("it")
            same((room.at / "x").read_text(), "it", "what was written")
            if end:
                run.send_signal(end)
            else:
                subprocess.run(["umount", room.at], check=True)
            ended = room.end(run)
        same((ended.status, ended.error, os.listdir(room.at)), (0, "", []), "how it ends")
        room.wants_legal()
    with seen_by_all(room, "--save", room.history) as run:
        kept = os.open(room.at / "x", os.O_WRONLY | os.O_CREAT)
        run.send_signal(signal.SIGTERM)
        ended = room.end(run)
        same((ended.status, len(ended.lines)), (0, 1), "how it ends in use")
        holds(f"[{os.getpid()}]" in ended.lines[0], f"its user isn't named: {ended.lines[0]}")
        try:
            os.close(kept)
        except OSError:
            pass  # it isn't connected any more
        same(os.path.ismount(room.at), False, "whether it is still mounted")
        room.wants_legal()


def in_a_user_namespace(room, seed):
    """Without the right to mount, a user namespace gives it."""
    needs("setpriv")
    command = room.words("--save", room.history, command=["sh", "-c", "id -u; echo a >x; cat x"])
    words = ["setpriv", "--bounding-set=-sys_admin", "--inh-caps=-all", *command]
    ran = subprocess.run(words, capture_output=True, text=True, cwd=room.folder, timeout=LONGEST)
    if "Operation not permitted" in ran.stderr:
        raise Missing("there are no user namespaces")
    same((ran.returncode, ran.stdout, ran.stderr), (0, f"{os.getuid()}\na\n", ""), "how it ends")
    room.wants_legal()


TESTS = [wrong_words, wrong_places, what_does_not_fit, statuses, second_uses, policies_with_nodes, without_a_command]
TESTS += [in_a_user_namespace]
