"""Tests of policies in a mount: what is recorded is learned and confines, and what is denied is what Landlock denies."""

import os
import random
import re
import shutil
import subprocess
import sys
from pathlib import Path

from fuzzing.program import holds, same
from linux import system

from .room import HEAD, LONGEST, TOOLS, Ended, Missing, needs

PROJECTS = {
    "make": ("make gcc", "export TMPDIR=$PWD/tmp; make -s && build/a"),
    "git": ("git", "git -c user.name=a -c user.email=a@b -c gc.auto=0 commit -qam two && git log --oneline"),
    "python": ("python3", "python3 -B main.py"),
    "sqlite": ("sqlite3", "sqlite3 out/db 'create table t(a); insert into t values(1); select * from t;'"),
}


def write_project(folder, name):
    for it in ("src", "build", "tmp", "out"):
        (folder / it).mkdir(parents=True)
    (folder / "src/a.c").write_text('#include <stdio.h>\nint main(void) { puts("hi"); return 0; }\n')
    (folder / "Makefile").write_text("build/a: src/a.c\n\tgcc -o $@ $<\n")
    (folder / "main.py").write_text("import json, part\njson.dump(part.it, open('out/x', 'w'))\n")
    (folder / "part.py").write_text("it = [1]\n")
    if name == "git":
        git = "git -c user.name=a -c user.email=a@b"
        subprocess.run(f"git init -q . && git add -A && {git} commit -qm one", shell=True, check=True, cwd=folder)
        (folder / "Makefile").write_text("# changed\n")


def rules_below(text, top):
    """The rules of a policy on what is at a path or below it, as a table of rights by the path from there on."""
    rules = re.findall(r'path = "(.*)"\nrights = "(.*)"', text)
    return {path[len(top) :].strip("/"): rights for path, rights in rules if f"{path}/".startswith(f"{top}/")}


def is_straced():
    """Whether strace may be used here."""
    return shutil.which("strace") and not subprocess.run(["strace", "-o", "/dev/null", "true"], capture_output=True).returncode


def rules_by_strace(room, command):
    """The rules that the package in Python learns from a run of the command in a copy of the directory."""
    copy = room.folder / "copy"
    shutil.copytree(room.folder / "real", copy, symlinks=True)
    sandbox = str(TOOLS.parent.parent / "clients/python/landtree-sandbox")
    env = {**os.environ, "PATH": f"{Path(room.program).parent}:{os.environ['PATH']}"}

    def run(*words):
        ran = subprocess.run([sys.executable, "-B", "-I", "-S", sandbox, *words], cwd=copy, env=env, capture_output=True, text=True)
        same(ran.returncode, 0, f"how {words[0]} ends ({ran.stderr[-300:]})")
        return ran.stdout

    run("record", "--to", "../run.log", "--", "bash", "-c", command)
    run("convert", "../run.log")
    nodes = (room.folder / "run.nodes.toml").read_text()
    there = [it for it in ("/usr", "/etc", "/proc", sys.prefix) if f'path = "{it}"\n' in nodes]
    beneath = [word for it in there for word in ("--beneath", it)]
    return rules_below(run("learn", "../run.check", "--policy", "../run.nodes.toml", "--name", "p", *beneath), str(copy))


def learned_and_confined(room, name):
    programs, command = PROJECTS[name]
    needs("bash", *programs.split())
    real = room.folder / "real"
    write_project(real, name)
    begin = ["--in", real, "--save", room.history]
    same(room.run(*begin, command=["bash", "-c", command]).status, 0, "how the program ends")
    room.wants_legal()
    policy = room.learn(name)
    again = room.run(*begin, "--policy", policy, "--profile", name, command=["bash", "-c", command])
    same((again.status, again.lines), (0, []), "how it ends under what was learned")
    text = room.wants_legal()
    holds(" = denied" not in text, "a call is denied under what was learned")
    harm = room.run(*begin, "--policy", policy, "--profile", name, command=["bash", "-c", "rm src/a.c"])
    same(harm.status, 1, "how rm ends under what was learned")
    same(len(harm.lines), 1, "how many lines say that it was denied")
    holds(re.fullmatch(r"denied: rm\[\d+\]: unlink /src/a.c: EACCES layer 1 remove_file at", harm.lines[0]), harm.lines[0])
    if not is_straced():
        return "without strace's rules"
    same(rules_below(policy.read_text(), ""), rules_by_strace(room, command), "the rules of the mount and of strace")
    return "the same rules as by strace"


def make_is_learned(room, seed):
    """What make did is learned from the saved history, and make runs under it; rm is denied."""
    return learned_and_confined(room, "make")


def git_is_learned(room, seed):
    """The same with a commit."""
    return learned_and_confined(room, "git")


def python_is_learned(room, seed):
    """The same with a program of two modules."""
    return learned_and_confined(room, "python")


def sqlite_is_learned(room, seed):
    """The same with a data base."""
    return learned_and_confined(room, "sqlite")


POLICY = """
[[profile.p.layer]]
handled = "execute,write_file,read_file,read_dir,remove_dir,remove_file,make_dir,make_reg,make_sym,refer,truncate"

[[profile.p.layer.rule]]
path = "/"
rights = "read_dir"

[[profile.p.layer.rule]]
path = "/open"
rights = "execute,write_file,read_file,read_dir,remove_file,make_reg,make_sym"

[[profile.p.layer.rule]]
path = "/granted"
rights = "read_file"
"""


def policy_room(room):
    real = room.folder / "real"
    for folder in ("open", "shut", "granted", "denied"):
        (real / folder).mkdir(parents=True)
    for name in ("open/f", "open/w", "shut/f", "granted/f", "denied/f"):
        (real / name).write_text("it")
    for name in ("open/run", "shut/run"):
        (real / name).write_text("#!/bin/sh\nexit 5\n")
        (real / name).chmod(0o755)
    policy = room.folder / "policy.toml"
    policy.write_text(HEAD + POLICY)
    return ["--in", real, "--policy", policy, "--profile", "p", "--save", room.history]


def denials_are_landlocks(room, seed):
    """What a profile denies, with which errno, and one line of each kind on standard error; none with --quiet."""
    begin = policy_room(room)
    ended = room.run(*begin, "--log", "log", command=room.inside("denials"))
    wanted = {"read /open/f": "it", "write /open/f": 1, "truncate /open/f": "EACCES", "open /open/f with O_TRUNC": "EACCES"}
    wanted |= {"read /shut/f": "EACCES", "list /shut": ["f", "run"], "list /": ["denied", "granted", "open", "shut"]}
    # stat and chmod can't be denied; a rule on the root grants read_dir everywhere.
    wanted |= {"stat /shut/f": 2, "chmod /shut/f": None, "make /shut/g": "EACCES", "mkdir /shut/d": "EACCES"}
    wanted |= {"unlink /shut/f": "EACCES", "rename in /open": None, "rename to /shut": "EACCES", "link to /shut": "EACCES"}
    wanted |= {"exchange": "EACCES", "execve /open/run": 5, "execve /shut/run": "EACCES", "again": "EACCES"}
    same(ended.found(), wanted, "the outcomes")
    kinds = [re.sub(r"^denied: \S+\[\d+\]: (\S+) .*: ", r"\1 ", it) for it in ended.lines]
    same(len(kinds), len(set(kinds)), "how many kinds of denials have a line")
    holds("unlink EACCES layer 1 remove_file at" in kinds, f"which kinds have one: {kinds}")
    log = (room.folder / "log").read_text()
    same(log.count("unlink /shut/f = denied EACCES layer 1 remove_file at\n"), 51, "how many denials the log has")
    holds(re.search(r"^python3?\S*\[\d+\]: unlink /shut/f = ", log, re.MULTILINE), "the log names no process")
    room.wants_legal()
    same(room.run(*begin, "--quiet", command=room.inside("denials")).lines, [], "the lines with --quiet")
    # A process may call itself whatever it likes.
    shell = "cp $(command -v ls) ../$'\\e[1mls'; ../$'\\e[1mls'"
    room.run("--log", "log", command=["bash", "-c", shell])
    holds("\x1b" not in (room.folder / "log").read_text() and "?[1mls[" in (room.folder / "log").read_text(), "the log has an escape")
    # The log is added to.
    size = (room.folder / "log").stat().st_size
    room.run("--log", "log", command=["ls"])
    holds((room.folder / "log").stat().st_size > size, "the log has lost what it had")


def a_descriptor_keeps_its_right(room, seed):
    """What an opening found is kept, by a child too: without truncate there, ftruncate is denied."""
    ended = room.run(*policy_room(room), command=room.inside("kept_right"))
    same(ended.found(), ["EACCES", 0], "the outcomes")
    same(len(ended.lines), 1, "how many lines")
    holds(re.search(r" ftruncate 0 0: EACCES layer 1 truncate at$", ended.lines[0]), ended.lines[0])


TWO_NAMES = """
[[profile.p.layer]]
handled = "read_file,refer"

[[profile.p.layer.rule]]
path = "/granted"
rights = "read_file,refer"

[[profile.p.layer.rule]]
path = "/denied"
rights = "refer"
"""


def each_name_is_judged(room, seed):
    """A file with two names is judged by the one that was taken, also by two processes at once."""
    begin = policy_room(room)
    (room.folder / "policy.toml").write_text(HEAD + TWO_NAMES)
    shell = 'rm denied/f && ln granted/f denied/f && exec "$@"'
    ended = room.run(*begin, command=["sh", "-c", shell, "sh", *room.inside("by_two_names", 150)])
    same(ended.found(), {"granted/f": {"it": 150}, "denied/f": {"EACCES": 150}}, f"the outcomes ({ended.lines})")


RIGHTS = "execute write_file read_file read_dir remove_dir remove_file make_dir make_reg make_sym refer truncate".split()


def random_policy(chance):
    """A profile of one or two layers, with rules on the directories of the room and on a file."""
    nodes = ["/open", "/shut", "/granted", "/denied", "/open/f"]
    text = "".join(f'[[node]]\npath = "{it}"\nkind = "{"reg" if it.endswith("f") else "dir"}"\n' for it in nodes)
    for _ in range(chance.choice([1, 1, 2])):
        handled = [it for it in RIGHTS if it in ("refer", "read_dir") or chance.random() < 0.8]
        text += f'[[profile.p.layer]]\nhandled = "{",".join(handled)}"\n'
        for place in ["/", *nodes]:
            meant = [it for it in handled if not place.endswith("f") or it in ("write_file", "read_file", "truncate")]
            rights = [it for it in meant if chance.random() < (0.3 if place == "/" else 0.6)]
            if rights:
                text += f'[[profile.p.layer.rule]]\npath = "{place}"\nrights = "{",".join(rights)}"\n'
    return HEAD + text


def confined_by_the_kernel(room, policy, real, command):
    """What a command finds in a real directory under the kernel's Landlock."""
    also = {"/usr", "/lib", "/lib64", "/etc", "/proc", "/dev", sys.prefix, sys.base_prefix, str(TOOLS)}
    words = [room.program, "export", "--policy", policy, "--profile", "p", "--as", "c", "--root", real]
    words += [word for it in sorted(also) if os.path.exists(it) for word in ("--also", it)]
    text = subprocess.run(words, capture_output=True, check=True).stdout
    confine = room.folder / "confine"
    subprocess.run(["cc", "-x", "c", "-o", confine, "-"], input=text, check=True, capture_output=True)
    ran = subprocess.run([confine, *command], cwd=real, capture_output=True, text=True, timeout=LONGEST)
    return Ended(ran.returncode, ran.stdout, ran.stderr).found()


def beside_the_kernels_landlock(room, seed):
    """Random calls under random profiles: what the kernel's own Landlock denies in a real directory, the mount denies."""
    if system.landlock_level() < 3:
        raise Missing("the kernel has no Landlock of level 3")
    chance, calls, denied = random.Random(seed), 0, 0
    policy_room(room)
    policy = room.folder / "policy.toml"
    for number in range(4):
        policy.write_text(random_policy(chance))
        nodeless = room.folder / "profile.toml"
        nodeless.write_text(HEAD + "[[profile" + policy.read_text().split("[[profile", 1)[1])
        real = room.folder / f"real{number}"
        shutil.copytree(room.folder / "real", real)
        command = room.inside("under_a_profile", chance.randrange(10**9), 250)
        begin = ["--in", room.folder / "real", "--policy", nodeless, "--profile", "p", "--quiet"]
        here = room.run(*begin, "--save", room.history, command=command).found()
        there = confined_by_the_kernel(room, policy, real, command)
        same([it[0] for it in here], [it[0] for it in there], "the calls")
        for (text, mine), (_, its) in zip(here, there):
            calls += 1
            denied += mine in ("EACCES", "EXDEV")
            # Both fail, perhaps for another reason: the kernel may look at a file's kind first.
            holds(mine == its or (mine and its), f"profile {number}, {text}: {mine} here, {its} there")
        room.wants_legal()
    return f"{calls} calls, {denied} denied"


TESTS = [make_is_learned, git_is_learned, python_is_learned, sqlite_is_learned, denials_are_landlocks]
TESTS += [beside_the_kernels_landlock, a_descriptor_keeps_its_right, each_name_is_judged]
