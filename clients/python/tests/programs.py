"""The programs with which the whole way is tried: what lies there at first, and how each is run."""

import os
import subprocess
from dataclasses import dataclass
from pathlib import Path
from typing import Callable, Sequence

EVERY_CALL = Path(__file__).resolve().parent / "every_call.py"
PYTHON = "/usr/bin/python3"


def put(folder, **files):
    """Writes files; two underscores in a name stand for a slash, and one for a full stop."""
    for name, text in files.items():
        path = folder / name.replace("__", "/").replace("_", ".")
        path.parent.mkdir(parents=True, exist_ok=True)
        path.write_text(text)


def small_project(folder):
    put(folder, src__main_c='int answer(void);\nint main(void) { return answer() - 42; }\n')
    put(folder, src__answer_c='#include "answer.h"\nint answer(void) { return 42; }\n')
    put(folder, src__answer_h="int answer(void);\n")
    rule = "build/%.o: src/%.c\n\t$(CC) -c -o $@ $<\n"
    text = f"all: build/main\n\tbuild/main\nbuild/main: build/main.o build/answer.o\n\t$(CC) -o $@ $^\n{rule}"
    put(folder, Makefile=text)
    (folder / "build").mkdir()


def unit_tests(folder):
    test = "import json, tempfile, unittest\n\nclass Tests(unittest.TestCase):\n    def test(self):\n"
    test += "        with tempfile.TemporaryFile(dir='.') as file:\n            file.write(json.dumps([1]).encode())\n"
    put(folder, test_it_py=test)


def archive(folder):
    put(folder, made__a="a", made__b__c="c")
    subprocess.run(["tar", "--mtime=@0", "-cf", "it.tar", "made"], cwd=folder, check=True)
    subprocess.run(["rm", "-r", "made"], cwd=folder, check=True)


def repository(folder):
    put(folder, old__f="1\n")
    who = ["-c", "user.name=a", "-c", "user.email=a@example", "-c", "init.defaultBranch=main"]
    dates = {**os.environ, "GIT_AUTHOR_DATE": "2026-01-01T00:00Z", "GIT_COMMITTER_DATE": "2026-01-01T00:00Z"}
    for words in (["init", "-q"], ["add", "."], ["commit", "-qm", "one"]):
        subprocess.run(["git", *who, *words], cwd=folder / "old", check=True, env=dates)


def patched(folder):
    put(folder, f="one\ntwo\n", change="--- f\n+++ f\n@@ -1,2 +1,2 @@\n one\n-two\n+three\n")


def some_files(folder):
    put(folder, from__a="a", from__b__c="c")
    (folder / "from/link").symlink_to("a")
    (folder / "from/d e").mkdir()
    os.mkfifo(folder / "from/fifo")
    (folder / "to").mkdir()


def every_call(folder):
    for name in ("in", "sub", "left", "right", "full", "empty", "tree", "odd dir"):
        (folder / name).mkdir()
    names = ["sub/file", "move", "linked", "left/a", "right/b", "gone", "full/x", "tree/leaf", "odd dir/a \u00e9"]
    for name in [*names, "cut", "cut2"]:
        (folder / name).write_text("text")
    (folder / "link").symlink_to("sub/file")
    (folder / "ring").symlink_to("sub")
    put(folder, script="#!/bin/sh\ntrue\n")
    (folder / "awk-script").write_text("#!/usr/bin/awk -f\nBEGIN {}\n")
    (folder / "copy").write_bytes(Path("/usr/bin/sleep").read_bytes())
    for name in ("script", "awk-script", "copy"):
        (folder / name).chmod(0o755)


@dataclass(frozen=True)
class Trial:
    """A program that is tried: its words, what fills its directory, and the tools that it needs.

    `is_same` says whether two runs leave the same bytes.
    """

    name: str
    words: Sequence[str]
    fill: Callable[[Path], None]
    tools: Sequence[str]
    is_same: bool = True


STATEMENTS = "create table t (a); insert into t values (7); select * from t;"
TRIALS = [
    Trial("make", ["make"], small_project, ["make", "gcc", "cc"]),
    Trial("unittest", [PYTHON, "-B", "-m", "unittest", "-q"], unit_tests, [PYTHON]),
    Trial("tar", ["tar", "-xf", "it.tar"], archive, ["tar"]),
    Trial("sqlite3", ["sqlite3", "db", STATEMENTS], lambda _: None, ["sqlite3"]),
    Trial("git", ["git", "clone", "-q", "--no-hardlinks", "old", "new"], repository, ["git"], False),
    Trial("patch", ["patch", "-i", "change"], patched, ["patch"]),
    Trial("cp", ["cp", "-a", "from/.", "to"], some_files, ["cp"]),
    Trial("find", ["find", ".", "-name", "c", "-print"], some_files, ["find"]),
    Trial("sed", ["sed", "-i", "s/two/2/", "f"], patched, ["sed"]),
    Trial("every call", [PYTHON, str(EVERY_CALL)], every_call, [PYTHON, "awk"]),
]
