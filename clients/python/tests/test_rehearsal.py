"""What can't stay in a file of checks: what it would answer otherwise, and names that no policy can have."""

import json
import os
import subprocess

from tests.support import COMMAND, ENVIRONMENT, LONGEST, PROGRAM, Case, needs_strace
from tests.traces import Tracing

from landtree import Commands, load_policy
from landtree.trace import convert
from landtree.trace.conversion import slimmed
from landtree.trace.events import Event, command
from landtree.trace.rehearsal import Rehearsal, rehearsed
from landtree.trace.texts import checks_text

STARTS = {"/d": "dir", "/d/f": "reg", "/d/e": "dir", "/d/s": "sym", "/d/c": "char", "/g": "reg", "/full/x": "reg"}
LONG = "\u4e2d" * 29  # 261 bytes as a policy spells it, and 87 in a real name.
FIT = "\u4e2d" * 28  # 252 bytes.
LONGER = "%E4%B8%AD" * 29


class Answers(Case):
    """Each command's answer, which the program gives too."""

    COMMANDS = {
        "open r /d/f": "fd 0", "open wtc /d/new": "fd 0", "open wcx /d/f": "EEXIST", "open wcx /d/new": "fd 0",
        "open r /d": "EISDIR", "open r /": "EISDIR", "open r /d/s": "ELOOP", "open r /d/c": "ENXIO",
        "open r /none": "ENOENT", "open r /d/f/x": "ENOTDIR", "open r /d/s/x": "ELOOP", "open r /none/x": "ENOENT",
        "open wc /d/e": "EISDIR", "exec /d/f": "", "exec /d/c": "ENXIO", "exec /d/e": "EISDIR", "exec /none": "ENOENT",
        "truncate /d/f 0": "", "truncate /d/c 0": "EINVAL", "truncate /d 0": "EISDIR", "truncate /d/s 0": "ELOOP",
        "truncate /none 0": "ENOENT", "list /": "", "list /d": "", "list /g": "ENOTDIR", "list /none": "ENOENT",
        "make dir /new": "", "make sym /d/f": "EEXIST", "make reg /none/x": "ENOENT", "make dir /": "EBUSY",
        "unlink /d/f": "", "unlink /d/s": "", "unlink /d/e": "EISDIR", "unlink /none": "ENOENT", "unlink /": "EBUSY",
        "rmdir /d/e": "", "rmdir /d": "ENOTEMPTY", "rmdir /g": "ENOTDIR", "rmdir /none": "ENOENT",
        "rename /g /d/f": "", "rename /g /new": "", "rename /g /g": "", "rename /g /d/e": "EISDIR",
        "rename /d/e /g": "ENOTDIR", "rename /d/e /full": "ENOTEMPTY", "rename /d /d/e/x": "EINVAL",
        "rename /d/f /d": "ENOTEMPTY", "rename /none /g": "ENOENT", "rename / /g": "EBUSY",
        "rename /g /none/x": "ENOENT",
        "rename_noreplace /g /new": "", "rename_noreplace /g /d/f": "EEXIST", "rename_noreplace /d/f /d": "EEXIST",
        "rename_noreplace /d /d/x": "EINVAL", "rename_noreplace /none /new": "ENOENT", "exchange /g /d/e": "",
        "exchange /d /d/f": "EINVAL", "exchange /d/f /d": "EINVAL", "exchange /g /none": "ENOENT",
        "link /g /new": "", "link /g /d/f": "EEXIST", "link /d/e /new": "EPERM", "link /none /new": "ENOENT",
        "link /d/f /d": "EEXIST", "link /d /d/new": "EINVAL", "link /d/s /new": "",
    }  # fmt: skip

    def test_by_the_model(self):
        for text, answer in self.COMMANDS.items():
            wanted = f"refused 0 {answer}" if answer.isupper() else answer
            event = Event(1, [command(*text.split(" "), expected=wanted)], [])
            self.assertIsNone(Rehearsal(STARTS).refusal(event), text)
            # No other answer is taken.
            event = Event(1, [command(*text.split(" "), expected="" if answer.isupper() else "refused 0 EMFILE")], [])
            self.assertIsNotNone(Rehearsal(STARTS).refusal(event), text)

    def test_as_the_program_answers(self):
        kinds = {**STARTS, "/full": "dir"}
        nodes = "".join(f'[[node]]\npath = "{it}"\nkind = "{kinds[it]}"\n' for it in sorted(kinds))
        policy = self.put("nodes.toml", f"version = 2\nabi = 3\n{nodes}")
        numbers = {"ENOENT": 3, "EEXIST": 4, "ENOTDIR": 5, "EISDIR": 6, "ENOTEMPTY": 7, "EINVAL": 8, "EPERM": 9}
        numbers.update(EBUSY=10, ELOOP=17, ENXIO=18)
        answers = {it: f" = refused {numbers[it]} {it}" for it in numbers}
        answers.update({"": "", "fd 0": " = fd 0"})
        sections = [f"[{text}]\n{text}{answers[answer]}\n" for text, answer in self.COMMANDS.items()]
        checked = Commands(PROGRAM).check([self.put("all.check", "".join(sections))], policy)
        self.assertEqual((checked.failures, checked.passed), ([], len(self.COMMANDS)))

    def test_what_changes(self):
        lines = ["rename /g /d/f", "open r /g = refused 3 ENOENT", "exchange /d /full", "open r /full/f = fd 0"]
        lines += ["unlink /full/f", "make fifo /full/f", "unlink /full/e = refused 6 EISDIR", "rmdir /full/e"]
        lines += ["rmdir /full/e = refused 3 ENOENT", "link /d/x /g", "unlink /d/x", "open r /g = fd 0"]
        rehearsal = Rehearsal(STARTS)
        for it in lines:
            words, _, expected = it.partition(" = ")
            self.assertIsNone(rehearsal.refusal(Event(1, [command(*words.split(" "), expected=expected)], [])), it)

    def test_names_in_a_directory(self):
        rehearsal = Rehearsal({f"/d/{it}": "reg" for it in range(3)}, 4)
        made = [Event(it, [command("make", "reg", f"/d/new{it}")], []) for it in range(2)]
        self.assertIsNone(rehearsal.refusal(made[0]))
        self.assertIn("refused by ENOSPC", rehearsal.refusal(made[1]) or "")
        for text in ("rename /d/0 /d/other", "rename /d/1 /d/2", "unlink /d/2", "make reg /d/last"):
            self.assertIsNone(rehearsal.refusal(Event(1, [command(*text.split(" "))], [])), text)


class Resting(Tracing):
    def test_what_does_not_fit_is_left_out(self):
        # Another process has removed d/x and made d again, which this log doesn't show.
        lines = ['open("d/x", O_RDONLY) = 3</w/d/x>', 'mkdir("d", 0777) = 0', 'open("f", O_RDONLY) = 3</w/f>']
        trace, notes = self.read(*lines), []
        kept = [it.commands[0].text for it in rehearsed(trace.events, notes)]
        self.assertEqual(kept, ["open r /w/d/x = fd 0", "open r /w/f = fd 0"])
        text = "what `make dir /w/d` asks for isn't learned: it would be refused by EEXIST in its file of checks"
        self.assertEqual([(it.line, it.text) for it in notes], [(2, text)])

    def test_another_call_stands_for_it(self):
        # The first opening can't be said, but the second one asks for the same.
        line = 'open("{}", O_WRONLY|O_CREAT|O_EXCL, 0666) = 3</w/{}>'
        trace = self.read(line.format("f", "f"), line.format("n", "n"))
        trace.events[0].commands = [command("open", "wcx", "/w/f", expected="fd 0")]
        kept = slimmed(rehearsed(trace.events, []))
        self.assertEqual(checks_text(kept), "open wcx /w/n = fd 0\nclose 0\n")

    def test_long_names(self):
        reason = "a name has over 255 bytes; what is asked for there isn't learned"
        for call in (
            f'open("{LONG}", O_RDONLY) = 3</w/{LONG}>',
            f'mkdir("{LONG}", 0777) = 0',
            f'mkdir("{LONG}/n", 0777) = 0',
            f'unlink("{LONG}") = 0',
            f'rename("f", "{LONG}") = 0',
            f'rename("{LONG}", "n") = 0',
        ):
            files = {f"/w/{LONG}": "dir" if "/n" in call else "reg"} if "mkdir" not in call or "/n" in call else {}
            lines = [call, 'open("g", O_RDONLY) = 3</w/g>']
            self.assertEqual(self.commands(*lines, files=files), ["open r /w/g = fd 0", "close 0"], call)
            self.assertEqual(self.notes(*lines, files=files), [(1, f"no policy can have /w/{LONGER}: {reason}")], call)
        self.assertEqual(self.notes(f'open("{FIT}", O_RDONLY) = 3</w/{FIT}>'), [])

    def test_what_lies_in_a_directory_has_a_name_that_fits(self):
        lines = ['rmdir("empty") = -1 ENOTEMPTY (Directory not empty)']
        files = {f"/w/empty/{LONG}": "reg", "/w/empty/z": "reg"}
        (event,) = self.read(*lines, files=files).events
        self.assertEqual(event.named[-1][-1].start, "/w/empty/z")

    def test_deep_paths(self):
        path = "/a" * 65
        files = {path[: 2 * it]: "dir" for it in range(1, 66)}
        text = f"no policy can have {path}: its path has over 64 names; what is asked for there isn't learned"
        self.assertEqual(self.notes(f'open("{path}", O_RDONLY) = 3<{path}>', files=files), [(1, text)])


class Converting(Case):
    def converted(self, *lines, entries=()):
        log = self.put("run.log", "".join(f"{it}\n" for it in (*lines, "7 +++ exited with 0 +++")))
        data = {"form": 1, "words": ["p"], "directory": "/w", "status": 0, "began": 0.0, "directories": ["/w"]}
        entries = {"/w": ["dir", None, None], **{it: ["reg", None, None] for it in entries}}
        self.put("run.log.before", json.dumps({**data, "entries": entries}))
        return convert(log)

    def learned(self, converted):
        nodes, checks = self.put("nodes.toml", converted.nodes), self.put("run.check", converted.checks)
        policy = load_policy(converted.nodes + Commands(PROGRAM).learn([checks], nodes).profile)
        return {it.path: str(it.rights) for it in policy.profiles["learned"][0].rules}

    def test_the_rest_is_learned(self):
        lines = [f'7 open("{LONG}", O_WRONLY) = 3</w/{LONG}>', '7 open("f", O_RDONLY) = 3</w/f>', '7 unlink("g") = 0']
        converted = self.converted(*lines, entries=["/w/f", "/w/g", f"/w/{LONG}"])
        self.assertEqual(self.learned(converted), {"/w": "remove_file", "/w/f": "read_file"})
        self.assertEqual(len(converted.told()), 1)

    def test_a_check_that_fails_is_a_note(self):
        # It moves a file from a name that is too long to one that isn't. In the checks the second name isn't there.
        lines = [f'7 rename("{LONG}", "n") = 0', '7 open("n", O_RDONLY) = 3</w/n>', '7 unlink("n") = 0']
        converted = self.converted(*lines, '7 open("f", O_RDONLY) = 3</w/f>', entries=["/w/f", f"/w/{LONG}"])
        self.assertEqual(self.learned(converted), {"/w/f": "read_file"})
        self.assertEqual([it.line for it in converted.notes], [1, 2, 3])

    def test_a_second_run(self):
        # What the first run makes is there for the second one, which cuts it.
        converted = self.converted('7 open("log", O_WRONLY|O_CREAT|O_TRUNC, 0666) = 3</w/log>')
        self.assertEqual(self.learned(converted), {"/w": "write_file,make_reg"})
        twice = converted.__class__(**{**vars(converted), "checks": converted.checks * 2})
        self.assertEqual(self.learned(twice), {"/w": "write_file,make_reg,truncate"})

    @needs_strace
    def test_a_program_with_long_names(self):
        work = self.room / "work"
        work.mkdir()
        script = f"echo x >{LONG}; cat {LONG}; mv {LONG} short; cat short; echo y >other; cat other"
        words = [*COMMAND, "record", "--to", "../run.log", "--", "sh", "-c", script]
        how = {"cwd": work, "env": {**ENVIRONMENT, "LC_ALL": "C.UTF-8"}, "timeout": LONGEST, "capture_output": True}
        self.assertEqual(subprocess.run(words, check=False, **how).returncode, 0)
        converted = convert(self.room / "run.log")
        lines = converted.checks.splitlines()
        self.assertIn(f"open wtc {work}/other = fd 0", lines)
        self.assertNotIn(LONGER, converted.checks + converted.nodes)
        self.assertTrue(any(f"{os.path.basename(work)}/{LONGER}: a name has over" in it for it in converted.told()))
        self.assertEqual(self.learned(converted)[str(work)], "write_file,read_file,make_reg")
