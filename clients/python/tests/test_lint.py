"""What is found in policies, and what isn't."""

from tests.support import PROGRAM, Case, needs_landlock, needs_strace

from landtree import Commands, Layer, Policy, Rights, Rule
from landtree.lint import OPEN, beyond_findings, lint
from landtree.lint import OnlyRead as Seen
from landtree.places import Mapped

LEVEL = Rights.ALL


class Linted(Case):
    def setUp(self):
        super().setUp()
        self.policy = Policy(variables={})

    def found(self, text=None, mapped=Mapped("/none")):
        """Returns what is found in a policy; its paths aren't those of its own file, unless a test says so."""
        file = self.put("p.toml", self.policy.dumps() if text is None else text)
        linted = lint(file, Commands(PROGRAM), mapped=mapped)
        self.assertEqual(linted.open, list(OPEN))
        return [str(it) for it in linted.findings]


class Linting(Linted):
    def test_nothing(self):
        layer = self.policy.layer("p", "all")
        self.policy.allow(layer, "/src", "read")
        self.policy.allow(layer, "/bin/make", "read_file, execute", kind="reg")
        self.assertEqual(self.found(), [])

    def test_no_profile_and_no_layer(self):
        self.assertEqual(self.found(), ["the policy: it has no profile"])
        text = "version = 2\nabi = 3\n[profile.p]\n"
        self.assertEqual(self.found(text), ["profile p: it has no layer, so it denies nothing"])

    def test_truncate(self):
        layer = self.policy.layer("p", LEVEL & ~Rights.TRUNCATE)
        text = "write_file is handled and truncate isn't, so a file that may not be written can be emptied"
        self.assertEqual(self.found(), [f"profile p, layer 1: {text}"])
        layer.handled &= ~Rights.WRITE_FILE
        text = "it doesn't handle write_file, so it denies none of these anywhere"
        self.assertEqual(self.found(), [f"profile p, layer 1: {text}", OwnPolicy.TEXT])

    def test_truncate_is_unknown_below_level_3(self):
        self.policy.abi = 2
        self.policy.layer("p", "all")
        self.assertEqual(self.found(), [])

    def test_rights_that_are_not_handled(self):
        self.policy.layer("p", LEVEL & ~Rights.of("read, make_sym, refer"))
        text = "profile p, layer 1: it doesn't handle read_file,read_dir,make_sym, so it denies none of these anywhere"
        self.assertEqual(self.found(), [text])

    def test_directories_that_others_use_too(self):
        layer = self.policy.layer("p", "all")
        self.policy.allow(layer, "/proc", "read_file")
        self.policy.allow(layer, "/tmp", "write_file, truncate, make_reg")
        self.policy.allow(layer, "/var/tmp", "read_dir")
        self.policy.allow(layer, "/dev/shm", "write_file")
        place = "profile p, layer 1, rule"
        self.assertEqual(self.found(), [
            f"{place} 1: it reads all of /proc, so the command lines of other processes too",
            f"{place} 2: it writes what others have in /tmp: a TMPDIR of its own keeps that apart",
            f"{place} 4: it writes what others share as memory in /dev/shm",
        ])

    def test_rules_that_add_nothing(self):
        layer = self.policy.layer("p", "all")
        self.policy.allow(layer, "/a/b", "read")
        self.policy.allow(layer, "/a", "read")
        self.policy.allow(layer, "/a/b", "read_file, execute")
        self.policy.allow(layer, "/a/b", "read_file")
        self.policy.allow(layer, "/ab", "read")
        self.policy.allow(layer, "/ab", "read")
        text = "it adds nothing on /a/b: rules on it or above grant"
        place = "profile p, layer 1, rule"
        wanted = [f"{place} 1: {text} read_file,read_dir", f"{place} 4: {text} read_file"]
        last = f"{place} 6: it adds nothing on /ab: rules on it or above grant read_file,read_dir"
        self.assertEqual(self.found(), [*wanted, last])

    def test_moves(self):
        layer = self.policy.layer("p", "all")
        self.policy.allow(layer, "/out", "make_reg, remove_file")
        text = "no rule has refer, so nothing moves from one directory to another (EXDEV), and `mv` copies"
        self.assertEqual(self.found(), [f"profile p, layer 1: {text}"])
        self.policy.allow(layer, "/out", "refer")
        self.assertEqual(self.found(), [])

    def test_written_and_executed(self):
        layer = self.policy.layer("p", "all")
        self.policy.allow(layer, "/out", "write_file, execute")
        self.policy.allow(layer, "/f", "write_file, execute", kind="reg")
        wanted = ["profile p: /out: a file in it can be written and then executed"]
        self.assertEqual(self.found(), [*wanted, "profile p: /f: it can be written and then executed"])

    def test_another_layer_keeps_it_apart(self):
        for rights in ("write_file", "execute"):
            layer = self.policy.layer("p", "all")
            self.policy.allow(layer, "/f", rights, kind="reg")
        self.assertEqual(self.found(), [])

    def test_a_policy_with_a_fault(self):
        self.wants_fault(f"{self.room}/p.toml: version = 9: 1 or 2 is expected", self.found, "version = 9\n")


class Replacing(Linted):
    """What a run may put in the place of what a rule names, so that the next start grants something else."""

    def replaced(self, *rules, more="", kind="dir"):
        self.policy = Policy(variables={})
        layer = self.policy.layer("p", "all")
        for path, rights, *kinds in rules:
            self.policy.allow(layer, path, rights, kind=(kinds or [kind])[0])
        return [it for it in self.found() if "the next start grants" in it]

    def test_a_directory(self):
        found = self.replaced(("/work", "remove_dir,make_dir"), ("/work/public", "read"))
        text = "/work grants remove_dir,make_dir, so a run may put something else there"
        more = "and the next start grants read_file,read_dir on that"
        self.assertEqual(found, [f"profile p: /work/public: {text}, {more}"])

    def test_a_file(self):
        found = self.replaced(("/w", "remove_file,make_reg,write_file"), ("/w/f", "execute,read_file", "reg"))
        text = "/w grants remove_file,make_reg, so a run may put something else there"
        self.assertEqual(found, [f"profile p: /w/f: {text}, and the next start grants execute,read_file on that"])

    def test_other_kinds(self):
        for kind in ("sym", "fifo", "sock", "char", "block"):
            rules = [("/w", f"remove_file,make_{kind}"), ("/w/f", "read_file", kind)]
            self.assertEqual(len(self.replaced(*rules)), 1, kind)
            self.assertEqual(self.replaced(("/w", "remove_file,make_reg"), ("/w/f", "read_file", kind)), [])

    def test_a_directory_above(self):
        found = self.replaced(("/", "remove_dir,make_dir"), ("/a/b/c", "read_file"))
        self.assertEqual(len(found), 1)
        self.assertIn("/a/b/c: / grants remove_dir,make_dir, so", found[0])

    def test_many_paths(self):
        rules = [(f"/w/{it}", "read_file", "reg") for it in "abcdef"]
        (found,) = self.replaced(("/w", "remove_file,make_reg"), *rules)
        self.assertIn(" /w/a, /w/b, /w/c and 3 more: /w grants", found)

    def test_what_cannot_be_replaced(self):
        for rules in (
            [("/work", "remove_dir"), ("/work/public", "read")],
            [("/work", "make_dir"), ("/work/public", "read")],
            [("/work", "remove_file,make_reg"), ("/work/public", "read")],
            [("/work/public", "remove_dir,make_dir,read")],
            [("/work/other", "remove_dir,make_dir"), ("/work/public", "read")],
            [("/", "remove_dir,make_dir,read")],
        ):
            self.assertEqual(self.replaced(*rules), [], rules)

    def test_nothing_more_is_granted_there(self):
        self.assertEqual(self.replaced(("/w", "remove_dir,make_dir,read"), ("/w/d", "read_file")), [])

    def test_another_layer_forbids_it(self):
        self.replaced(("/work", "remove_dir,make_dir"), ("/work/public", "read"))
        layer = self.policy.layer("p", "remove_dir")
        self.assertEqual([it for it in self.found() if "the next start" in it], [])
        layer.handled = Rights.WRITE_FILE
        self.assertEqual(len([it for it in self.found() if "the next start" in it]), 1)


class ReadFiles(Case):
    def test_a_rule_of_its_own(self):
        writes = Rights.WRITE_FILE
        seen = Seen("run.log", ["/w/f", "/w/g"])
        found = beyond_findings("p", [Layer(writes, [Rule("/w", writes), Rule("/w/f", writes)])], seen)
        text = "profile p: /w may be written, where the run only read g (run.log)"
        self.assertEqual([str(it) for it in found], [text])
        layer = Layer(writes | Rights.REMOVE_FILE | Rights.MAKE_REG, [Rule("/w/f", writes)])
        self.assertEqual(list(beyond_findings("p", [layer], seen)), [])


class OwnPolicy(Linted):
    TEXT = "profile p: it lets a run change this policy, and the next start uses what the policy says then"

    def changes(self, path, rights, mapped=Mapped()):
        self.policy = Policy(variables={})
        layer = self.policy.layer("p", "all")
        self.policy.allow(layer, path, rights)
        return self.TEXT in self.found(mapped=mapped)

    def test_it_may_be_written_or_replaced(self):
        for rights, wanted in {
            "write_file": True,
            "remove_file,make_reg": True,
            "remove_file,make_sym": True,
            "remove_file,make_dir": False,
            "read,truncate,make_reg": False,
        }.items():
            self.assertEqual(self.changes(self.room, rights), wanted, rights)
        self.assertFalse(self.changes(self.room, "remove_dir,make_dir"))
        self.assertTrue(self.changes(self.room.parent, "remove_dir,make_dir"))
        self.put("d/x")
        self.assertFalse(self.changes(self.room / "d", "write_file"))

    def test_where_the_paths_are(self):
        self.assertFalse(self.changes("/w", "write_file"))
        self.assertTrue(self.changes("/w", "write_file", mapped=Mapped("/", [("/w", str(self.room))])))
        self.assertFalse(self.changes(self.room, "write_file", mapped=Mapped("/none")))
        (self.room / "root").symlink_to(self.room.parent)
        self.assertTrue(self.changes(f"/{self.room.name}", "write_file", mapped=Mapped(f"{self.room}/root")))
        (self.room / "p.toml").write_text(f"{self.policy.dumps()}".replace("write_file", "read_file"))
        self.assertFalse(self.changes("/new\0name", "write_file"))

    def test_by_a_link(self):
        self.put("d/x")
        self.policy.allow(self.policy.layer("p", "all"), self.room / "d", "remove_file,make_reg")
        file = self.put("p.toml", self.policy.dumps())
        self.put("d/x")
        (self.room / "d/link").symlink_to(file)
        self.assertNotIn(self.TEXT, [str(it) for it in lint(file, Commands(PROGRAM)).findings])
        self.assertIn(self.TEXT, [str(it) for it in lint(self.room / "d/link", Commands(PROGRAM)).findings])

    def test_as_a_user_types_it(self):
        layer = self.policy.layer("p", "all")
        self.policy.allow(layer, "/w", "write_file")
        self.put("p.toml", self.policy.dumps())
        words = ["lint", "p.toml", "--program", PROGRAM]
        self.assertNotIn("change this policy", self.run_command(*words).stdout)
        maps = ["--map", f"/w={self.room}"]
        for options in (maps, ["--root", self.put("root/w").parent, *maps]):
            ended = self.run_command(*words, *options)
            self.assertIn(f"p.toml: {self.TEXT}\n", ended.stdout)


@needs_strace
@needs_landlock
class OnlyRead(Case):
    def test_what_became_writable(self):
        for name in ("src/main", "notes", "one", "two", "three"):
            self.put(f"w/{name}", "text\n")
        script = "cat src/main notes one two three >/dev/null; echo x >lock; cat lock; echo x >>notes"
        words = ["try", "--program", PROGRAM, "--to", self.room / "to", "--", "sh", "-c", script]
        ended = self.run_command(*words, cwd=self.room / "w")
        self.assertEqual(ended.returncode, 0, ended.stderr)
        text = f"profile learned: {self.room}/w may be written, where the run only read one, src/main, three and 1 more"
        self.assertIn(f"{text} ({self.room}/to/run.log)", ended.stderr)
        ended = self.run_command("lint", "to/policy.toml", "--program", PROGRAM)
        self.assertIn(f"{text} (to/run.log)\n", ended.stdout)
        (self.room / "to/run.log").rename(self.room / "other.log")
        (self.room / "to/run.log.before").rename(self.room / "other.log.before")
        self.assertNotIn("only read", self.run_command("lint", "to/policy.toml", "--program", PROGRAM).stdout)
        ended = self.run_command("lint", "to/policy.toml", "--program", PROGRAM, "--log", "other.log")
        self.assertIn(f"{text} (other.log)\n", ended.stdout)
        ended = self.run_command("lint", "to/policy.toml", "--program", PROGRAM, "--log", "none.log")
        said = "landtree: none.log.before: No such file or directory; `record` makes it beside its log\n"
        self.assertEqual((ended.returncode, ended.stdout, ended.stderr), (2, "", said))

    def test_another_log_beside_it(self):
        policy = Policy(variables={})
        policy.allow(policy.layer("p", "all"), "/w", "read")
        self.put("p.toml", policy.dumps())
        self.put("run.log", "line\n")
        words = ["lint", "p.toml", "--program", PROGRAM]
        ended = self.run_command(*words)
        self.assertEqual((ended.returncode, ended.stderr), (0, ""))
        self.put("run.log.before", "{")
        ended = self.run_command(*words)
        why = "run.log.before: it isn't what `record` writes"
        said = f"landtree: it isn't known which files a run has only read: {why}\n"
        self.assertEqual((ended.returncode, ended.stderr), (0, said))
        ended = self.run_command(*words, "--log", "run.log")
        self.assertEqual((ended.returncode, ended.stdout, ended.stderr), (2, "", f"landtree: {why}\n"))

    def test_what_may_be_replaced(self):
        self.put("w/f", "one\n")
        self.put("w/g", "one\n")
        script = "cat g; sed -i s/one/two/ f"
        words = ["try", "--program", PROGRAM, "--to", self.room / "to", "--", "sh", "-c", script]
        ended = self.run_command(*words, cwd=self.room / "w")
        self.assertIn(f"{self.room}/w may be written, where the run only read g ({self.room}/to/run.log)", ended.stderr)

    def test_nothing_became_writable(self):
        self.put("w/src/main", "text\n")
        self.put("w/out/x")
        script = "cat src/main >out/new; cat out/new"
        words = ["try", "--program", PROGRAM, "--to", self.room / "to", "--", "sh", "-c", script]
        ended = self.run_command(*words, cwd=self.room / "w")
        self.assertEqual(ended.returncode, 0, ended.stderr)
        self.assertNotIn("only read", ended.stderr)
