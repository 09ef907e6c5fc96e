"""The program's commands as calls. What is wanted comes from docs/PROGRAM.md and docs/GUIDE.md."""

from tests.support import PROGRAM, TOP, Case

from landtree import Commands, ExportOptions, LearnOptions, ProgramFault, Rights, Rule, TimedOut, load_policy
from landtree.commands import Asked, Audited, Change, Failure, Granted
from landtree.exported import ExportedRule, exported_of

POLICY, CHECKS = TOP / "examples/build-service.toml", TOP / "examples/build-service.check"
READ = Rights.READ_FILE | Rights.READ_DIR
NODES = 'version = 2\nabi = 3\n[[node]]\npath = "/f"\nkind = "reg"\n'


class Results(Case):
    def setUp(self):
        super().setUp()
        self.commands = Commands(PROGRAM, timeout=60)

    def test_rights(self):
        rows = self.commands.rights(POLICY, "build", "/src", "/src/new", "/none/new")
        new = Granted("/src/new", "missing", Rights.NONE, Rights.READ_FILE, READ)
        self.assertEqual(rows, [Granted("/src", "dir", READ), new, Granted("/none/new", "missing", Rights.NONE)])
        paths = ["/src", "/src/main.c", "/build", "/keys", "/keys/deploy"]
        self.assertEqual([it.path for it in self.commands.rights(POLICY, "build")], paths)

    def test_why(self):
        why = self.commands.why(POLICY, "build", "open rw /src/main.c")
        self.assertEqual((why.call, why.answered), ("open rw /src/main.c", "denied EACCES layer 1 write_file at"))
        self.assertEqual(why.asked, [Asked("/src/main.c", "at", Rights.of("write_file,read_file"))])
        self.assertEqual(why.changes, [Change(1, "/src/main.c", Rights.WRITE_FILE)])
        self.assertEqual(self.commands.why(POLICY, "build", "list /src").changes, [])

    def test_why_of_a_history(self):
        history = TOP / "worked/why-kept-at-the-latest-opening/history"
        why = self.commands.why_entry(history, 10)
        self.assertEqual(why.call, "entry 10, client 1: ftruncate 0 0")
        self.assertEqual(why.changes, [Change(1, "/g", Rights.TRUNCATE)])

    def test_check(self):
        checked = self.commands.check([CHECKS], POLICY, "build")
        self.assertEqual((checked.passed, checked.failed, checked.failures, checked.is_well), (20, 0, [], True))
        file = self.put("f.check", "open w /src/main.c\nlist /src\n")
        checked = self.commands.check([file], POLICY, "build")
        denied = "denied EACCES layer 1 write_file at"
        failure = Failure(str(file), 1, "open w /src/main.c", "neither refused nor denied", denied)
        self.assertEqual((checked.passed, checked.failed, checked.failures, checked.is_well), (1, 1, [failure], False))

    def test_a_section(self):
        file = self.put("f.check", "make reg /f\n[one]\nstat /f\n")
        failure = Failure(str(file), 3, "stat /f", "neither refused nor denied", "refused 3 ENOENT", "one")
        self.assertEqual(self.commands.check([file]).failures, [failure])

    def test_a_policy_of_its_own(self):
        self.put("own.toml", "version = 1\n[[node]]\npath = \"/f\"\nkind = \"reg\"\n[profile.no]\n")
        file = self.put("f.check", "@policy own.toml no\nstat /f\n")
        self.assertTrue(self.commands.check([file]).is_well)

    def test_a_schedule(self):
        file = self.put("f.schedule", "connect\n@1 begin stat / = begun\n@1 commit = reply ok\n")
        failure = Failure(str(file), 3, "@1 commit", "reply ok", "NotNow")
        checked = self.commands.check([file], steps=True)
        self.assertEqual((checked.passed, checked.failed, checked.failures), (2, 1, [failure]))

    def test_no_test(self):
        checked = self.commands.check([self.put("none.check")], POLICY, "build")
        self.assertFalse(checked.is_well)

    def test_a_bad_line(self):
        file = self.put("bad.check", "open\n")
        with self.assertRaises(ProgramFault) as caught:
            self.commands.check([file])
        self.assertEqual(caught.exception.status, 2)
        self.assertTrue(caught.exception.line.startswith(f"{file}:1:"), caught.exception.line)

    def test_where_the_fault_is_told(self):
        history = self.put("bad.hist", "landtree-history 1 nodes 64\n1 conect = ok\n")
        fault = self.fault_of(self.commands.why_entry, history, 1)
        self.assertEqual((fault.status, fault.line), (3, "bad line 2"))
        self.assertEqual(fault.hints.splitlines()[0], f"  {history}:2: 1 conect = ok")
        file = self.put("c.check", "[a]\n")
        fault = self.fault_of(self.commands.check, [file], POLICY, "nope")
        self.assertEqual((fault.status, fault.line), (2, "landtree: command line"))
        first, second = fault.hints.splitlines()[:2]
        self.assertEqual((first, second), (f"no test in [a] of {file}", f"  the policy {POLICY} has no profile nope"))
        fault = self.fault_of(self.commands.audit, self.room / "none")
        self.assertEqual((fault.status, fault.line), (1, "landtree: file"))

    def fault_of(self, call, *words):
        with self.assertRaises(ProgramFault) as caught:
            call(*words)
        return caught.exception

    def test_audit(self):
        history = self.put("h", "landtree-history 1 nodes 64\n1 connect = ok\n1 make reg /f = ok\n")
        self.assertEqual(self.commands.audit(history), Audited("legal", 2))
        history.write_text("landtree-history 1 nodes 64\n1 connect = ok\n1 rmdir /f = ok\n")
        self.assertEqual(self.commands.audit(history), Audited("illegal at", 2))
        self.assertFalse(Audited("bad line", 1).is_legal)

    def test_export(self):
        options = ExportOptions(root="/srv", also=["/usr"], deny=["tcp", "signal"], best_effort=True)
        exported = self.commands.export(POLICY, "build", options)
        self.assertEqual((exported.root, exported.also, exported.abi), ("/srv", ("/usr",), 3))
        self.assertEqual((exported.deny, exported.best_effort), ({"tcp", "signal"}, True))
        (layer,) = exported.layers
        self.assertEqual(layer.rules[0], ExportedRule("/src", "dir", READ))

    def test_faults(self):
        with self.assertRaises(ProgramFault) as caught:
            self.commands.rights(self.put("p.toml", "version = 9\n"), "x")
        self.assertEqual((caught.exception.status, caught.exception.line), (2, "landtree: policy BadVersion"))
        self.assertIn("p.toml", caught.exception.hints)
        empty = self.put("e.toml", "version = 2\nabi = 3\n[profile.x]\n")
        self.assertRaises(ProgramFault, self.commands.export, empty, "x")
        self.assertRaises(FileNotFoundError, Commands(self.room / "none").audit, "x")

    def test_a_time_limit(self):
        slow = self.put("slow", "#!/bin/sh\nexec sleep 60\n")
        slow.chmod(0o755)
        self.assertRaises(TimedOut, Commands(slow, timeout=0.2).audit, "x")

    def test_learning(self):
        text = '#!/bin/sh\necho "# least: it is so"\nprintf "%s\\n" "$@"\necho hint >&2\n'
        program = self.put("learner", text)
        program.chmod(0o755)
        options = LearnOptions("b", "truncate,read_file", ["/usr"], 9)
        how = "--name=b --beneath=/usr --never=read_file,truncate --most=9"
        learned = Commands(program).learn_history("h", options)
        words = f"learn --explain --history=h {how}"
        self.assertEqual(learned.profile, "\n".join(["# least: it is so", *words.split(" "), ""]))
        self.assertEqual((learned.is_least, learned.hints), (True, "hint\n"))
        learned = Commands(program).learn(["one.check", "two.check"], "n.toml", options)
        words = f"learn --explain --policy=n.toml --nodes=4096 {how} -- one.check two.check"
        self.assertEqual(learned.profile, "\n".join(["# least: it is so", *words.split(" "), ""]))

    def test_learning_what_a_file_of_checks_does(self):
        learned = self.commands.learn([CHECKS], POLICY)
        policy = self.put("p.toml", f"{POLICY.read_text()}\n{learned.profile}")
        checked = self.commands.check([CHECKS], policy, "learned")
        self.assertEqual((learned.is_least, checked.passed, checked.is_well), (True, 20, True))
        notes = [it for it in learned.profile.splitlines()[1:] if it.startswith("# ")]
        lines = ["17: open wc /build/main.o", "4: list /src", "5: open r /src/main.c"]
        self.assertEqual(notes, [f"# {CHECKS}:{it}" for it in lines])

    def test_learning_what_two_files_do(self):
        nodes = self.put("n.toml", NODES)
        one, two = self.put("1.check", "open r /f = fd 0\n"), self.put("2.check", "make reg /g\nopen r /f = fd 0\n")
        learned = self.commands.learn([one, two], nodes, LearnOptions("b"))
        (layer,) = load_policy(f"{NODES}{learned.profile}").profiles["b"]
        self.assertEqual(layer.rules, [Rule("/", Rights.MAKE_REG), Rule("/f", Rights.READ_FILE)])
        notes = [it for it in learned.profile.splitlines()[1:] if it.startswith("# ")]
        self.assertEqual(notes, [f"# {two}:1: make reg /g", f"# {one}:1: open r /f"])

    def test_what_files_of_checks_cannot_teach(self):
        nodes, checks = self.put("n.toml", NODES), self.room / "c.check"
        for text, status, line in (
            ("# Calls.\n\nlist / = names f\nopen r /g = fd 0\n", 3, ":4: open r /g: expected fd 0, got refused 3"),
            ("open r /f = fd 0\nopen r /f = denied ..\n", 3, ":2: open r /f: expected denied .., got fd 1"),
            ("open\n", 2, ":1:5: "),
        ):
            checks.write_text(text)
            fault = self.fault([checks], nodes)
            self.assertEqual((fault.status, fault.line[: len(f"{checks}{line}")]), (status, f"{checks}{line}"))
        checks.write_text("# None.\n")
        fault = self.fault([checks], nodes)
        self.assertEqual((fault.status, fault.line), (3, f"no test in {checks}"))
        fault = self.fault([], nodes)
        self.assertEqual((fault.status, fault.line), (2, "landtree: command line"))
        fault = self.fault([CHECKS], POLICY, LearnOptions(most=1))
        self.assertEqual((fault.status, fault.line), (2, "3 rules, 1 may be: --most 256, or --beneath DIR"))
        fault = self.fault([CHECKS], POLICY, LearnOptions(most=0))
        self.assertEqual((fault.status, fault.line), (2, "landtree: command line"))
        self.assertIn("0 is not in 1..=256", fault.hints)
        fault = self.fault([CHECKS], POLICY, LearnOptions(never="read_dir"))
        line = f"{CHECKS}:4: list /src: no layer that may be learned lets this pass"
        self.assertEqual((fault.status, fault.line), (3, line))

    def fault(self, *words):
        return self.fault_of(self.commands.learn, *words)

    def test_learning_from_what_must_be_denied_alone(self):
        checks = self.put("c.check", "open r /f = denied ..\n")
        learned = self.commands.learn([checks], self.put("n.toml", NODES))
        (layer,) = load_policy(f"{NODES}{learned.profile}").profiles["learned"]
        self.assertEqual((layer.handled, layer.rules), (Rights.ALL, []))


class Exports(Case):
    TEXT = (
        '{"version": 1, "abi": 3, "root": "/", "also": [], "follow": false, "best_effort": false, '
        '"deny": {"tcp": true, "ioctl_dev": false, "signal": false, "abstract_unix_socket": false}, '
        '"layers": [{"handled": ["execute", "refer"], "rules": [{"path": "/a", "kind": "dir", "rights": ["refer"]}]}]}'
    )

    def test_a_text(self):
        exported = exported_of(self.TEXT)
        self.assertEqual((exported.deny, exported.layers[0].rules[0].rights), ({"tcp"}, Rights.REFER))

    def test_other_texts(self):
        changes = [
            ('"version": 1', '"version": 2'),
            ('"version": 1', '"version": 1, "more": 1'),
            ('"abi": 3, ', ""),
            ('"/a"', '"a"'),
            ('"/a"', '"/a/../b"'),
            ('"/a"', '"/a//b"'),
            ('["refer"]', '["truncate"]'),
            ('["refer"]', '["refer", "execute"]'),
            ('["refer"]', '"refer"'),
            ('"dir"', '"file"'),
            ('"follow": false', '"follow": 0'),
            ('"follow": false', '"follow": false, "exact": false'),
            ('"tcp": true', '"udp": true'),
            ('["execute", "refer"]', "[]"),
            ('"root": "/"', '"root": ""'),
        ]
        for old, new in changes:
            with self.subTest(new), self.assertRaises(Exception) as caught:
                exported_of(self.TEXT.replace(old, new))
            self.assertEqual(type(caught.exception).__name__, "Fault", new)
        deep, endless = "[" * 100_000, self.TEXT.replace('"abi": 3', '"abi": Infinity')
        cut = [self.TEXT[:-1], self.TEXT[: self.TEXT.index("[{")] + "[]}"]
        for text in ("", "[]", "null", "{}", *cut, deep, endless):
            with self.assertRaises(Exception) as caught:
                exported_of(text)
            self.assertEqual(type(caught.exception).__name__, "Fault", text)
