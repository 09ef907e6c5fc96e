"""The C library in this process."""

import pickle
import threading
import unittest
from pathlib import Path

from landtree import LearnOptions
from landtree.library import Answer, Library, LibraryFault, Setup
from tests.support import TOP, Case

BUILT = TOP / "out/library/liblandtree.so"
EXAMPLES = TOP / "examples"


def example(name):
    return (EXAMPLES / name).read_bytes()


def worked(name, file):
    """A file of the worked example with this name, which says what the program prints."""
    return (TOP / "worked" / name / file).read_bytes()


class Words(Case):
    def test_faults_can_be_pickled(self):
        fault = LibraryFault(2, "why\n")
        copy = pickle.loads(pickle.dumps(fault))
        self.assertEqual((type(copy), vars(copy)), (LibraryFault, {"status": 2, "words": "why\n"}))
        self.assertEqual((str(copy), str(fault)), ("why", "why"))

    def test_no_rules(self):
        # The C function takes 0 for the most rules that there may be.
        library = Library.__new__(Library)
        with self.assertRaisesRegex(ValueError, "1 to 256"):
            library.learn("", LearnOptions(most=0))


@unittest.skipUnless(BUILT.exists(), "tools/library hasn't built the library")
class Libraries(Case):
    def setUp(self):
        super().setUp()
        self.library = Library(BUILT)

    def test_scripts(self):
        for name in ("build-step", "two-clients", "two-layers"):
            answer = self.library.run(example(f"{name}.txt"), strict=True)
            self.assertEqual(answer, Answer(example(f"{name}.out"), False))

    def test_policies(self):
        setup = Setup(example("build-service.toml"), "build")
        self.assertEqual(self.library.run(example("build-service.txt"), setup).text, example("build-service.out"))
        self.library.check_policy(setup.policy)
        with self.assertRaisesRegex(LibraryFault, "versoin"):
            self.library.check_policy("versoin = 1")

    def test_histories(self):
        saved = self.library.history(example("build-step.txt")).text
        self.assertTrue(self.library.audit(saved).text.startswith(b"legal "))
        self.assertTrue(self.library.audit(saved + b"x\n").is_ended)
        self.assertIn(b"make dir /src", self.library.why_entry(saved, 2).text)

    def test_learned_profiles(self):
        history, wanted = worked("learn-beneath", "history"), worked("learn-beneath", "stdout")
        self.assertEqual(self.library.learn(history, LearnOptions(beneath=("/u",))), Answer(wanted, False))
        named = self.library.learn(history, LearnOptions("build-1", "write_file", ("/u",), 1)).text
        self.assertEqual(named, wanted.replace(b"learned", b"build-1"))
        unlearned = Answer(b"no such client connects\n", True)
        self.assertEqual(self.library.learn(history, client=5), unlearned)
        self.assertEqual(self.library.learn(history + b"x\n").text, b"9: bad line\n")
        wrong = (LearnOptions("A"), LearnOptions(beneath=("u",)), LearnOptions(beneath=("/v",)), LearnOptions(most=257))
        for options in (*wrong, LearnOptions(most=1)):
            with self.assertRaises(LibraryFault) as raised:
                self.library.learn(history, options)
            self.assertEqual(raised.exception.status, 2)
        self.assertEqual(raised.exception.words, "2 rules, 1 may be\n")
        with self.assertRaises(LibraryFault) as raised:
            self.library.learn(history, LearnOptions(beneath=("/u", "/v")))
        self.assertEqual(raised.exception.words, "--beneath /v: no such node\n")

    def test_profiles(self):
        two = worked("rights-by-two-layers", "policy.toml")
        paths = ["/", Path("/work"), "/work/a", "/work/none"]
        told = self.library.rights(two, "p", paths, "layers")
        self.assertEqual(told, Answer(worked("rights-by-two-layers", "stdout"), False))
        asked = worked("rights-as-json", "policy.toml"), "p"
        words = worked("rights-as-json", "words").decode().split("\n")
        told = self.library.rights(*asked, words[1:5], "json")
        self.assertEqual(told.text, worked("rights-as-json", "stdout"))
        told = self.library.rights(worked("rights-of-a-profile", "policy.toml"), "build")
        self.assertEqual(told.text, worked("rights-of-a-profile", "stdout"))
        told = self.library.why(worked("why-a-command", "policy.toml"), "p", "open rwt /work/a")
        self.assertEqual(told.text, worked("why-a-command", "stdout"))
        commands = "".join(worked("why-after-others", "words").decode().splitlines(True)[5:])
        told = self.library.why(worked("why-after-others", "policy.toml"), "p", commands)
        self.assertEqual(told.text, worked("why-after-others", "stdout"))

    def test_wrong_questions(self):
        two = worked("rights-by-two-layers", "policy.toml")
        for policy, profile, words in ((b"", "p", "policy"), (two, "", "profile"), (two, "q", "profile")):
            with self.assertRaisesRegex(LibraryFault, words):
                self.library.rights(policy, profile)
        with self.assertRaisesRegex(LibraryFault, "path"):
            self.library.rights(two, "p", ["/work", "work"])
        for commands in ("fly /", "fly /\nlist /", "list /\n\n", ""):
            with self.assertRaisesRegex(LibraryFault, "not a command"):
                self.library.why(two, "p", commands)
        with self.assertRaises(ValueError):
            self.library.rights(two, "p", ["/a\n/b"])
        with self.assertRaises(ValueError):
            self.library.rights(two, "p", form="xml")

    def test_checks(self):
        setup = Setup(example("build-service.toml"), "build")
        report = self.library.check(example("build-service.check"), setup)
        self.assertEqual(report, Answer(example("build-service.check.out"), False))
        failed = self.library.check("list / = names a\n", form="quiet")
        self.assertEqual(failed, Answer(b"0 passed, 1 failed\n", True))
        with self.assertRaisesRegex(LibraryFault, "a.check:1:"):
            self.library.check("stat\n", name="a.check")
        with self.assertRaises(ValueError):
            self.library.check("", form="layers")

    def test_faults(self):
        setups = (Setup(nodes=0), Setup(history=1_000_001), Setup(level=4), Setup(profile="build"), Setup("x", "build"))
        for setup in setups:
            with self.assertRaises(LibraryFault) as raised:
                self.library.run("", setup)
            self.assertEqual(raised.exception.status, 2)

    def test_long_answers(self):
        script = "make dir /a\n" + "list /\n" * 40_000
        self.assertEqual(self.library.run(script).text, b"ok\n" + b"names a\n" * 40_000)

    def test_threads(self):
        wrong = []

        def call():
            for _ in range(100):
                if self.library.run(example("build-step.txt")).text != example("build-step.out"):
                    wrong.append("another answer")

        threads = [threading.Thread(target=call) for _ in range(4)]
        for it in threads:
            it.start()
        for it in threads:
            it.join()
        self.assertEqual(wrong, [])
