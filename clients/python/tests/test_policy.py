"""Policies as objects, and their text (docs/PROGRAM.md, "Policies")."""

import unittest
from pathlib import PurePosixPath

from tests.support import PROGRAM, TOP, Case

from landtree import Commands, Fault, Layer, Policy, Rights, Rule, load_policy, read_policy
from landtree.directories import Node

try:
    import tomllib  # noqa: F401
except ImportError:
    raise unittest.SkipTest("reading policies needs Python 3.11 or later") from None

READ = Rights.READ_FILE | Rights.READ_DIR


class Words(Case):
    def test_any_order(self):
        self.assertEqual(Rights.of("truncate, execute"), Rights.EXECUTE | Rights.TRUNCATE)
        self.assertEqual(Rights.of(["read_file"], Rights.READ_DIR, "refer,"), READ | Rights.REFER)
        self.assertEqual((Rights.of(), Rights.of("none"), Rights.of("all")), (Rights.NONE, Rights.NONE, Rights.ALL))

    def test_groups(self):
        self.assertEqual(Rights.of("read"), READ)
        self.assertEqual(str(Rights.of("write")), "write_file,remove_dir,remove_file,truncate")
        self.assertEqual(str(Rights.of("make")), "make_char,make_dir,make_reg,make_sock,make_fifo,make_block,make_sym")
        self.assertEqual(Rights.of("execute"), Rights.EXECUTE)
        left = Rights.ALL & ~Rights.of("read", "write", "make", "execute")
        self.assertEqual(left, Rights.REFER)

    def test_no_rights(self):
        for word in ("readfile", "READ_FILE", "read-file", "_named", "value", "name"):
            self.assertRaises(ValueError, Rights.of, word)


class Building(Case):
    def setUp(self):
        super().setUp()
        self.policy = Policy(variables={"HOME": "/home/me", "n": "x y"})
        self.layer = self.policy.layer("build", "all")

    def rule(self, *words, **options):
        self.policy.allow(self.layer, *words, **options)
        return self.layer.rules[-1]

    def test_parents_are_made(self):
        self.assertEqual(self.rule("/a/b/c", "read"), Rule("/a/b/c", READ))
        self.assertEqual(self.policy.nodes, [Node("/a", "dir"), Node("/a/b", "dir"), Node("/a/b/c", "dir")])
        self.rule("/a/b/f", "read", kind="reg")
        self.assertEqual(self.policy.nodes[3:], [Node("/a/b/f", "reg")])

    def test_several_paths(self):
        self.policy.allow(self.layer, ["/a", PurePosixPath("/b")], "read")
        self.assertEqual([it.path for it in self.layer.rules], ["/a", "/b"])
        self.assertEqual(self.rule("/", "read"), Rule("/", READ))

    def test_variables(self):
        self.assertEqual(self.rule("$HOME/${n}", "read").path, "/home/me/x%20y")
        for path in ("$none/a", "/a/$", "${"):
            self.assertRaises(ValueError, self.rule, path, "read")

    def test_variables_that_would_widen_a_path(self):
        policy = Policy(variables={"SUB": "", "ROOT": "/"})
        layer = policy.layer("build", "all")
        for path, fault in {
            "/$SUB": "/$SUB: the variable SUB is empty",
            "/a${SUB}": "/a${SUB}: the variable SUB is empty",
            "$SUB/": "$SUB/: the variable SUB is empty",
            "$ROOT": "$ROOT: its variables make it /, the whole machine",
            "/$none": "/$none: the variable none isn't set",
        }.items():
            with self.assertRaises(ValueError) as caught:
                policy.allow(layer, path, "read")
            self.assertEqual(str(caught.exception), fault)
        self.assertEqual((layer.rules, policy.nodes), ([], []))
        policy.allow(layer, "/", "read")
        self.assertEqual(layer.rules, [Rule("/", READ)])

    def test_a_group_fits_the_file(self):
        self.assertEqual(self.rule("/f", "read, write", kind="reg").rights, Rights.of("read_file,write_file,truncate"))
        few = self.policy.layer("few", "read_file")
        self.policy.allow(few, "/d", "all")
        self.assertEqual(few.rules, [Rule("/d", Rights.READ_FILE)])

    def test_a_right_that_does_not_fit(self):
        self.assertRaises(ValueError, self.rule, "/f", "read_dir", kind="reg")
        few = self.policy.layer("few", "read_file")
        self.assertRaises(ValueError, self.policy.allow, few, "/d", "read_dir")
        self.assertRaises(ValueError, self.policy.allow, few, "/d", "make")
        self.assertEqual((few.rules, self.layer.rules), ([], []))

    def test_levels(self):
        self.assertEqual(Policy(abi=1).layer("a", "all").handled, Rights.ALL & ~Rights.of("refer,truncate"))
        self.assertEqual(Policy(abi=2).layer("a", "all").handled, Rights.ALL & ~Rights.TRUNCATE)

    def test_nodes(self):
        self.assertEqual(self.policy.node("/d/f", data=b"x"), "/d/f")
        self.policy.node("/d/f")
        self.assertEqual(self.policy.nodes, [Node("/d", "dir"), Node("/d/f", "reg", b"x")])
        wrong = [("/d/f", "dir"), ("/d/f/g", "reg"), ("/d/f/x/y", "dir"), ("/d", "reg"), ("/", "reg"), ("/e", "file")]
        for path, kind in wrong:
            self.assertRaises(ValueError, self.policy.node, path, kind)
        self.assertEqual(len(self.policy.nodes), 2)

    def test_no_paths(self):
        for path in ("", "a", "/a/", "//", "/a//b", "/..", "/a/./b", "/" + "a" * 256, "/a" * 65):
            self.assertRaises(ValueError, self.policy.node, path)

    def test_no_profiles(self):
        for name in ("", "A", "a b", "a" * 33):
            self.assertRaises(ValueError, self.policy.layer, name, "all")
        self.assertRaises(ValueError, self.policy.layer, "a")

    def test_text(self):
        self.rule("/d", "truncate,read")
        self.policy.node('/"\\', data=b"\x01\xff")
        text = self.policy.dumps()
        head = 'version = 2\nabi = 3\n\n[[node]]\npath = "/d"\nkind = "dir"\n\n'
        head += '[[node]]\npath = "/\\"\\\\"\nkind = "reg"\ndata = "01ff"\n\n[[profile.build.layer]]\n'
        self.assertTrue(text.startswith(head), text)
        self.assertTrue(text.endswith('layer.rule]]\npath = "/d"\nrights = "read_file,read_dir,truncate"\n'), text)
        self.assertEqual(load_policy(text), self.policy)

    def test_the_program_takes_it(self):
        self.rule("/srv/www", "read, write")
        self.rule("$HOME/a b", "read_file", kind="reg")
        file = self.put("p.toml", self.policy.dumps())
        found = {it.path: it.rights for it in Commands(PROGRAM).rights(file, "build")}
        self.assertEqual(found["/srv/www"], Rights.of("read, write"))
        self.assertEqual(found["/home/me/a%20b"], Rights.READ_FILE)


class Reading(Case):
    def wants(self, fault, text, head="version = 2\nabi = 3\n"):
        self.wants_fault(fault, load_policy, head + text)

    def test_the_examples(self):
        policy = read_policy(TOP / "examples/build-service.toml")
        self.assertEqual([it.path for it in policy.nodes], ["/src", "/src/main.c", "/build", "/keys", "/keys/deploy"])
        (layer,) = policy.profiles["build"]
        self.assertEqual(layer.handled, Rights.ALL & ~Rights.REFER)
        self.assertEqual(layer.rules[0], Rule("/src", READ))

    def test_all_that_the_program_takes(self):
        for folder in sorted((TOP / "worked").glob("policy-*")):
            file = folder / "policy.toml"
            told = folder / "stderr"
            if file.exists() and not (told.exists() and "policy " in told.read_text()):
                with self.subTest(folder.name):
                    policy = read_policy(file)
                    self.assertEqual(load_policy(policy.dumps()), policy)

    def test_versions(self):
        self.assertEqual(load_policy("version = 1\n").abi, 3)
        self.wants("version = 3: 1 or 2 is expected", "", "version = 3\nabi = 3\n")
        self.wants("the policy: version is missing", "", "")
        self.wants("the policy: version is of another type than int", "", 'version = "2"\n')
        self.wants("the policy: version is of another type than int", "", "version = true\n")
        text = "1, 2 or 3 is expected in version 2, and none in version 1"
        self.wants(f"abi = 4: {text}", "", "version = 2\nabi = 4\n")
        self.wants(f"abi = None: {text}", "", "version = 2\n")
        self.wants(f"abi = 1: {text}", "", "version = 1\nabi = 1\n")

    def test_places(self):
        self.wants("the policy: 'x' is no key here; version, abi, node, profile are", "x = 1\n")
        self.wants("node 1: kind is missing", '[[node]]\npath = "/a"\n')
        self.wants("node 1: '/a/' is no path", '[[node]]\npath = "/a/"\nkind = "dir"\n')
        kinds = "reg, dir, sym, fifo, sock, char, block"
        self.wants(f"node 1: kind = 'x': one of {kinds} is expected", '[[node]]\npath = "/a"\nkind = "x"\n')
        data = "node 1: data: two digits 0 to f a byte are expected, and a regular file"
        self.wants(data, '[[node]]\npath = "/a"\nkind = "reg"\ndata = "0G"\n')
        self.wants(data, '[[node]]\npath = "/a"\nkind = "dir"\ndata = ""\n')
        self.wants("node: tables are expected", "node = [1]\n")
        self.wants("profile b, layer 1: handled is missing", "[[profile.b.layer]]\n")
        rights = "profile b, layer 1: handled: rights are none, or names in this order, parted by commas: "
        self.wants(f"{rights}{Rights.ALL}; not 'all'", '[[profile.b.layer]]\nhandled = "all"\n')
        rule = '[[profile.b.layer]]\nhandled = "refer"\n[[profile.b.layer.rule]]\npath = "x"\nrights = "refer"\n'
        self.wants("profile b, layer 1, rule 1: 'x' is no path", rule)
        self.wants("profile 'B': a name has 1 to 32 of a to z, 0 to 9 and the hyphen", "[profile.B]\n")

    def test_no_text(self):
        self.assertRaises(Exception, load_policy, "\x00")
        bad = self.room / "bad"
        bad.write_bytes(b"\xff")
        self.wants_fault(f"{bad}: the text is no UTF-8", read_policy, bad)
        self.wants_fault(f"{self.room}/none: No such file or directory", read_policy, self.room / "none")
        self.wants_fault(f"{self.room}: Is a directory", read_policy, self.room)

    def test_texts_that_python_cannot_read(self):
        fault = "Python can't read it: a number is too long, or arrays are nested too deep"
        self.wants(fault, "", "a = " + "[" * 5000)
        self.wants(fault, "", "version = " + "9" * 5000)
        for name, text in {"version": "", "abi": "version = 2\n"}.items():
            with self.assertRaises(Fault) as caught:
                load_policy(f"{text}{name} = 0x{'f' * 5000}\n")
            self.assertTrue(str(caught.exception).startswith(f"{name} = a number over 64 bits: "))

    def test_a_byte_order_mark(self):
        file = self.room / "p.toml"
        file.write_bytes(b"\xef\xbb\xbfversion = 2\nabi = 1\n[profile.p]\n")
        self.assertEqual(read_policy(file), Policy(abi=1, profiles={"p": []}))
        self.assertEqual(Commands(PROGRAM).rights(file, "p"), [])

    def test_later_toml(self):
        text = 'version = 2\nabi = 3\nnode = [{path = "/f", kind = "reg",}]\n[profile.p]\n'
        self.assertEqual([it.path for it in Commands(PROGRAM).rights(self.put("p.toml", text), "p")], ["/f"])
        with self.assertRaises(Fault) as caught:
            load_policy(text)
        self.assertTrue(str(caught.exception).startswith("no TOML 1.0, all that Python's reader knows: "))

    def test_layers_are_values(self):
        self.assertEqual(Layer(READ), Layer(READ, []))
