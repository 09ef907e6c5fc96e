"""Programs under the kernel's Landlock. What is wanted comes from docs/PROGRAM.md ("The C program") and landlock(7)."""

import os
import socket
from unittest import mock

from tests.preparation import Prepared, exported, layer
from tests.support import PROGRAM, Case, needs_landlock

from landtree import Policy, landlock
from landtree.confine import become, prepare, program_of

SHELL = "/bin/sh"


class Programs(Case):
    def test_programs(self):
        for name in ("a/p", "b/p", "c/p"):
            self.put(name).chmod(0o755)
        (self.room / "a/p").chmod(0o644)
        (self.room / "d/p").mkdir(parents=True)
        search = {"PATH": ":".join(f"{self.room}/{it}" for it in ("none", "d", "a", "b", "c"))}
        self.assertEqual(program_of("p", search), f"{self.room}/b/p")
        self.assertEqual(program_of(f"{self.room}/c/p", search), f"{self.room}/c/p")

    def test_no_program(self):
        self.assertRaises(FileNotFoundError, become, ["/none/p"], {})
        self.assertRaises(FileNotFoundError, become, ["p"], {"PATH": f"{self.room}"})
        self.assertRaises(FileNotFoundError, become, [str(self.room)], {})
        self.assertRaises(PermissionError, become, [str(self.put("p"))], {})
        self.assertRaises(PermissionError, become, ["p"], {"PATH": f"{self.room}"})


@needs_landlock
class Preparing(Prepared):
    """What is refused before anything is enforced."""

    def test_no_landlock(self):
        with mock.patch.object(landlock, "level", return_value=0):
            self.wants("the kernel has no Landlock, or it is switched off", self.one("/", "dir"))

    def test_no_layer(self):
        self.wants("the profile has no layer", exported())

    def test_files_that_do_not_fit(self):
        room = self.room
        self.put("d/f")
        (room / "link").symlink_to("d")
        here = f"{room}"
        self.wants(f"layer 1: {here}/none: No such file or directory", self.one(f"{here}/none", "reg"))
        self.wants(f"layer 1: {here}/d: it is dir, and reg is expected", self.one(f"{here}/d", "reg"))
        self.wants(f"layer 1: {here}/link: it is sym, and dir is expected", self.one(f"{here}/link", "dir"))
        self.wants(f"layer 1: {here}/link/f: {here}/link is a link", self.one(f"{here}/link/f", "reg"))
        self.wants(f"layer 1: /none ({here}/none): No such file or directory", self.one("/none", "reg", root=here))
        prepare(self.one(f"{here}/link/f", "reg", follow=True)).close()
        prepare(self.one(f"{here}/d/f", "reg")).close()
        prepare(self.one("/d/f", "reg", root=f"{here}/link/..")).close()

    def test_names_with_a_zero_byte(self):
        self.wants("layer 1: /%00 (/\x00): embedded null byte", self.one("/%00", "reg"))

    def test_levels(self):
        wide = exported(layer("read_file,refer,truncate"))
        with mock.patch.object(landlock, "level", return_value=2):
            self.wants("layer 1: the kernel is of level 2 and doesn't know truncate", wide)
            prepared = prepare(exported(*wide.layers, best_effort=True))
            self.assertEqual(prepared.told, ["layer 1: the kernel is of level 2 and doesn't know truncate"])
            self.assertEqual(len(prepared.rulesets), 1)
            prepared.close()
            only = exported(layer("truncate"), best_effort=True)
            self.wants("the kernel knows no right that the profile handles", only)
            self.wants("the kernel is of level 2, and tcp can be denied from 4 on", self.one("/", "dir", deny=["tcp"]))

    def test_rights_that_mean_nothing_on_a_file(self):
        file = str(self.put("f"))
        text = f"layer 1: {file}: a rule on what is no directory can't have read_dir"
        for flags in ({}, {"best_effort": True}):
            self.wants(text, self.one(file, "reg", "read_file,read_dir", **flags))

class Executing(Case):
    """Runs programs by `exec`, under a policy with which they can be loaded."""

    def setUp(self):
        super().setUp()
        self.put("in/f", "inside\n")
        self.put("out/f", "outside\n")
        self.policy = Policy(variables={})
        self.layer = self.policy.layer("p", "all")
        self.policy.allow(self.layer, ["/usr", "/etc", "/proc", "/dev"], "read, execute")

    def run_exec(self, *words, options=(), **how):
        file = self.put("policy.toml", self.policy.dumps())
        call = ["exec", "--program", PROGRAM, "--policy", file, "--profile", "p", *options, "--", *words]
        return self.run_command(*call, **how)

    def shell(self, script, **how):
        """Returns what a script of the shell writes to both streams, in the test's directory."""
        ended = self.run_exec("/usr/bin/dash", "-c", script, **how)
        return (ended.stdout + ended.stderr).replace("/usr/bin/dash: 1: ", "")


@needs_landlock
class Confined(Executing):
    def test_reading_and_writing(self):
        self.policy.allow(self.layer, self.room / "in", "read, write, make")
        self.assertEqual(self.shell("cat in/f"), "inside\n")
        self.assertEqual(self.shell("cat out/f"), "cat: out/f: Permission denied\n")
        self.assertEqual(self.shell("echo x >in/new && cat in/new && rm in/new"), "x\n")
        self.assertIn("Permission denied", self.shell("echo x >out/new"))
        self.assertFalse((self.room / "out/new").exists())

    def test_layers_stack(self):
        self.policy.allow(self.layer, self.room, "read")
        newer = self.policy.layer("p", "read_file")
        self.policy.allow(newer, ["/usr", "/etc", "/proc", "/dev", self.room / "in"], "read_file")
        self.assertEqual(self.shell("cat in/f out/f"), "inside\ncat: out/f: Permission denied\n")

    def test_a_root_and_a_map(self):
        self.policy.nodes.clear()
        self.layer.rules.clear()
        self.policy.allow(self.layer, "/in", "read")
        self.policy.allow(self.layer, "/code", "read, execute")
        options = ["--root", self.room, "--map", "/code=/usr", "--also", "/etc"]
        self.assertEqual(self.shell("cat in/f out/f", options=options), "inside\ncat: out/f: Permission denied\n")

    def test_names_with_other_bytes(self):
        for name in ("a b", "50%", "\u00e9", "new\nline", "%41"):
            self.put(f"in/{name}/f", "here\n")
            self.put("in/%2F", "")
            self.layer.rules[4:] = []
            self.policy.allow(self.layer, str(self.room / "in" / name), "read")
            self.assertEqual(self.shell(f'cat "in/{name}/f"'), "here\n", name)

    def test_a_link_itself(self):
        # A rule on a link lets the link be moved to where its rights are granted, and reaches nothing through it.
        (self.room / "in/link").symlink_to("../out/f")
        self.policy.allow(self.layer, self.room / "in/link", "read_file", kind="sym")
        self.assertEqual(self.shell("cat in/link"), "cat: in/link: Permission denied\n")

    def test_missing(self):
        self.policy.allow(self.layer, self.room / "none", "read")
        ended = self.run_exec("true")
        text = f"landtree: {self.room}/policy.toml: profile p: layer 1: {self.room}/none: No such file or directory\n"
        self.assertEqual((ended.returncode, ended.stdout, ended.stderr), (125, "", text))
        ended = self.run_exec("true", options=["--optional", self.room / "none"])
        self.assertEqual(ended.returncode, 0, ended.stderr)

    def test_statuses(self):
        self.assertEqual(self.run_exec("sh", "-c", "exit 7").returncode, 7)
        self.assertEqual(self.run_exec("sh", "-c", "kill -TERM $$").returncode, -15)
        ended = self.run_exec("no-such-program")
        said = "landtree: no-such-program: No such file or directory\n"
        self.assertEqual((ended.returncode, ended.stderr), (127, said))
        self.put("p", "#!/bin/sh\n").chmod(0o755)
        ended = self.run_exec(self.room / "p")
        self.assertEqual((ended.returncode, ended.stderr), (126, f"landtree: {self.room}/p: Permission denied\n"))

    def test_nothing_runs_if_words_are_wrong(self):
        wrong = [["--nope"], ["--deny", "udp"], ["--map", "x"], ["--root", "relative"], ["--exact"]]
        for options in wrong:
            ended = self.run_exec("echo", "ran", options=options)
            self.assertEqual((ended.returncode, ended.stdout), (125, ""), options)
            self.assertNotEqual(ended.stderr, "")
        for words in (["exec"], ["exec", "--"], ["exec", "--policy", "p", "echo", "ran"]):
            self.assertEqual(self.run_command(*words).returncode, 125)

    def test_no_program_landtree(self):
        call = ["exec", "--program", self.room / "none", "--policy", "p", "--profile", "p", "--", "echo", "ran"]
        ended = self.run_command(*call)
        self.assertEqual((ended.returncode, ended.stdout), (125, ""))
        self.assertEqual(ended.stderr, f"landtree: {self.room}/none: No such file or directory\n")

    def test_a_program_that_says_something_else(self):
        for text in ("", "{}", "hello", '{"version": 1, "layers": []}'):
            fake = self.put("fake", f"#!/bin/sh\necho '{text}'\n")
            fake.chmod(0o755)
            call = ["exec", "--program", fake, "--policy", "p", "--profile", "p", "--", "echo", "ran"]
            ended = self.run_command(*call)
            self.assertEqual((ended.returncode, ended.stdout, ended.stderr.count("\n")), (125, "", 1))

    def test_words_after_the_program_are_its_own(self):
        self.assertEqual(self.run_exec("echo", "--", "--policy", "-h").stdout, "-- --policy -h\n")

    def test_signals_and_environment(self):
        self.assertEqual(self.run_exec("grep", "SigIgn", "/proc/self/status").stdout, f"SigIgn:\t{0:016x}\n")
        environment = {"PATH": os.environ["PATH"], "PYTHONPATH": "/none", "A": "b"}
        lines = self.run_exec("env", env=environment).stdout.split()
        self.assertEqual(sorted(lines), sorted(f"{name}={value}" for name, value in environment.items()))

    def test_options_that_fit_no_rule(self):
        (self.room / "link").symlink_to("in")
        for options, said in {
            ("--map", f"/nosuch={self.room}"): "no rule of the profile is there",
            ("--map", f"/usr={self.room}/link"): f"{self.room}/link is a link",
            ("--map", f"/usr={self.room}/../x"): f"'{self.room}/../x' is no path from / on and without . and ..",
            ("--optional", "/nowhere"): "no rule of the profile has this path",
        }.items():
            ended = self.run_exec("echo", "ran", options=options)
            text = f"landtree: {self.room}/policy.toml: profile p: {' '.join(options)}: {said}\n"
            self.assertEqual((ended.returncode, ended.stdout, ended.stderr), (125, "", text))

    def test_checks_first(self):
        bad = self.put("bad.check", "open w /usr = ok\n")
        ended = self.run_exec("echo", "ran", options=["--checked", bad])
        self.assertEqual((ended.returncode, ended.stdout), (125, ""))


@needs_landlock
class Denying(Executing):
    """What isn't a right of files in a policy's levels."""

    def python(self, script, *deny):
        options = ["--deny", ",".join(deny)] if deny else []
        code = "import fcntl, os, socket\ntry:\n    %s\n    print('done')\nexcept OSError as error:\n"
        code += "    print(type(error).__name__)"
        self.policy.allow(self.layer, "/", "read_file, read_dir")
        ended = self.run_exec("/usr/bin/python3", "-c", code % script, options=options)
        self.assertEqual(ended.stderr, "")
        return ended.stdout.strip()

    def both(self, script, word, level, error="PermissionError"):
        if landlock.level() < level:
            self.skipTest(f"a kernel of level {landlock.level()}")
        self.assertEqual(self.python(script), "done")
        self.assertEqual(self.python(script, word), error)

    def test_tcp(self):
        with socket.create_server(("127.0.0.1", 0)) as server:
            port = server.getsockname()[1]
            self.both(f"socket.create_connection(('127.0.0.1', {port})).close()", "tcp", 4)
        self.both("socket.create_server(('127.0.0.1', 0)).close()", "tcp", 4)

    def test_ioctl(self):
        script = "fcntl.ioctl(os.open('/dev/urandom', os.O_RDONLY), 0x80045200, bytes(4))"  # RNDGETENTCNT
        self.both(script, "ioctl_dev", 5)

    def test_signals(self):
        self.both(f"os.kill({os.getpid()}, 0)", "signal", 6)

    def test_abstract_sockets(self):
        with socket.socket(socket.AF_UNIX) as server:
            name = f"landtree-{os.getpid()}"
            server.bind(f"\0{name}")
            server.listen()
            self.both(f"socket.socket(socket.AF_UNIX).connect(chr(0) + '{name}')", "abstract_unix_socket", 6)

    def test_moves_stay_as_the_profile_has_them(self):
        self.policy.allow(self.layer, self.room, "read, write, make, refer")
        options = ["--quiet", *(["--deny", "ioctl_dev"] if landlock.level() >= 5 else [])]
        self.assertEqual(self.shell("mv in/f out/g && cat out/g", options=options), "inside\n")
        script = "import os; os.rename('out/g', 'in/g')"
        self.assertEqual(self.run_exec("/usr/bin/python3", "-c", script, options=options).stderr, "")
