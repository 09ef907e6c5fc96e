"""What a confined program leaves in the working directory must not run at the next start."""

import os
import shutil
import subprocess
import sys

from tests.support import COMMAND, LONGEST, PACKAGE, PROGRAM, Case, needs_landlock, needs_strace

COMMANDS = ("record", "convert", "learn", "lint", "exec", "try")
# Each of these takes the place of a module of the package or of Python, if Python looks for modules here.
LEFT = ("landtree.py", "landtree/__init__.py", "landtree/__main__.py", "textwrap.py", "argparse.py", "sitecustomize.py")
TYPED = COMMAND[-1]


SPY = """print("unconfined", open("../secret").read())"""


class Isolated(Case):
    def setUp(self):
        super().setUp()
        self.put("secret", "the key\n")
        self.home = self.put("home/f").parent

    def start(self, *words, path=None, **more):
        """Starts the command by its first line, with Python as the PATH has it."""
        environment = {**os.environ, "PATH": f"{os.path.dirname(sys.executable)}:{os.environ['PATH']}", **more}
        how = {"cwd": self.home, "env": environment, "timeout": LONGEST, "capture_output": True, "text": True}
        return subprocess.run([path or TYPED, *map(os.fspath, words)], check=False, **how)

    def module(self, *words, options=("-m",), **more):
        environment = {**os.environ, "PYTHONPATH": str(PACKAGE), **more}
        how = {"cwd": self.home, "env": environment, "timeout": LONGEST, "capture_output": True, "text": True}
        return subprocess.run([sys.executable, *options, "landtree", *words], check=False, **how)

    @needs_strace
    @needs_landlock
    def test_what_a_confined_program_has_left(self):
        ended = self.start("try", "--program", PROGRAM, "--", "sh", "-c", "echo x >out")
        self.assertEqual(ended.returncode, 0, ended.stderr)
        call = ["exec", "--program", PROGRAM, "--policy", "landtree.try/policy.toml", "--profile", "learned", "--"]
        for name in LEFT:
            if "/" in name:
                self.put(f"home/{name}", SPY)
            else:
                self.start(*call, "sh", "-c", f"echo '{SPY}' >{name}")
            self.assertEqual((self.home / name).read_text().strip(), SPY)
            for words in ([*call, "true"], ["lint", "--program", PROGRAM, "landtree.try/policy.toml"]):
                ended = self.start(*words, PYTHONPATH=str(self.home))
                self.assertNotIn("unconfined", ended.stdout + ended.stderr, name)
                self.assertNotIn("Traceback", ended.stderr, name)
            (self.home / name).unlink()

    def test_the_working_directory_and_a_path_of_modules(self):
        for name in LEFT:
            self.put(f"home/{name}", "print('unconfined')\n")
        for path in (str(self.home), ".", "", f"{PACKAGE}:"):
            ended = self.start("--help", PYTHONPATH=path, PYTHONSTARTUP="textwrap.py", PYTHONHOME=str(self.home))
            self.assertEqual((ended.returncode, ended.stderr), (0, ""))
            self.assertTrue(ended.stdout.startswith("usage: landtree-sandbox "), ended.stdout)

    def test_by_a_link(self):
        (self.home / "start").symlink_to(TYPED)
        self.assertEqual(self.start("--help", path="./start").returncode, 0)

    def test_no_package(self):
        shutil.copy(TYPED, self.home / "alone")
        self.put("home/landtree/__main__.py", "print('unconfined')\n")
        os.rename(self.home / "landtree", self.home / "x")
        self.put("landtree.py", "print('unconfined')\n")
        ended = self.start("--help", path=f"{self.home}/alone")
        said = f"landtree-sandbox: no Python package landtree near {self.home}\n"
        self.assertEqual((ended.returncode, ended.stdout, ended.stderr), (125, "", said))

    def test_a_module_of_the_working_directory(self):
        words = {"record": ["--", "touch", "ran"], "exec": ["--policy=p", "--profile=p", "--", "touch", "ran"]}
        words.update({"try": words["record"], "convert": ["log"], "learn": ["c", "--policy=p"], "lint": ["p"]})
        why = "Python takes modules from the working directory here, and a confined program may leave some there"
        for command in COMMANDS:
            for more in ({}, {"PYTHONPATH": f"{PACKAGE}:."}, {"PYTHONPATH": f"{PACKAGE}:{self.home}"}):
                ended = self.module(command, *words[command], **more)
                status = 125 if command in ("record", "exec", "try") else 2
                said = f"landtree: {why}: use the command landtree-sandbox {command}\n"
                self.assertEqual((ended.returncode, ended.stdout, ended.stderr), (status, "", said))
        self.assertEqual([it.name for it in self.home.iterdir()], ["f"])
        self.assertEqual(self.module("--help").returncode, 0)

    def test_a_module_of_another_directory(self):
        if sys.version_info < (3, 11):
            self.skipTest("Python has no option -P")
        ended = self.module("lint", "none", options=("-P", "-m"))
        self.assertEqual((ended.returncode, ended.stderr), (2, "landtree: none: No such file or directory\n"))
        ended = self.module("lint", "none", options=("-P", "-m"), PYTHONPATH=f"{PACKAGE}:")
        self.assertIn("use the command landtree-sandbox lint", ended.stderr)
