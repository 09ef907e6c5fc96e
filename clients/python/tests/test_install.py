"""The package as a whole: its types, its modules, and that it can be installed."""

import os
import shutil
import subprocess
import sys

from tests.support import PACKAGE, TOP, Case, needs

MYPY = shutil.which("mypy")


def can_build(python):
    words = [python, "-c", "import setuptools, wheel, pip"]
    return os.path.exists(python) and subprocess.run(words, capture_output=True, check=False).returncode == 0


BUILDER = next((it for it in (sys.executable, "/usr/bin/python3") if can_build(it)), None)


class Package(Case):
    @needs(MYPY, "no mypy")
    def test_types(self):
        ended = subprocess.run([MYPY, "--strict", "landtree"], cwd=PACKAGE, capture_output=True, text=True, check=False)
        self.assertEqual(ended.returncode, 0, ended.stdout)

    def test_short_modules(self):
        for file in [*PACKAGE.glob("landtree/**/*.py"), *PACKAGE.glob("tests/*.py")]:
            lines = file.read_text(encoding="utf-8").splitlines()
            self.assertLessEqual(len(lines), 300, file)
            self.assertLessEqual(max(map(len, lines), default=0), 120, file)

    @needs(BUILDER, "no Python with pip, setuptools and wheel")
    def test_installed(self):
        source = self.room / "source"
        shutil.copytree(PACKAGE, source, ignore=shutil.ignore_patterns("__pycache__", "*.egg-info", "build"))
        words = [BUILDER, "-m", "pip", "install", "-q", "--no-index", "--no-build-isolation", "--no-deps"]
        words += ["--disable-pip-version-check", "--root-user-action=ignore", "--target", self.room / "to", source]
        ended = subprocess.run(list(map(os.fspath, words)), capture_output=True, text=True, check=False)
        self.assertEqual(ended.returncode, 0, ended.stderr)
        found = {str(it.relative_to(self.room / "to/landtree")) for it in (self.room / "to/landtree").rglob("*.py*")}
        wanted = {str(it.relative_to(PACKAGE / "landtree")) for it in (PACKAGE / "landtree").rglob("*.py*")}
        without = lambda names: {it for it in names if "__pycache__" not in it}  # noqa: E731
        self.assertEqual(without(found), without(wanted))
        self.assertTrue((self.room / "to/landtree/py.typed").exists())
        command = self.room / "to/bin/landtree-sandbox"
        self.assertEqual(command.read_bytes(), (PACKAGE / "landtree-sandbox").read_bytes())
        self.put("here/landtree/__main__.py", "print('left here')\n")
        self.put("here/sitecustomize.py", "print('left here')\n")
        path = f"{os.path.dirname(sys.executable)}:{os.environ['PATH']}"
        how = {"cwd": self.room / "here", "env": {**os.environ, "PATH": path, "PYTHONPATH": "."}, "text": True}
        ended = subprocess.run([command, "lint", "none"], capture_output=True, check=False, **how)
        said = "landtree: none: No such file or directory\n"
        self.assertEqual((ended.returncode, ended.stdout, ended.stderr), (2, "", said))

    def test_one_version(self):
        text = (PACKAGE / "pyproject.toml").read_text(encoding="utf-8")
        self.assertIn(f'version = "{(TOP / "VERSION").read_text().strip()}"', text)
