"""Programs in Rattle that only the benches need: each is a crate in a copy of the crates, proved and built there."""

import shutil
import subprocess
import tempfile
from pathlib import Path

TOP = Path(__file__).resolve().parent.parent.parent


class Unbuilt(Exception):
    """Why there is no program."""


def is_newest(program, *others):
    """Returns whether the program is newer than each source of the crates and all that lies in the other folders."""
    if not program.exists():
        return False
    built = program.stat().st_mtime
    folders = [*TOP.glob("crates/*/src"), *others]
    files = [TOP / "crates.txt", *(it for folder in folders for it in folder.rglob("*") if it.is_file())]
    return all(it.stat().st_mtime < built for it in files)


def build(name, uses, files, words, program):
    """Proves and builds the crate of this name, whose files lie at these places of it, and copies it to `program`.

    The words are those of a short run, since `rt run` builds and then runs. Kept work of the crates is used.
    """
    with tempfile.TemporaryDirectory(prefix=f"{name}-") as folder:
        room = Path(folder)
        shutil.copytree(TOP / "crates", room / "crates", symlinks=True)
        shutil.copy(TOP / "HANDLES", room)
        (room / "crates.txt").write_text((TOP / "crates.txt").read_text() + f"{name}: {uses}\n")
        crate = room / "crates" / name
        for place, source in files.items():
            (crate / place).parent.mkdir(parents=True, exist_ok=True)
            shutil.copy(source, crate / place)
        made = subprocess.run(["rt", "run", "--", *words], cwd=crate, capture_output=True, text=True)
        if not (crate / "out" / name).exists():
            raise Unbuilt(f"{name} can't be built: {(made.stdout + made.stderr).strip()[-2000:]}")
        program.parent.mkdir(parents=True, exist_ok=True)
        shutil.copy(crate / "out" / name, program)
