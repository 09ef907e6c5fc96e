"""What an exported program does beside its layers: levels that the kernel lacks, what --deny names, and descriptors."""

import json
import os
import socket
import subprocess
import sys

from exports.profile import DENIALS, UNENFORCED, aged, also, compiled, ended, layer, made, policy_of, system_places

# Each attempt, made by a Python of its own; it prints the names of those that are denied.
ATTEMPTS = """
import errno, fcntl, os, socket, sys, tempfile, termios
port, other, name = int(sys.argv[1]), int(sys.argv[2]), sys.argv[3]
def connect(): socket.create_connection(("127.0.0.1", port)).close()
def bind():
    with socket.socket() as it: it.bind(("127.0.0.1", 0))
def control():
    with open("/dev/null") as it: fcntl.ioctl(it, termios.TCGETS, bytes(60))
def kill(): os.kill(other, 0)
def abstract():
    with socket.socket(socket.AF_UNIX) as it: it.connect("\\0" + name)
def move():
    with tempfile.TemporaryDirectory() as one, tempfile.TemporaryDirectory() as two:
        open(one + "/f", "w").close()
        os.rename(one + "/f", two + "/f")
attempts = dict(tcp=connect, tcp2=bind, ioctl_dev=control, signal=kill, abstract_unix_socket=abstract, move=move)
for what, attempt in attempts.items():
    try: attempt()
    except OSError as error:
        if error.errno in (errno.EACCES, errno.EPERM, errno.EXDEV): print(what)
"""


def python_places():
    """The directories that Python reads."""
    return sorted({*system_places(), sys.base_prefix, sys.prefix})


def attempted(confined):
    """Which attempts are denied to what the program runs, against a process and sockets outside."""
    name = f"try-export-{os.getpid()}"
    with socket.create_server(("127.0.0.1", 0)) as server, socket.socket(socket.AF_UNIX) as abstract:
        abstract.bind(f"\0{name}")
        abstract.listen()
        port = str(server.getsockname()[1])
        run = ended(confined, sys.executable, "-c", ATTEMPTS, port, str(os.getpid()), name)
        return run[1].split(), run


def try_deny(tally, program, room, level):
    """What --deny names is denied, and nothing else: not the moves between directories that the profile allows."""
    profile = policy_of(program, room, {}, layer("make_sym,refer", **{"/": "refer"}))
    known = {"tcp": 4, "ioctl_dev": 5, "signal": 6, "abstract_unix_socket": 6}
    for names in ((), *((name,) for name in DENIALS), DENIALS):
        names = [name for name in names if known[name] <= level]
        words = ["--deny", ",".join(names)] if names else []
        denied, run = attempted(compiled(profile, room, *words))
        wanted = [it for it in ("tcp", "tcp2", *DENIALS[1:]) if it.rstrip("2") in names]
        tally.count(sorted(denied) == sorted(wanted), f"--deny {','.join(names)} denies {denied}: {run}")


def try_levels(tally, program, room):
    """A kernel that lacks a level keeps it from running, unless that is asked for."""
    one, two = layer("write_file"), layer("write_file,truncate")
    for what, layers, words, level, status, said in (
        ("level 3", two, [], 3, 0, ""),
        ("level 2 for truncate", two, [], 2, UNENFORCED, "a layer can't have truncate: this kernel doesn't know it"),
        ("level 2 for truncate, best effort", two, ["--best-effort"], 2, 0, "a layer can't have truncate"),
        ("level 2 for truncate alone", layer("truncate"), ["--best-effort"], 2, UNENFORCED, "no layer is enforced"),
        ("level 1 for refer alone", layer("refer"), ["--best-effort"], 1, UNENFORCED, "no layer is enforced"),
        ("level 1 for the second layer", one + layer("refer"), ["--best-effort"], 1, 0, "can't have refer"),
        ("level 1 for write_file", one, [], 1, 0, ""),
        ("level 0", one, ["--best-effort"], 0, UNENFORCED, "no Landlock"),
        ("level 3 for tcp", one, ["--deny", "tcp"], 3, UNENFORCED, "tcp can't be denied: this kernel has level 3"),
        ("level 3 for tcp, best effort", one, ["--deny", "tcp", "--best-effort"], 3, 0, "tcp can't be denied"),
        ("level 4 for ioctl_dev", one, ["--deny", "ioctl_dev"], 4, UNENFORCED, "ioctl_dev can't be denied"),
        ("level 5 for signal", one, ["--deny", "tcp,signal"], 5, UNENFORCED, "signal can't be denied"),
        ("level 5 for sockets", one, ["--deny", "abstract_unix_socket"], 5, UNENFORCED, "abstract_unix_socket can't"),
    ):
        run = ended(aged(policy_of(program, room, {}, layers), room, *words), "true", LEVEL=level)
        is_well = run[0] == status and said in run[2] and (bool(said) or not run[2])
        tally.count(is_well, f"{what}: {run}")


def try_descriptors(tally, program, room):
    """The program keeps the descriptors that it inherits, and gets none of the exported program's."""
    nodes, rights = {"/d": "dir", "/d/f": "reg"}, {"/": "read_dir", "/d": "read_file,read_dir", "/d/f": "read_file"}
    root = made(room / "root")
    (made(root / "d") / "f").touch()
    layers = layer("read_file,read_dir", **rights) * 3
    words = ["--root", str(root), *also(*python_places(), "/proc"), "--deny", "signal"]
    confined = aged(policy_of(program, room, nodes, layers), room, *words)
    kept = os.open(room, os.O_RDONLY)
    listing = "import os; print(sorted(os.listdir('/proc/self/fd'), key=int))"
    for older in ({}, {"NO_OPENAT2": "1"}):
        environment = os.environ | older
        run = subprocess.run(
            [confined, sys.executable, "-c", listing], env=environment, pass_fds=[kept], capture_output=True
        )
        here = {int(it) for it in json.loads(run.stdout.decode().replace("'", '"') or "[]")}
        # The listing has a descriptor of its own, the lowest that is free.
        own = min(set(range(3, 64)) - {kept})
        tally.count(here == {0, 1, 2, kept, own}, f"descriptors {sorted(here)}: {run.stderr.decode()}")
    os.close(kept)


def try_no_rows(tally, program, room):
    """A text from which somebody took the layers, or a layer's row, runs nothing."""
    profile = policy_of(program, room, {"/d": "dir"}, layer("make_sym", **{"/d": "make_sym"}))
    text = profile.asked("export", "--as", "c")
    lines = text.splitlines(keepends=True)
    for what, starts in (("no row", ("    {LAYER", "    {RULE")), ("no layer", ("    {LAYER",))):
        source, confined = room / "edited.c", room / "edited"
        source.write_text("".join(line for line in lines if not line.startswith(starts)), encoding="utf-8")
        subprocess.run(["cc", "-o", confined, source], check=True)
        run = ended(confined, "echo", "ran")
        tally.count(run[0] == UNENFORCED and not run[1], f"a text with {what}: {run}")


TRIALS = try_levels, try_descriptors, try_no_rows
