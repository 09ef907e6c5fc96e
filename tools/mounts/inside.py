"""What is run in a mount, by the name of a function:  inside.py NAME [WORD]..  It prints what it found as JSON."""

import ctypes
import errno
import fcntl
import json
import mmap
import multiprocessing
import os
import random
import stat
import subprocess
import sys
import time
from collections import Counter

NOREPLACE, EXCHANGE, WHITEOUT = 1, 2, 4
# Random calls of a round.
EACH = 250
libc = ctypes.CDLL(None, use_errno=True)


def called(name, *words):
    """Calls a function of the C library, as Python's would."""
    result = getattr(libc, name)(*words)
    if result < 0:
        raise OSError(ctypes.get_errno(), os.strerror(ctypes.get_errno()))
    return result


def rename2(old, new, flags, old_at=-100, new_at=-100):
    return called("renameat2", old_at, os.fsencode(old), new_at, os.fsencode(new), flags)


def outcome(act, *words):
    """What the act returns, or its errno's name."""
    try:
        return act(*words)
    except OSError as fault:
        return errno.errorcode[fault.errno]


def errnos(*names):
    """The errno of unlinking each of these names, which the proxy answers."""
    for name in names:
        open(name, "x").close()
    return {name: outcome(os.unlink, name) for name in names}


# ---- What the tree hasn't ----


def opened(name, flags, mode=0o644):
    descriptor = os.open(name, flags, mode)
    os.close(descriptor)


def with_descriptor(name, flags, act):
    descriptor = os.open(name, flags, 0o644)
    try:
        return act(descriptor)
    finally:
        os.close(descriptor)


def shared_map():
    def store(descriptor):
        os.ftruncate(descriptor, 4096)
        with mmap.mmap(descriptor, 4096) as map:
            map[:3] = b"abc"

    with_descriptor("mapped", os.O_RDWR | os.O_CREAT, store)
    return open("mapped", "rb").read(3).decode()


def copied_range():
    def copy(to):
        return with_descriptor("f", os.O_RDONLY, lambda it: os.copy_file_range(it, to, 4))

    return with_descriptor("g", os.O_CREAT | os.O_WRONLY, copy)


def unlinked():
    def use(descriptor):
        os.write(descriptor, b"abc")
        os.unlink("gone")
        os.fchmod(descriptor, 0o600)
        os.ftruncate(descriptor, 2)
        it = os.fstat(descriptor)
        again = outcome(os.open, f"/proc/self/fd/{descriptor}", os.O_RDONLY)
        return [it.st_size, it.st_nlink, os.pread(descriptor, 9, 0).decode(), again]

    return with_descriptor("gone", os.O_RDWR | os.O_CREAT, use)


def one_of_two_names():
    open("h1", "w").write("1")
    os.link("h1", "h2")

    def use(descriptor):
        os.unlink("h1")
        it = os.fstat(descriptor)
        return [it.st_nlink, it.st_ino == os.stat("h2").st_ino, os.read(descriptor, 9).decode()]

    return with_descriptor("h1", os.O_RDONLY, use)


def deep():
    start = os.getcwd()
    for depth in range(1, 70):
        it = outcome(os.mkdir, "e")
        if it:
            os.chdir(start)
            return f"{it} at {depth}"
        os.chdir("e")


def many_links():
    for number in range(2, 1_010):
        it = outcome(os.link, "f", f"l{number}")
        if it:
            break
    for done in range(2, number):
        os.unlink(f"l{done}")
    return f"{it} at {number}"


def special(kind, device=0):
    os.mknod("special", kind | 0o644, device)
    it = os.stat("special")
    answer = [stat.S_IFMT(it.st_mode) == kind, it.st_rdev]
    if kind == stat.S_IFCHR:
        answer.append(outcome(opened, "special", os.O_WRONLY))
    os.unlink("special")
    return answer


def in_group_directory():
    os.mkdir("grouped")
    os.chown("grouped", -1, 7)
    os.chmod("grouped", 0o2755)
    open("grouped/f", "w").close()
    os.mkdir("grouped/d")
    return [os.stat("grouped/f").st_gid, os.stat("grouped/d").st_mode & stat.S_ISGID != 0]


def executed(mode):
    open("script", "w").write("#!/bin/sh\nexit 3\n")
    os.chmod("script", mode)
    try:
        return subprocess.run(["./script"]).returncode
    except OSError as fault:
        return errno.errorcode[fault.errno]


def numbers():
    before = os.statvfs(".")
    open("counted", "wb").write(b"x" * 5000)
    after = os.statvfs(".")
    return [before.f_files, before.f_ffree - after.f_ffree, before.f_bfree - after.f_bfree]


def rows():
    """The rows of the table of clients/mount/README.md, each with what it gives here."""
    open("f", "w").write("hello")
    os.mkdir("d")
    os.symlink("f", "s")
    return {
        "chmod": outcome(lambda: [os.chmod("f", 0o4755), os.stat("f").st_mode & 0o7777][1]),
        "a write clears setuid": outcome(lambda: [open("f", "a").write("x"), os.stat("f").st_mode & 0o7777][1]),
        "chown": outcome(lambda: [os.chown("f", 1000, 1001), os.stat("f").st_uid, os.stat("f").st_gid][1:]),
        "a set-group-ID directory": outcome(in_group_directory),
        "utimensat": outcome(lambda: [os.utime("f", ns=(1, 1234567890123456789)), os.stat("f").st_mtime_ns][1]),
        "readlink": outcome(os.readlink, "s"),
        "a device's number": outcome(special, stat.S_IFCHR, os.makedev(1, 3)),
        "a fifo": outcome(special, stat.S_IFIFO),
        "setxattr": outcome(os.setxattr, "f", "user.a", b"b"),
        "getxattr": outcome(os.getxattr, "f", "user.a"),
        "O_TMPFILE": outcome(opened, ".", os.O_TMPFILE | os.O_RDWR),
        "fallocate": outcome(with_descriptor, "f", os.O_RDWR, lambda it: called("fallocate", it, 0, ctypes.c_long(0), ctypes.c_long(9))),
        "posix_fallocate": outcome(with_descriptor, "f", os.O_RDWR, lambda it: os.posix_fallocate(it, 0, 100)),
        "FS_IOC_GETFLAGS": outcome(with_descriptor, "f", os.O_RDONLY, lambda it: fcntl.ioctl(it, 0x80086601, bytes(8))),
        "RENAME_WHITEOUT": outcome(rename2, "f", "g", WHITEOUT),
        "RENAME_NOREPLACE": outcome(rename2, "f", "d", NOREPLACE),
        "RENAME_EXCHANGE": outcome(lambda: [rename2("f", "d", EXCHANGE), rename2("f", "d", EXCHANGE)]),
        "fsync": outcome(with_descriptor, "f", os.O_RDWR, os.fsync),
        "flock": outcome(with_descriptor, "f", os.O_RDWR, lambda it: fcntl.flock(it, fcntl.LOCK_EX | fcntl.LOCK_NB)),
        "copy_file_range": outcome(copied_range),
        "a shared map": outcome(shared_map),
        "O_PATH": outcome(opened, "f", os.O_PATH),
        "an unlinked file": outcome(unlinked),
        "one of two names": outcome(one_of_two_names),
        "write at 65,536": outcome(with_descriptor, "f", os.O_RDWR, lambda it: os.pwrite(it, b"x", 65_536)),
        "write across 65,536": outcome(with_descriptor, "f", os.O_RDWR, lambda it: os.pwrite(it, b"x" * 10, 65_530)),
        "ftruncate to 65,537": outcome(with_descriptor, "f", os.O_RDWR, lambda it: os.ftruncate(it, 65_537)),
        "255 letters": outcome(opened, "n" * 255, os.O_CREAT),
        "256 letters": outcome(opened, "n" * 256, os.O_CREAT),
        "86 letters of two bytes": outcome(opened, "ä" * 43, os.O_CREAT),
        "a name of 258 spelled": outcome(opened, "ä" * 43 + "aaaa", os.O_CREAT | os.O_EXCL) or outcome(opened, "ä" * 86, os.O_CREAT),
        "a line feed": outcome(lambda: [opened("a\nb%", os.O_CREAT), "a\nb%" in os.listdir(".")][1]),
        "depth": outcome(deep),
        "links": outcome(many_links),
        "execve without x": executed(0o644),
        "execve": executed(0o755),
        "statfs": outcome(numbers),
        "rmdir of a file": outcome(os.rmdir, "f"),
        "rmdir of a full directory": outcome(lambda: [opened("d/x", os.O_CREAT), os.rmdir("d")]),
        "a directory below itself": outcome(os.rename, "d", "d/y"),
    }


# ---- Random calls, in the mount and beside it ----


class Side:
    """One of two directories in which the same calls are made."""

    def __init__(self, top):
        self.top, self.open, self.numbers = top, {}, {}

    def at(self, path):
        return f"{self.top}/{path}"

    def open_file(self, slot, path, flags):
        descriptor = os.open(self.at(path), flags, 0o644)
        if slot in self.open:
            self.close(slot)
        self.open[slot] = descriptor

    def close(self, slot):
        os.close(self.open.pop(slot))

    def of(self, slot):
        return self.open.get(slot, -1)


def kind_and_size(it, numbers):
    """What both sides must agree in; inode numbers are counted as they are met."""
    is_directory = stat.S_ISDIR(it.st_mode)
    number = numbers.setdefault(it.st_ino, len(numbers))
    return [it.st_mode, 0 if is_directory else it.st_size, 0 if is_directory else it.st_nlink, it.st_uid, number]


def random_call(chance):
    """A call as a function of a side, and its text."""
    names = ["a", "b", "c", "d/a", "d/b", "e/a", "e/b", "d/d/a", "d/d", "d", "e"]
    one, two, slot = chance.choice(names), chance.choice(names), chance.randrange(3)
    offset, length = chance.randrange(9_000), chance.randrange(2_000)
    flags = chance.choice([os.O_RDONLY, os.O_WRONLY, os.O_RDWR]) | chance.choice([0, os.O_CREAT, os.O_CREAT | os.O_EXCL])
    flags |= chance.choice([0, 0, os.O_TRUNC, os.O_APPEND])
    mode, text = chance.choice([0o644, 0o600, 0o4755, 0o2711]), bytes([chance.randrange(256)])
    calls = {
        "mkdir": lambda it: os.mkdir(it.at(one)),
        "rmdir": lambda it: os.rmdir(it.at(one)),
        "unlink": lambda it: os.unlink(it.at(one)),
        "rename": lambda it: os.rename(it.at(one), it.at(two)),
        "noreplace": lambda it: rename2(it.at(one), it.at(two), NOREPLACE),
        "exchange": lambda it: rename2(it.at(one), it.at(two), EXCHANGE),
        "link": lambda it: os.link(it.at(one), it.at(two), follow_symlinks=False),
        "symlink": lambda it: os.symlink(two, it.at(one)),
        "readlink": lambda it: os.readlink(it.at(one)),
        "mkfifo": lambda it: os.mkfifo(it.at(one)),
        "open": lambda it: it.open_file(slot, one, flags | os.O_NONBLOCK),
        "create": lambda it: it.open_file(slot, one, os.O_RDWR | os.O_CREAT | os.O_NONBLOCK),
        "close": lambda it: it.close(slot) if slot in it.open else None,
        "pwrite": lambda it: os.pwrite(it.of(slot), text * length, offset),
        "write": lambda it: os.write(it.of(slot), text * length),
        "pread": lambda it: os.pread(it.of(slot), length, offset).hex(),
        "ftruncate": lambda it: os.ftruncate(it.of(slot), offset),
        "truncate": lambda it: os.truncate(it.at(one), offset),
        "fstat": lambda it: kind_and_size(os.fstat(it.of(slot)), it.numbers),
        "stat": lambda it: kind_and_size(os.lstat(it.at(one)), it.numbers),
        "list": lambda it: sorted(os.listdir(it.at(one))),
        "chmod": lambda it: os.chmod(it.at(one), mode),
        "utime": lambda it: [os.utime(it.at(one), ns=(5, 7 + offset)), os.stat(it.at(one)).st_mtime_ns][1],
    }
    often = ["mkdir", "open", "create", "create", "pwrite", "write", "pread", "stat", "list", "link", "rename"]
    name = chance.choice([*calls, *often, *often])
    return f"{name} {one} {two} {slot} {flags:o} {offset} {length}", calls[name]


def everything(side):
    """Each path below the side's top, with its kind and bytes."""
    found = []
    for folder, folders, files in os.walk(side.top):
        for name in sorted(folders + files):
            path = os.path.join(folder, name)
            it = os.lstat(path)
            bytes_ = open(path, "rb").read().hex() if stat.S_ISREG(it.st_mode) else ""
            found.append([os.path.relpath(path, side.top), *kind_and_size(it, side.numbers)[:4], bytes_])
    return sorted(found)


def random_round(tops, chance, count):
    """Makes random calls in both directories; how many failed in both, and the first that differs."""
    sides, failed = [Side(top) for top in tops], 0
    for side in sides:
        os.makedirs(side.at("d/d"))
        os.mkdir(side.at("e"))
    for number in range(count):
        text, call = random_call(chance)
        here, there = [outcome(call, side) for side in sides]
        failed += isinstance(here, str) and here in errno.errorcode.values()
        if here != there:
            return failed, f"call {number}: {text}: {str(here)[:99]} here, {str(there)[:99]} there"
    differs = everything(sides[0]) != everything(sides[1])
    for side in sides:
        for slot in list(side.open):
            side.close(slot)
    return failed, "the trees at the end" if differs else None


def random_calls(other, seed, count):
    """Rounds of random calls in the mount and in the other directory, each in new directories."""
    chance, failed = random.Random(int(seed)), 0
    for number in range(int(count) // EACH):
        more, differs = random_round([os.path.abspath(f"round{number}"), f"{other}/round{number}"], chance, EACH)
        failed += more
        if differs:
            return {"differs": f"round {number}: {differs}"}
    return {"differs": None, "failed": failed}


# ---- Races ----


def until(end, act):
    counts = Counter()
    while time.monotonic() < end:
        counts[outcome(act) or "done"] += 1
    return dict(counts)


def read_both():
    answers = {outcome(lambda: open(path).read()) for path in ("x/d/e/f", "y/d/e/f")}
    return ",".join(sorted(answers - {"ENOENT"})) or "ENOENT"


def race(seconds):
    """Two who move a directory against each other, one who exchanges its parents, one who reads through it, and one in it."""
    for name in ("x", "y", "x/d", "x/d/e"):
        os.mkdir(name)
    open("x/d/e/f", "w").write("here")
    end = time.monotonic() + float(seconds)
    results = multiprocessing.SimpleQueue()

    def start(name, act, at=None):
        def run():
            if at:
                os.chdir(at)
            results.put([name, until(end, act)])

        process = multiprocessing.get_context("fork").Process(target=run)
        process.start()
        return process

    them = [start("in it", lambda: [os.getcwd(), open("f").read()][1], "x/d/e")]
    time.sleep(0.2)
    them += [start("one way", lambda: os.rename("x/d", "y/d")), start("the other", lambda: os.rename("y/d", "x/d"))]
    them += [start("exchange", lambda: str(rename2("x", "y", EXCHANGE))), start("read", read_both)]
    found = dict(results.get() for _ in them)
    for process in them:
        process.join()
    return found


# ---- Policy ----


def by_two_names(times):
    """Two processes open a file at once, each by another of its names, of which one is granted."""
    results = multiprocessing.SimpleQueue()

    def run(path):
        results.put([path, Counter(outcome(lambda: open(path).read()) for _ in range(int(times)))])

    them = [multiprocessing.get_context("fork").Process(target=run, args=[path]) for path in ("granted/f", "denied/f")]
    for process in them:
        process.start()
    found = dict(results.get() for _ in them)
    for process in them:
        process.join()
    return found


def denials():
    """Calls under the profile of tools/try-mount, each with its outcome."""
    os.symlink("nowhere", "open/s")
    return {
        "read /open/f": outcome(lambda: open("open/f").read()),
        "write /open/f": outcome(lambda: open("open/f", "r+").write("x")),
        "truncate /open/f": outcome(os.truncate, "open/f", 0),
        "open /open/f with O_TRUNC": outcome(opened, "open/f", os.O_WRONLY | os.O_TRUNC),
        "read /shut/f": outcome(lambda: open("shut/f").read()),
        "list /shut": outcome(os.listdir, "shut"),
        "list /": sorted(os.listdir(".")),
        "stat /shut/f": outcome(lambda: os.stat("shut/f").st_size),
        "chmod /shut/f": outcome(os.chmod, "shut/f", 0o600),
        "make /shut/g": outcome(opened, "shut/g", os.O_WRONLY | os.O_CREAT),
        "mkdir /shut/d": outcome(os.mkdir, "shut/d"),
        "unlink /shut/f": outcome(os.unlink, "shut/f"),
        "rename in /open": outcome(os.rename, "open/s", "open/t"),
        "rename to /shut": outcome(os.rename, "open/t", "shut/t"),
        "link to /shut": outcome(os.link, "open/f", "shut/g"),
        "exchange": outcome(rename2, "open/f", "shut/f", EXCHANGE),
        "execve /open/run": outcome(lambda: subprocess.run(["open/run"]).returncode),
        "execve /shut/run": outcome(lambda: subprocess.run(["shut/run"]).returncode),
        "again": [outcome(os.unlink, "shut/f") for _ in range(50)][-1],
    }


NAMES = ["open/f", "shut/f", "granted/f", "denied/f", "open/new", "shut/new", "granted/new", "open/d", "shut/d", "open", "granted"]
READ_ONLY, WRITE_ONLY = os.O_RDONLY, os.O_WRONLY


def call_under_a_profile(chance):
    """A call whose denial the kernel and the tree agree in, as they ask for the same: no creation by an opening, no name
    onto itself."""
    one, two = chance.sample(NAMES, 2)
    calls = {
        "read": lambda: opened(one, READ_ONLY | os.O_NOFOLLOW),
        "write": lambda: opened(one, WRITE_ONLY),
        "open and cut": lambda: opened(one, WRITE_ONLY | os.O_TRUNC),
        "cut": lambda: os.truncate(one, 0),
        "list": lambda: sorted(os.listdir(one)),
        "mkdir": lambda: os.mkdir(one),
        "mknod": lambda: os.mknod(one, 0o100644),
        "symlink": lambda: os.symlink("nowhere", one),
        "unlink": lambda: os.unlink(one),
        "rmdir": lambda: os.rmdir(one),
        "rename": lambda: os.rename(one, two),
        "exchange": lambda: rename2(one, two, EXCHANGE),
        "link": lambda: os.link(one, two, follow_symlinks=False),
        "stat": lambda: stat.S_IFMT(os.lstat(one).st_mode),
    }
    name = chance.choice(list(calls))
    return name, one, two, calls[name]


def is_same(one, two):
    """Whether both are names of one file. Moves of it onto itself the kernel answers alone, before it asks a mount."""
    return outcome(lambda: os.lstat(one).st_ino == os.lstat(two).st_ino) is True


def under_a_profile(seed, count):
    """The outcomes of random calls in the working directory."""
    chance, found = random.Random(int(seed)), []
    for _ in range(int(count)):
        name, one, two, call = call_under_a_profile(chance)
        if not (name in ("rename", "exchange") and is_same(one, two)):
            found.append([f"{name} {one} {two}", outcome(call)])
    return found


def kept_right():
    """A descriptor keeps what its opening found, across a fork too."""
    descriptor = os.open("open/w", os.O_RDWR)
    child = os.fork()
    if child == 0:
        os._exit(0 if outcome(os.ftruncate, descriptor, 0) == "EACCES" else 1)
    return [outcome(os.ftruncate, descriptor, 0), os.waitstatus_to_exitcode(os.waitpid(child, 0)[1])]


# ---- What others do to the mount meanwhile ----


def wait_for(path, then):
    """Says that it is ready, waits until a file is there, and makes a call."""
    open("x", "w").write("a")
    print("ready", flush=True)
    while not os.path.exists(path):
        time.sleep(0.01)
    began = time.monotonic()
    acts = {"list": lambda: os.listdir("."), "make": lambda: os.mkdir("d"), "read": lambda: open("x").read()}
    return [[outcome(acts[it]) for it in then.split(",")], time.monotonic() - began]


def lied_to():
    """Looks a name up of which the tree says nonsense, and then makes a directory."""
    os.path.exists("lie")
    return [outcome(os.mkdir, "d"), outcome(os.listdir, ".")]


def fill(count):
    """Makes directories until that fails."""
    for number in range(int(count)):
        it = outcome(os.mkdir, f"d{number}")
        if it:
            return [number, it, outcome(os.listdir, ".")]
    return [number, None, None]


if __name__ == "__main__":
    print(json.dumps(globals()[sys.argv[1]](*sys.argv[2:])))
