"""The calls of a script, made by a real process: each is answered in the words of a reply, or by the name of an errno."""

import errno
import fcntl
import os
import resource
import stat

from fuzzing.model import rights_of
from linux import system

KINDS = {"reg": stat.S_IFREG, "dir": stat.S_IFDIR, "sym": stat.S_IFLNK, "fifo": stat.S_IFIFO, "sock": stat.S_IFSOCK}
KINDS |= {"char": stat.S_IFCHR, "block": stat.S_IFBLK}
WAYS = {"r": os.O_RDONLY, "w": os.O_WRONLY, "rw": os.O_RDWR}
# A name that no path of a tree can have. The link under it names itself, and each link that a script makes names it: so
# whoever would follow one goes round in a circle.
CIRCLE = "\x01"
# A client has descriptors 0 to 63. What the process itself needs stands higher.
DESCRIPTORS, HIGHER, LARGEST = 64, 200, 65536


def kind_of(mode):
    return next(kind for kind, bits in KINDS.items() if stat.S_IFMT(mode) == bits)


def signed(word):
    """The number as the kernel reads it: off_t has a sign."""
    number = int(word)
    return number - (1 << 64 if number >= 1 << 63 else 0)


def descriptor(word):
    if int(word) >= DESCRIPTORS:
        raise OSError(errno.EBADF, "no descriptor of a client")
    return int(word)


class Room:
    """While it is open the process may have more descriptors than a client, for what a client's call needs none."""

    def __enter__(self):
        resource.setrlimit(resource.RLIMIT_NOFILE, (2 * HIGHER, self.most()))

    def __exit__(self, *_):
        resource.setrlimit(resource.RLIMIT_NOFILE, (DESCRIPTORS, self.most()))

    @staticmethod
    def most():
        return resource.getrlimit(resource.RLIMIT_NOFILE)[1]


class Opened:
    """A descriptor that is closed behind the call that needs it."""

    def __init__(self, path, flags):
        self.number = os.open(path, flags | os.O_NOFOLLOW | os.O_CLOEXEC)

    def __enter__(self):
        return self.number

    def __exit__(self, *_):
        os.close(self.number)


def raised(number):
    """The same descriptor at a higher number."""
    higher = fcntl.fcntl(number, fcntl.F_DUPFD_CLOEXEC, HIGHER)
    os.close(number)
    return higher


class Caller:
    """One client, as far as it calls for itself alone: it can't spawn."""

    def __init__(self):
        self.rulesets = []

    def answer(self, call):
        word, *args = call.split(" ")
        try:
            return getattr(self, f"call_{word}")(*args) or "ok"
        except OSError as error:
            return errno.errorcode.get(error.errno, str(error.errno))

    # ---- calls of one path

    def call_make(self, kind, path):
        if kind == "dir":
            os.mkdir(path, 0o777)
        elif kind == "sym":
            os.symlink(f"/{CIRCLE}", path)
        else:
            os.mknod(path, 0o777 | KINDS[kind], os.makedev(0, 0))

    def call_open(self, mode, path):
        flags = WAYS[mode.rstrip("tcx")] | os.O_NOFOLLOW | os.O_NONBLOCK | os.O_NOCTTY
        flags |= os.O_TRUNC * ("t" in mode) | os.O_CREAT * ("c" in mode) | os.O_EXCL * ("x" in mode)
        return f"fd {os.open(path, flags, 0o777)}"

    def call_truncate(self, path, length):
        os.truncate(path, signed(length))

    def call_list(self, path):
        with Room(), Opened(path, os.O_RDONLY | os.O_DIRECTORY) as number:
            return " ".join(["names", *sorted(set(os.listdir(number)) - {CIRCLE})])

    def call_stat(self, path):
        it = os.lstat(path)
        return f"stat {it.st_ino} {kind_of(it.st_mode)} {it.st_size} {it.st_nlink}"

    def call_exec(self, path):
        with Room():
            system.try_execve(path)

    def call_unlink(self, path):
        os.unlink(path)

    def call_rmdir(self, path):
        os.rmdir(path)

    # ---- calls of two paths

    def call_rename(self, old, new):
        os.rename(old, new)

    def call_rename_noreplace(self, old, new):
        system.rename_with(old, new, system.NOREPLACE)

    def call_exchange(self, old, new):
        system.rename_with(old, new, system.EXCHANGE)

    def call_link(self, old, new):
        os.link(old, new, follow_symlinks=False)

    # ---- calls on descriptors

    def call_read(self, number, offset, count):
        return f"data {os.pread(descriptor(number), min(int(count), LARGEST), signed(offset)).hex() or '-'}"

    def call_write(self, number, offset, text):
        return f"wrote {os.pwrite(descriptor(number), bytes.fromhex(text.replace('-', '')), signed(offset))}"

    def call_ftruncate(self, number, length):
        os.ftruncate(descriptor(number), signed(length))

    def call_close(self, number):
        os.close(descriptor(number))

    # ---- calls of layers and clients

    def call_ruleset(self, rights):
        with Room():
            self.rulesets.append(raised(system.create_ruleset(rights_of(rights))))
        return f"ruleset {len(self.rulesets) - 1}"

    def ruleset(self, number):
        return self.rulesets[int(number)] if int(number) < len(self.rulesets) else -1

    def call_allow(self, number, path, rights):
        ruleset = self.ruleset(number)
        if ruleset < 0:
            system.add_rule(ruleset, rights_of(rights), ruleset)
        with Room(), Opened(path, os.O_PATH) as place:
            system.add_rule(ruleset, rights_of(rights), place)

    def call_confine(self, number):
        system.restrict_self(self.ruleset(number))

    def forget(self):
        """Takes back the ruleset that was made last."""
        os.close(self.rulesets.pop())
