"""The system calls that Python has no names for, and which kernels they need."""

import ctypes
import errno
import os

LIBC = ctypes.CDLL(None, use_errno=True)
NOREPLACE, EXCHANGE = 1, 2
CREATE_RULESET, ADD_RULE, RESTRICT_SELF = 444, 445, 446
NO_NEW_PRIVILEGES, NEW_MOUNTS, PRIVATE, DETACH = 38, 0x20000, 1 << 18 | 1 << 14, 2
HERE, PATH_BENEATH = -100, 1


class Attribute(ctypes.Structure):
    _fields_ = [("handled", ctypes.c_uint64)]


class Rule(ctypes.Structure):
    _pack_ = 1
    _fields_ = [("rights", ctypes.c_uint64), ("place", ctypes.c_int32)]


def checked(result):
    """The result of a call, where it didn't fail."""
    if result < 0:
        number = ctypes.get_errno()
        raise OSError(number, os.strerror(number))
    return result


def landlock(number, *args):
    return checked(LIBC.syscall(ctypes.c_long(number), *args))


def landlock_level():
    """The level of the ABI that the kernel offers, or 0 where it has no Landlock."""
    try:
        return landlock(CREATE_RULESET, None, ctypes.c_size_t(0), ctypes.c_uint32(1))
    except OSError:
        return 0


def create_ruleset(rights):
    it = Attribute(rights)
    return landlock(CREATE_RULESET, ctypes.byref(it), ctypes.c_size_t(ctypes.sizeof(it)), ctypes.c_uint32(0))


def add_rule(ruleset, rights, place):
    it = Rule(rights, place)
    landlock(ADD_RULE, ctypes.c_int(ruleset), ctypes.c_int(PATH_BENEATH), ctypes.byref(it), ctypes.c_uint32(0))


def restrict_self(ruleset):
    checked(LIBC.prctl(NO_NEW_PRIVILEGES, 1, 0, 0, 0))
    landlock(RESTRICT_SELF, ctypes.c_int(ruleset), ctypes.c_uint32(0))


def rename_with(old, new, flags):
    checked(LIBC.renameat2(HERE, os.fsencode(old), HERE, os.fsencode(new), flags))


def own_mounts():
    """Gives this process, and those that it starts, mounts that no other process sees."""
    checked(LIBC.unshare(NEW_MOUNTS))
    checked(LIBC.mount(b"none", b"/", None, PRIVATE, None))


def mount_memory(folder):
    checked(LIBC.mount(b"tmpfs", os.fsencode(folder), b"tmpfs", 0, b"size=256m,nr_inodes=100000,mode=755"))


def unmount(folder):
    checked(LIBC.umount2(os.fsencode(folder), DETACH))


def try_execve(path):
    """Whether execve(2) takes the file. What it would run is stopped before its first instruction, and ended."""
    child = os.fork()
    if child == 0:
        try:
            LIBC.ptrace(0, 0, None, None)
            os.execve(path, [path], {})
        except OSError as error:
            os._exit(error.errno)
        os._exit(255)
    _, status = os.waitpid(child, 0)
    if os.WIFSTOPPED(status):
        os.kill(child, 9)
        os.waitpid(child, 0)
        return
    number = os.WEXITSTATUS(status)
    if number != errno.ENOEXEC:
        raise OSError(number, os.strerror(number))
