"""Makes each kind of call that a layer is asked for, once or more, in the working directory. It ends with 0."""

import ctypes
import os
import socket
import subprocess
import sys
import threading

LIBRARY = ctypes.CDLL(None, use_errno=True)
AT_FDCWD, AT_SYMLINK_FOLLOW, NOREPLACE, EXCHANGE = -100, 0x400, 1, 2


def put(path, text="x"):
    with open(path, "w") as file:
        file.write(text)


def ways_to_open():
    put("in/made")
    put("in/made")  # It is there now, and is cut.
    os.close(os.open("in/new", os.O_WRONLY | os.O_CREAT | os.O_EXCL, 0o644))
    os.close(os.open("sub", os.O_RDONLY | os.O_DIRECTORY))
    os.close(os.open("sub", os.O_PATH))
    folder = os.open("sub", os.O_RDONLY)
    os.close(os.open("file", os.O_RDONLY, dir_fd=folder))
    os.fchdir(folder)
    os.close(os.open("file", os.O_RDWR))
    os.chdir("..")
    os.close(folder)
    os.close(os.open("link", os.O_RDONLY))
    os.close(os.open("ring/../sub/./file", os.O_RDONLY))
    os.listdir("sub")


def special_files():
    with open("/dev/null", "r+b", buffering=0) as null:
        null.write(b"x")
    os.mkfifo("in/fifo")
    os.close(os.open("in/fifo", os.O_RDWR | os.O_NONBLOCK))
    try:
        os.open("in/fifo", os.O_WRONLY | os.O_NONBLOCK)  # ENXIO: nobody reads.
    except OSError:
        pass
    with socket.socket(socket.AF_UNIX) as it:
        it.bind("in/socket")
    for name in ("/proc/self/status", "/proc/self/fd", f"/proc/{os.getpid()}/maps"):
        os.listdir(name) if name.endswith("fd") else open(name).close()


def names():
    os.mkdir("in/d")
    os.symlink("../sub/file", "in/link")
    with open("in/link") as file:
        file.read()
    os.rename("move", "in/d/moved")
    os.link("linked", "in/d/linked")
    os.replace("in/made", "in/new")
    put("in/one"), put("in/two")
    LIBRARY.renameat2(AT_FDCWD, b"in/one", AT_FDCWD, b"in/three", NOREPLACE)
    LIBRARY.renameat2(AT_FDCWD, b"in/three", AT_FDCWD, b"in/two", EXCHANGE)
    LIBRARY.renameat2(AT_FDCWD, b"left/a", AT_FDCWD, b"right/b", EXCHANGE)
    os.unlink("in/two"), os.unlink("in/three"), os.unlink("gone")
    for call in (lambda: os.rmdir("full"), lambda: os.rename("empty", "full")):
        try:
            call()
        except OSError:
            pass
    os.rmdir("empty")
    os.rename("tree", "in/tree")
    with open("in/tree/leaf") as file:
        file.read()


def nameless():
    file = os.open("in", os.O_TMPFILE | os.O_RDWR, 0o644)
    os.ftruncate(file, 5)
    LIBRARY.linkat(AT_FDCWD, f"/proc/self/fd/{file}".encode(), AT_FDCWD, b"in/named", AT_SYMLINK_FOLLOW)
    os.close(file)


def cuts():
    os.truncate("cut", 1)
    file = os.open("cut2", os.O_RDWR)
    copy = os.dup(file)
    os.close(file)
    child = os.fork()
    if not child:
        os.ftruncate(copy, 1)  # By a descriptor that the parent has opened.
        os._exit(0)
    os.waitpid(child, 0)
    os.close(copy)
    put("in/late")
    with open("in/late", "r+") as late:
        os.unlink("in/late")
        late.truncate(3)  # It has no name any more.


def odd_names():
    for name in ("in/a b", "in/50%", "in/\u00e9", "in/new\nline", "in/<x>, \"y\")", b"in/\xff"):
        put(name)
    with open("odd dir/a \u00e9") as file:
        file.read()


def programs():
    for words in (["./script"], ["./copy", "0"], ["./awk-script"]):
        subprocess.run(words, check=True, stdout=subprocess.DEVNULL)
    threads = [threading.Thread(target=put, args=[f"in/thread{it}"]) for it in range(3)]
    for it in threads:
        it.start()
    for it in threads:
        it.join()
    here = threading.Thread(target=os.chdir, args=["sub"])  # Threads share the working directory.
    here.start(), here.join()
    LIBRARY.creat(b"../in/by-thread", 0o644)
    os.chdir("..")


def main():
    for call in (ways_to_open, special_files, names, nameless, cuts, odd_names, programs):
        call()


if __name__ == "__main__":
    sys.exit(main())
