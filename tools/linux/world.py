"""The real side of one file of checks: a tmpfs, and a process for each client, whose root it is."""

import fcntl
import os
import resource
import socket

from linux import system
from linux.calls import CIRCLE, DESCRIPTORS, HIGHER, LARGEST, Caller

LONGEST, PIECE, FAILED = 20, 1 << 18, "the tool failed"


class Stuck(Exception):
    """A client's process doesn't answer."""


def pair():
    """Both ends of a line of messages, which no client's descriptor can meet."""
    ends = []
    for end in socket.socketpair(socket.AF_UNIX, socket.SOCK_SEQPACKET):
        ends.append(socket.socket(fileno=fcntl.fcntl(end.fileno(), fcntl.F_DUPFD_CLOEXEC, HIGHER)))
        end.close()
    return ends


class Process:
    """What runs in a client's process: it answers each message, until the other end is closed."""

    def __init__(self, ends):
        self.ends, self.end, self.caller = ends, ends[0], Caller()

    def spawn(self, number):
        child = os.fork()
        if child == 0:
            for ruleset in self.caller.rulesets:
                os.close(ruleset)
            self.end, self.caller = self.ends[number], Caller()
        return f"client {number + 1}"

    def serve(self):
        while message := self.end.recv(PIECE).decode("latin-1"):
            word, _, rest = message.partition(" ")
            if word == "spawn":
                mine = self.end
                answer = self.spawn(int(rest))
                if self.end is not mine:
                    continue
            elif word == "forget":
                answer = self.caller.forget() or "ok"
            else:
                answer = self.caller.answer(message)
            self.end.send(answer.encode("latin-1"))


def run_first(folder, ends):
    """A process that sees the folder as the whole tree, and has no descriptors; it answers by the first of the ends."""
    try:
        os.chroot(folder)
        os.chdir("/")
        os.umask(0)
        os.closerange(0, HIGHER)
        for limit, most in ((resource.RLIMIT_NOFILE, DESCRIPTORS), (resource.RLIMIT_FSIZE, LARGEST)):
            resource.setrlimit(limit, (most, resource.getrlimit(limit)[1]))
        Process(ends).serve()
    except BaseException as error:
        ends[0].send(f"{FAILED}: {error!r}".encode())
    os._exit(0)


class World:
    """Its processes are the loader, whom nothing confines, and the clients."""

    def __init__(self, folder, clients):
        self.folder, self.here = folder, 1
        system.mount_memory(folder)
        pairs = [pair() for _ in range(clients + 1)]
        self.mine, theirs = [list(ends) for ends in zip(*pairs)]
        self.children = [self.begin(theirs[:1]), self.begin(theirs[1:])]
        for end in theirs:
            end.close()
        os.symlink(f"/{CIRCLE}", f"{folder}/{CIRCLE}")

    def begin(self, ends):
        child = os.fork()
        if child == 0:
            for end in self.mine:
                end.close()
            run_first(self.folder, ends)
        return child

    def __enter__(self):
        return self

    def __exit__(self, *_):
        for end in self.mine:
            end.close()
        for child in self.children:
            os.waitpid(child, 0)
        system.unmount(self.folder)

    def answer(self, client, call):
        """What the client's process says that the kernel answered; the loader is client 0."""
        if call == "spawn":
            call = f"spawn {self.here}"
            self.here += 1
        end = self.mine[client]
        end.settimeout(LONGEST)
        try:
            end.send(call.encode("latin-1"))
            said = end.recv(PIECE).decode("latin-1")
        except OSError as error:
            raise Stuck(f"client {client}: {call:.99}: {error}") from error
        if not said or said.startswith(FAILED):
            raise Stuck(f"client {client}: {call:.99}: {said}")
        return said

    # ---- what is there, as nobody is kept from seeing it

    def stat(self, path):
        return self.answer(0, f"stat {path}")

    def kind(self, path):
        """The kind of what stands under a path, or nothing."""
        words = self.stat(path).split(" ")
        return words[2] if words[0] == "stat" else None

    def paths(self):
        """Each path that is there."""
        yield "/"
        for folder, directories, files in os.walk(self.folder):
            top = folder[len(self.folder) :]
            yield from (f"{top}/{name}" for name in [*directories, *files] if name != CIRCLE)
