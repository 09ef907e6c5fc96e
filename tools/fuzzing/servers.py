"""The program as it serves, connections to it, lines of well-behaved clients, and the sessions of a saved history."""

import contextlib
import os
import random
import re
import socket
import struct
import subprocess
import threading
import time

from fuzzing.grammar import entry_of
from fuzzing.program import Differs, holds, same

HOST = "127.0.0.1"
BAD_LINE = "refused 23 BadLine"
# Seconds after which what should have come, or ended, is taken for what never does.
LONGEST = 120


# ---- the program, and connections to it


def free_port():
    """A port that nobody has. It lies below those that the system gives to whoever connects, so it stays free."""
    for port in random.sample(range(20_000, 32_000), 100):
        with contextlib.suppress(OSError), socket.create_server((HOST, port)):
            return port
    raise Differs("no port is free")


class Server:
    """The program, serving on a port that was free. What it starts is of its process group. Where seconds are told, it
    is killed after so many."""

    def __init__(self, program, port=None, env=None, longest=None, preexec_fn=None, **options):
        self.port = port or free_port()
        words = [program, "serve", f"--port={self.port}"]
        words += [f"--{name}" if value is True else f"--{name}={value}" for name, value in options.items()]
        pipes = {"stdin": subprocess.DEVNULL, "stdout": subprocess.PIPE, "stderr": subprocess.PIPE}
        how = {"text": True, "start_new_session": True, "env": env, "preexec_fn": preexec_fn}
        self.child = subprocess.Popen(words, **pipes, **how)
        self.watch = threading.Timer(longest, self.child.kill) if longest else None
        if self.watch:
            self.watch.start()
        self.told = self.child.stdout.readline()

    def __enter__(self):
        return self

    def __exit__(self, *_):
        if self.watch:
            self.watch.cancel()
        if self.child.poll() is None:
            self.child.kill()
        self.child.communicate()

    def ended(self):
        """Its status, and what it wrote, when it has ended."""
        try:
            out, error = self.child.communicate(timeout=LONGEST)
        except subprocess.TimeoutExpired as late:
            raise Differs("the program hasn't ended") from late
        return self.child.returncode, self.told + out, error

    def wants_well(self):
        """Wants it to have ended well, and to have left nothing open."""
        same(self.ended(), (0, f"listening {self.port}\n", ""), "status, output and standard error")
        with contextlib.suppress(ProcessLookupError):
            os.killpg(self.child.pid, 0)
            raise Differs("a process is left")
        with contextlib.suppress(ConnectionRefusedError):
            socket.create_connection((HOST, self.port), LONGEST).close()
            raise Differs("somebody still listens on the port")
        socket.create_server((HOST, self.port)).close()


class Caller:
    """A connection, and what was said on it: the lines that were sent whole, their replies, as far as they came, and
    what came of the next one where it isn't whole. Of a narrow one the system keeps few bytes on their way, so that one
    who writes soon has to wait."""

    def __init__(self, port, is_narrow=False, longest=LONGEST):
        self.socket = socket.socket()
        self.socket.settimeout(longest)
        if is_narrow:
            self.socket.setsockopt(socket.SOL_SOCKET, socket.SO_RCVBUF, 4096)
            self.socket.setsockopt(socket.IPPROTO_TCP, socket.TCP_MAXSEG, 536)
        self.began = time.monotonic()
        self.socket.connect((HOST, port))
        self.replies = self.socket.makefile("rb")
        self.sent, self.told, self.rest, self.times = [], [], "", []

    def __enter__(self):
        return self

    def __exit__(self, *_):
        self.replies.close()
        self.socket.close()

    def say(self, *lines):
        self.sent += lines
        self.socket.sendall("".join(f"{it}\n" for it in lines).encode("latin-1"))

    def half_close(self):
        self.socket.shutdown(socket.SHUT_WR)

    def reset(self):
        """Closes it so that the other side finds it broken."""
        self.socket.setsockopt(socket.SOL_SOCKET, socket.SO_LINGER, struct.pack("ii", 1, 0))
        self.replies.close()
        self.socket.close()

    def reply(self):
        """The next reply; nothing where the connection has ended."""
        try:
            line = self.replies.readline().decode("latin-1")
        except socket.timeout as late:
            raise Differs("no reply comes, and the connection doesn't end") from late
        if line.endswith("\n"):
            self.told.append(line[:-1])
        else:
            self.rest += line
        return line.removesuffix("\n")

    def ask(self, line):
        began = time.monotonic()
        self.say(line)
        reply = self.reply()
        self.times.append((began, time.monotonic()))
        return reply

    def made(self):
        """The calls that were answered, with their replies, but for those that have no entry."""
        return tuple(it for it in zip(self.sent, self.told) if has_entry(it[1]))

    def wants(self, replies):
        """Wants just these replies, and then the end."""
        for number, want in enumerate(replies, 1):
            same(self.reply(), want, f"reply {number}")
        self.wants_end()

    def wants_end(self):
        same(self.reply(), "", "what comes at the end")


# ---- who is well-behaved


def work(number, rounds):
    """Lines of a client in a directory of its own, and their replies by docs/MODEL.md; # stands for an inode."""
    at = f"/w{number}"
    data = f"{number:04x}" * 100
    yield f"make dir {at}", "ok"
    for _ in range(rounds):
        yield f"open rwcx {at}/f", "fd 0"
        yield f"write 0 2 {data}", "wrote 200"
        yield "read 0 0 4096", f"data 0000{data}"
        yield "read 0 0 4097", "refused 8 EINVAL"
        yield "ftruncate 0 3", "ok"
        yield f"link {at}/f {at}/g", "ok"
        yield f"stat {at}/g", "stat # reg 3 2"
        yield f"rename {at}/g {at}/h", "ok"
        yield f"rename_noreplace {at}/h {at}/f", "refused 4 EEXIST"
        yield f"list {at}", "names f h"
        yield f"make sym {at}/s", "ok"
        yield f"exec {at}/s", "refused 17 ELOOP"
        yield f"exchange {at}/s {at}/h", "ok"
        yield f"exec {at}/s", "ok"
        yield f"truncate {at}/s 1", "ok"
        yield "close 0", "ok"
        yield "close 0", "refused 11 EBADF"
        yield f"stat  {at}", BAD_LINE
        yield f"make dir {at}/d", "ok"
        yield f"rmdir {at}", "refused 7 ENOTEMPTY"
        for name in ("f", "h", "s"):
            yield f"unlink {at}/{name}", "ok"
        yield f"rmdir {at}/d", "ok"
        yield f"list {at}", "names"
    yield f"make reg {at}/f", "ok"
    yield "ruleset write_file,make_reg", "ruleset 0"
    yield f"allow 0 {at} write_file", "ok"
    yield "confine 0", "ok"
    yield f"open w {at}/f", "fd 0"
    yield f"make reg {at}/x", "denied EACCES layer 1 make_reg at"
    yield f"link {at}/f /f", "denied EACCES layer 1 make_reg new"
    yield f"rename {at}/f {at}/g", "denied EACCES layer 1 make_reg new"
    yield "stat /", "stat 1 dir 0 1"


def family(number):
    """The lines of one that spawns, and their replies."""
    yield from work(number, 1)
    yield "@2 stat /", BAD_LINE
    yield "spawn", "client 2"
    yield f"@2 open w /w{number}/f", "fd 1"
    yield f"@2 make reg /w{number}/x", "denied EACCES layer 1 make_reg at"
    yield "@2 write 0 0 68", "wrote 1"
    yield f"stat /w{number}/f", "stat # reg 1 1"
    yield "@3 stat /", BAD_LINE


def is_reply(got, want):
    return got == want or "#" in want and bool(re.fullmatch(re.escape(want).replace(r"\#", "[1-9][0-9]*"), got))


def wants_reply(got, want, line):
    holds(is_reply(got, want), f"{line!r:.99}: {want!r:.99} is wanted, {got!r:.99} was given")


class Sessions:
    """The sessions of a saved history: for each client that came, its lines and those of whom it spawned, with their
    replies, each as the session has them, in which clients are told by their places; and whose line comes when."""

    def __init__(self, file):
        self.lines, self.order = {}, []
        clients, places = {}, {}
        with open(file, encoding="latin-1", newline="\n") as entries:
            next(entries)
            for entry in entries:
                client, line, reply = entry_of(entry[:-1])
                if line == "connect":
                    clients[client], places[client] = [client], (client, "")
                    self.lines[client] = []
                    continue
                first, speaker = places[client]
                if line == "spawn" and reply.startswith("client "):
                    spawned = reply.removeprefix("client ")
                    clients[first].append(spawned)
                    reply = f"client {len(clients[first])}"
                    places[spawned] = first, f"@{len(clients[first])} "
                self.lines[first].append((speaker + line, reply))
                self.order.append(first)


def has_entry(reply):
    return reply not in ("refused 21 HistoryFull", "refused 22 NoMemory", BAD_LINE)


def wants_legal(program, history):
    """Wants an audit to find all entries of the history legal."""
    with open(history, encoding="latin-1") as it:
        entries = sum(1 for _ in it) - 1
    ran = subprocess.run([program, "audit", history], capture_output=True, text=True, timeout=10 * LONGEST)
    same((ran.returncode, ran.stdout, ran.stderr), (0, f"legal {entries}\n", ""), "the audit")


