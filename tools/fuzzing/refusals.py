"""The program under refuse.c, which refuses it one call of the system; and connections, one after another, served so."""

import contextlib
import os
import re
import subprocess
import sys
from concurrent.futures import ThreadPoolExecutor
from dataclasses import dataclass
from pathlib import Path

from fuzzing.program import Differs, holds, same
from fuzzing.servers import Caller, Server, Sessions, family, has_entry, is_reply, wants_legal, wants_reply

TOP = Path(__file__).resolve().parent.parent.parent
STARVED = "refused 22 NoMemory"
# Seconds after which a program is taken for one that hangs, and is killed.
LONGEST = 30


class Refusing:
    """Refuses a program that it is loaded into one of its calls, as refuse.c tells."""

    def __init__(self, room):
        self.library, self.told = room / "refuse.so", room / "told"
        compiler = ["cc", "-shared", "-fPIC", "-O1", "-o", self.library, TOP / "tools/refuse.c", "-ldl"]
        subprocess.run(compiler, check=True)

    def env(self, what, which, error=0):
        more = {"LD_PRELOAD": str(self.library), "REFUSE_WHAT": what, "REFUSE_ERROR": str(error)}
        return {**os.environ, **more, "REFUSE": str(which), "REFUSE_TOLD": str(self.told)}

    def count(self):
        """How many calls there were that might have been refused."""
        return int.from_bytes(self.told.read_bytes(), sys.byteorder)


# ---- what is served

POLICY = """\
version = 1
[[node]]
path = "/a"
kind = "dir"
[[node]]
path = "/a/f"
kind = "reg"
data = "6869"
[[profile.reader.layer]]
handled = "write_file,read_file"
[[profile.reader.layer.rule]]
path = "/a"
rights = "read_file"
"""
# The calls of this policy's loader and profile, with their replies.
LOADED = [("make dir /a", "ok"), ("make reg /a/f", "ok"), ("open w /a/f", "fd 0"), ("write 0 0 6869", "wrote 2")]
LOADED += [("close 0", "ok")]
CONFINED = [("ruleset write_file,read_file", "ruleset 0"), ("allow 0 /a read_file", "ok"), ("confine 0", "ok")]


def few(number):
    """Lines of a connection, and their replies."""
    at = f"/w{number}"
    yield f"make dir {at}", "ok"
    yield f"open wc {at}/f", "fd 0"
    yield "write 0 0 6869", "wrote 2"
    yield f"rename {at}/f {at}/g", "ok"
    yield "spawn", "client 2"
    yield f"@2 stat {at}/g", "stat # reg 2 1"
    yield f"list {at}", "names g"


def few_confined(number):
    """Lines of a connection under the policy's profile, and their replies."""
    yield "open r /a/f", "fd 0"
    yield "read 0 0 9", "data 6869"
    yield "open w /a/f", "denied EACCES layer 1 write_file at"
    yield f"make reg /a/g{number}", "ok"
    yield f"open r /a/g{number}", "fd 1"


# What a serving knows of connections under this policy's profile.
UNDER_PROFILE = {"lines": few_confined, "loader": LOADED, "opening": CONFINED}


# ---- connections


def half_close(caller):
    """Ends what is sent, if the program hasn't closed the connection."""
    with contextlib.suppress(OSError):
        caller.half_close()


def by_line(caller, lines):
    """Sends a line when the one before was answered, and one that found no memory once more."""
    for line in lines:
        if caller.ask(line) == STARVED:
            caller.ask(line)
        if len(caller.told) < len(caller.sent):
            return
    half_close(caller)
    caller.wants_end()


def at_once(caller, lines):
    """Sends all lines, and then takes what comes."""
    with contextlib.suppress(ConnectionError):
        caller.say(*lines)
    half_close(caller)
    while caller.reply():
        pass


def talk(port, way, lines):
    """The lines that a connection has sent in such a way, with their replies, as far as whole ones came; and what came
    of the next one."""
    try:
        caller = Caller(port, longest=LONGEST)
    except ConnectionError:
        return [], ""
    with caller, contextlib.suppress(ConnectionError):
        way(caller, lines)
    return list(zip(caller.sent, caller.told)), caller.rest


@dataclass
class Ended:
    """How a serving ended: its status, standard error and standard output, its port, what each connection was told, by
    whole lines and of a further one, and the history that is saved, if one is."""

    status: int
    error: str
    out: str
    port: int
    told: list
    rests: list
    saved: str | None

    def wants_fault(self, status, line):
        """Wants it to have ended so, before it saved anything."""
        same((self.status, self.error, self.saved), (status, f"landtree: {line}\n", None), "how it ends")


class Serving:
    """The program serves so many connections one after another, by one worker; or all at once. What is known of them:
    the lines of each, with their replies by docs/MODEL.md, the calls before these, which the profile makes, and the
    loader's."""

    def __init__(self, program, refusing, room, connections, way, are_together=False, **options):
        self.program, self.refusing, self.saved = program, refusing, room / "saved"
        self.connections, self.way, self.are_together = connections, way, are_together
        self.lines, self.loader = options.pop("lines", family), options.pop("loader", None)
        self.opening = options.pop("opening", [])
        self.at_once = connections if are_together else 1
        self.options = {"workers": self.at_once, "connections": connections, "save": self.saved, **options}

    def drafts(self):
        return sorted(self.saved.parent.glob(f"{self.saved.name}.part*"))

    def run(self, what, which=0, error=0):
        """How it ends where the call of this kind and number is refused, by this error if it isn't the usual one."""
        for it in self.drafts():
            it.unlink()
        self.saved.unlink(missing_ok=True)
        env = self.refusing.env(what, which, error)
        with Server(self.program, env=env, longest=LONGEST, **self.options) as server:
            speak = lambda number: talk(server.port, self.way, [line for line, _ in self.lines(number)])
            with ThreadPoolExecutor(self.at_once) as pool:
                spoken = list(pool.map(speak, range(1, self.connections + 1 if server.told else 1)))
            status, out, error = server.ended()
        holds(status >= 0, f"it hangs, or ends by signal {-status}")
        saved = self.saved.read_text() if self.saved.exists() else None
        told, rests = [whole for whole, _ in spoken], [rest for _, rest in spoken]
        return Ended(status, error, out, server.port, told, rests, saved)

    def struck(self, ended):
        """The numbers of the connections that weren't told all, or of which a line found no memory. Wants what was told
        to be right as far as it goes."""
        struck = []
        for number, (told, rest) in enumerate(zip(ended.told, ended.rests), 1):
            wants, fed = list(self.lines(number)), [it for it in told if it[1] != STARVED]
            for (line, got), (asked, want) in zip(fed, wants):
                same(line, asked, "the line that was answered")
                wants_reply(got, want, line)
            if rest:
                holds(len(fed) < len(wants), f"{rest!r:.99} comes behind the last reply")
                known, _, _ = wants[len(fed)][1].partition("#")
                same(rest[: len(known)], known[: len(rest)], "the beginning of a reply")
            if len(told) != len(wants):
                struck.append(number)
        return struck

    def wants_served(self, ended, are_lost=True):
        """Wants all connections to have been served, and one of them struck at most. The saved history is legal, and
        has each call that was told, and no others but the next ones of the struck one, if their replies may be lost."""
        same((ended.status, ended.out), (0, f"listening {ended.port}\n"), "status and output")
        struck = self.struck(ended)
        holds(len(struck) <= 1, f"connections {struck} have other replies")
        wants_legal(self.program, self.saved)
        sessions = list(Sessions(self.saved).lines.values())
        if self.loader is not None:
            same(sessions[:1], [self.loader], "the loader's calls")
            del sessions[0]
        for number, told in enumerate(ended.told, 1):
            self.wants_session(sessions, number, told, number in struck, are_lost)
        same(sessions, [], "sessions of nobody")
        return struck

    def wants_session(self, sessions, number, told, is_struck, are_lost):
        """Takes the connection's session from the list, if it has one."""
        told = [it for it in told if has_entry(it[1])]
        wants = [it for it in self.lines(number) if has_entry(it[1])]
        made = next((it for it in sessions if self.is_session(it, told, wants)), None)
        holds(made is not None or is_struck and not told, f"the history hasn't what connection {number} was told")
        if made is None:
            return
        sessions.remove(made)
        count = max(0, len(made) - len(self.opening))
        if not is_struck:
            same(count, len(wants), f"how many calls the history has of connection {number}")
        elif not are_lost:
            same(count, len(told), f"how many calls the history has of connection {number}")

    def is_session(self, made, told, wants):
        """Whether these calls are the opening's, those that were told, and a beginning of those that were wanted."""
        lines, opening = made[len(self.opening) :], self.opening[: len(made)]
        is_begun = len(lines) <= len(wants) and made[: len(self.opening)] == opening and lines[: len(told)] == told
        return is_begun and all(a == c and is_reply(b, d) for (a, b), (c, d) in zip(lines, wants))


def ends_told(log):
    """How each connection ended, as the log tells it, by their numbers."""
    told = re.findall("^connection ([0-9]+) went: .*, ([^,\n]*)$", log, re.MULTILINE)
    return {int(number): how for number, how in told}


def fault_of(act, *words):
    """What is wrong by such a trial, or nothing."""
    try:
        act(*words)
    except (Differs, TimeoutError) as fault:
        return str(fault)
    return None
