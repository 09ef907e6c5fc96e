"""Runs programs under strace to their ends, and hands them the signals that ask this process to end."""

from __future__ import annotations

import contextlib
import os
import signal
import subprocess
import threading
import time
from concurrent.futures import ThreadPoolExecutor
from pathlib import Path
from types import FrameType
from typing import Any, Callable, Dict, Iterator, List, Mapping, Optional, Sequence, Set

from .. import landlock
from ..errors import Fault

ENDING = (signal.SIGTERM, signal.SIGHUP)
# After how many seconds this looks again for processes that are to get a signal.
PAUSE = 0.05

Handler = Callable[[int, Optional[FrameType]], None]


class Run:
    """A program under strace. `status` is how it has ended, and `signal` the last that asked this process to end."""

    def __init__(self) -> None:
        self.status = 0
        self.signal: Optional[int] = None
        self._strace: Optional[int] = None

    def handle(self, number: int, _: Optional[FrameType]) -> None:
        """Leaves it to the program whether to end. strace itself lets none of these signals end it."""
        self.signal = number
        if self._strace is not None:
            pass_on(self._strace, number)

    def wait_for(self, strace: "subprocess.Popen[bytes]") -> None:
        self._strace = strace.pid
        if self.signal is not None:
            pass_on(strace.pid, self.signal)
        self.status = strace.wait()


class Starter:
    """A thread that starts programs, and is under the layer of a ruleset if there is one: so are the programs then.

    A program under a layer can look into this thread, as its layers are the same, but not into others of this process.
    """

    def __init__(self, layer: Optional[int] = None) -> None:
        self._pool = ThreadPoolExecutor(1)
        self.thread = self._pool.submit(threading.get_native_id).result()
        if layer is not None:
            try:
                self._pool.submit(landlock.restrict_self, layer).result()
            except OSError:
                self._pool.shutdown()
                raise Fault("the kernel enforces no layer on the program: a process has 16 at most") from None

    def start(self, words: Sequence[str], how: Mapping[str, Any]) -> "subprocess.Popen[bytes]":
        return self._pool.submit(lambda: subprocess.Popen(words, **how)).result()

    @contextlib.contextmanager
    def ending(self) -> "Iterator[Starter]":
        """Ends the thread after a block."""
        with self._pool:
            yield self


def run_traced(
    words: Sequence[str],
    *,
    directory: Optional[str] = None,
    environment: Optional[Mapping[str, str]] = None,
    starter: Optional[Starter] = None,
) -> Run:
    """Runs a strace and its program to the end.

    An interrupt from the terminal is left to the program. A signal that asks this process to end goes to the program
    and to all whom it has started.
    """
    run = Run()
    # The program has this process's descriptors, as it has under `exec`.
    how: Dict[str, Any] = {"cwd": directory, "env": environment, "close_fds": False}
    with handled({signal.SIGINT: lambda *_: None, **{it: run.handle for it in ENDING}}):
        with starter.start(words, how) if starter else subprocess.Popen(words, **how) as strace:
            run.wait_for(strace)
    return run


def pass_on(strace: int, number: int) -> None:
    """Sends a signal to all processes that a strace follows, and returns when strace has ended.

    Once all of these have ended, those that are left get it: they were started at that moment. What a program starts
    while it handles the signal isn't disturbed. Lower numbers get it first, so that a shell ends before its child does,
    and doesn't go on with its next command.
    """
    sent: Set[int] = set()
    while not has_ended(strace):
        followed = followed_by(strace)
        if sent.isdisjoint(followed):
            for it in followed:
                with contextlib.suppress(OSError):  # It has ended meanwhile.
                    os.kill(it, number)
            sent.update(followed)
        time.sleep(PAUSE)


def has_ended(child: int) -> bool:
    """Says whether a child of this process has ended, and leaves it to be waited for."""
    try:
        return os.waitid(os.P_PID, child, os.WEXITED | os.WNOHANG | os.WNOWAIT) is not None
    except ChildProcessError:
        return True


def followed_by(strace: int) -> List[int]:
    """Returns the processes that a strace follows, from when the program is executed on.

    Before that it follows copies of itself, by which it finds out what the kernel can do, and last the later program.
    """
    own, traced = read_of(strace, "cmdline"), f"\nTracerPid:\t{strace}\n"
    if not own:
        return []  # It isn't executed yet, or has ended.
    processes = sorted(int(it) for it in os.listdir("/proc") if it.isdigit() and traced in read_of(it, "status"))
    return [it for it in processes if read_of(it, "cmdline") not in ("", own)]


def read_of(process: "int | str", file: str) -> str:
    """Returns what a file of /proc says of a process, or nothing if the process has ended."""
    try:
        return Path(f"/proc/{process}/{file}").read_text(encoding="utf-8", errors="replace")
    except OSError:
        return ""


@contextlib.contextmanager
def handled(handlers: Mapping[signal.Signals, Handler]) -> Iterator[None]:
    """Handles signals of the main thread so, except those that are ignored.

    Programs that are run meanwhile handle them as they did before.
    """
    is_main = threading.current_thread() is threading.main_thread()
    heeded = [it for it in handlers if is_main and signal.getsignal(it) not in (signal.SIG_IGN, None)]
    before = {it: signal.signal(it, handlers[it]) for it in heeded}
    try:
        yield
    finally:
        for it, handler in before.items():
            signal.signal(it, handler)
