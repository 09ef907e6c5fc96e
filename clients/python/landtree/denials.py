"""The calls that layers have denied, as two logs of a program show them: one without layers, and one under them."""

from __future__ import annotations

from pathlib import Path
from typing import Callable, Dict, List, Sequence, Set, Tuple

from .errors import Fault
from .trace.log import Call, calls, descriptor_of, string_of
from .trace.reader import TRACED

# What Landlock refuses with: EPERM for mounts, ptrace, signals and abstract sockets.
REFUSED = ("EACCES", "EXDEV", "EPERM")
ENFORCED = "landlock_restrict_self"
# Calls that each layer restricts, beside those that are recorded. A question mark: an older strace may not know it.
ALWAYS = ("ptrace", "process_vm_readv", "process_vm_writev", "?pidfd_getfd", "kcmp")
OF_WORD: Dict[str, Tuple[str, ...]] = {
    "tcp": ("bind", "connect"),
    "ioctl_dev": ("ioctl",),
    "signal": ("kill", "tkill", "tgkill", "pidfd_send_signal", "rt_sigqueueinfo", "rt_tgsigqueueinfo"),
    "abstract_unix_socket": ("connect", "sendto", "sendmsg", "sendmmsg"),
}
Key = Tuple[str, ...]


def traced_calls(deny: Sequence[str]) -> List[str]:
    """Returns the calls to log of a program under a layer that denies these words too."""
    more = [call for word in deny for call in OF_WORD[word]]
    return list(dict.fromkeys([*TRACED, *ALWAYS, *more]))


def refused(log: Path) -> Set[Key]:
    """Returns the calls that were refused in the first run, under no layer."""
    return {named(call) for call in calls(log) if call.error in REFUSED}


def named(call: Call, back: Callable[[str], str] = str) -> Key:
    """Returns a call's name and the texts that it was given, by which the same call of another run is known.

    A call without a text is known by its other arguments, but for the numbers of descriptors. `back` is applied to each
    text.
    """
    texts = [it for it in map(string_of, call.arguments) if it is not None]
    texts = texts or [unnumbered(it) for it in call.arguments]
    return (call.name, *map(back, texts))


def unnumbered(argument: str) -> str:
    """Returns an argument as it is in another run, where descriptors and sockets have other numbers."""
    found = descriptor_of(argument) if "<" in argument else None
    return (found.path or "") if found else argument


def denied_of(log: Path, before: Set[Key], back: Callable[[str], str] = str) -> List[str]:
    """Returns a line for each call that was refused once the layers were on, and that wasn't refused before.

    `back` turns the texts of this run into those of the run before.
    """
    told: List[str] = []
    is_on = False
    for call in calls(log):
        is_on = is_on or (call.name == ENFORCED and call.is_done)
        if is_on and call.error in REFUSED and named(call, back) not in before:
            told.append(f"{log}:{call.line}: {shown(call)}: {call.error}")
    if not is_on:
        raise Fault(f"{log}: no layer was enforced, so the program wasn't run")
    return told


def shown(call: Call) -> str:
    """Returns a call for a reader, with the directory from which a relative path of it begins."""
    words = named(call)
    found = descriptor_of(call.arguments[0]) if call.arguments else None
    is_relative = len(words) > 1 and not words[1].startswith("/")
    return " ".join(words) + (f" in {found.path}" if found and found.path and is_relative else "")
