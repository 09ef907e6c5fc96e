"""Roots below which somebody else may write: links at each component, files of other kinds, and a directory that is
swapped for a link again and again."""

import os
import signal

from linux import system

from exports.profile import UNENFORCED, aged, also, ended, layer, made, policy_of, system_places

SECRET = "a secret outside"
SWAPS = 150
READ = "read_file"


def tree(room):
    """A root with /a/b/c/f, and beside it a directory with the same names and a secret."""
    for top, text in (("root", "inside"), ("outside", SECRET)):
        (made(room / top / "a/b/c") / "f").write_text(text, encoding="utf-8")
    return room / "root", room / "outside"


def both(confined, *words):
    """How it ends where the kernel has openat2(2), and where it hasn't."""
    return [ended(confined, *words), ended(confined, *words, NO_OPENAT2=1)]


def profile_below(program, room, path, kind):
    """A profile with one rule, on this path of the policy."""
    above = [path[:at] for at in range(1, len(path)) if path[at] == "/"]
    return policy_of(program, room, dict.fromkeys(above, "dir") | {path: kind}, layer(READ, **{path: READ}))


def try_links(tally, program, room):
    """A link in the place of each component of a rule's path, to outside and to inside, ends it with 125."""
    root, outside = tree(room)
    profile = profile_below(program, room, "/a/b/c", "dir")
    words = [*also(*system_places()), "--root", str(root)]
    strict, free = aged(profile, room, *words), None
    for status, out, _ in both(strict, "cat", str(root / "a/b/c/f")):
        tally.count((status, out) == (0, "inside"), f"a root without links: the status is {status}")
    for component in ("a", "a/b", "a/b/c"):
        for target in (outside / component, os.path.basename(component) + "~"):
            place = root / component
            os.rename(place, f"{place}~")
            os.symlink(target, place)
            for status, out, _ in both(strict, "cat", str(outside / "a/b/c/f")):
                tally.count((status, out) == (UNENFORCED, ""), f"a link for {component}: the status is {status}")
            os.unlink(place)
            os.rename(f"{place}~", place)
    os.rename(root / "a", root / "a~")
    os.symlink(outside / "a", root / "a")
    free = aged(profile, room, *words, "--follow")
    status, out, _ = ended(free, "cat", str(outside / "a/b/c/f"))
    tally.count((status, out) == (0, SECRET), f"a link with --follow: the status is {status}")


def try_kinds(tally, program, room):
    """A file of another kind than the policy's node ends it with 125."""
    root = made(room / "root")
    makers = {
        "reg": lambda at: at.touch(),
        "dir": lambda at: at.mkdir(),
        "sym": lambda at: at.symlink_to("/etc"),
        "fifo": lambda at: os.mkfifo(at),
    }
    for wanted in makers:
        profile = profile_below(program, room, "/x", wanted)
        confined = aged(profile, room, *also(*system_places()), "--root", str(root))
        for kind, make in makers.items():
            make(root / "x")
            for status, _, err in both(confined, "true"):
                is_well = status == (0 if kind == wanted else UNENFORCED)
                tally.count(is_well, f"{kind} for {wanted}: the status is {status}, {err}")
            (root / "x").rmdir() if kind == "dir" else (root / "x").unlink()


def try_link_itself(tally, program, room):
    """A rule on a node of kind sym is on the link, and not on what it leads to."""
    root, outside = tree(room)
    os.symlink(outside / "a/b/c/f", root / "l")
    profile = profile_below(program, room, "/l", "sym")
    for words in ([], ["--follow"]):
        confined = aged(profile, room, *also(*system_places()), "--root", str(root), *words)
        for status, out, _ in both(confined, "cat", str(root / "l")):
            tally.count(status == 1 and not out, f"a rule on a link lets its target be read: {status} {out}")


def swap_for_ever(root, outside):
    """In a process: a directory and a link to outside change places without end."""
    os.symlink(outside / "a/b", root / "a/l")
    child = os.fork()
    if child:
        return child
    try:
        while True:
            system.rename_with(root / "a/b", root / "a/l", system.EXCHANGE)
    finally:
        os._exit(1)


def try_swaps(tally, program, room):
    """A directory that is swapped for a link between two openings never lets the secret be read."""
    root, outside = tree(room)
    profile = profile_below(program, room, "/a/b/c", "dir")
    confined = aged(profile, room, *also(*system_places()), "--root", str(root))
    child, statuses = swap_for_ever(root, outside), set()
    try:
        for number in range(SWAPS):
            older = {"NO_OPENAT2": 1} if number % 2 else {}
            status, out, _ = ended(confined, "cat", str(outside / "a/b/c/f"), **older)
            statuses.add(status)
            tally.count(SECRET not in out and status in (1, UNENFORCED), f"swapped: {status}, {out}")
    finally:
        os.kill(child, signal.SIGKILL)
        os.waitpid(child, 0)
    tally.count(UNENFORCED in statuses, "the swaps never met an opening")


def try_colon(tally, program, room):
    """A colon in a path of --also parts nothing."""
    root, outside = tree(room)
    odd = made(room / "job:" / str(outside).lstrip("/"))
    (odd / "f").write_text("odd", encoding="utf-8")
    profile = profile_below(program, room, "/a", "dir")
    named = f"{room}/job:{outside}"
    confined = aged(profile, room, *also(named, *system_places()), "--root", str(root))
    tally.count(ended(confined, "cat", f"{named}/f")[1] == "odd", "a path with a colon can't be read")
    tally.count(ended(confined, "cat", f"{outside}/a/b/c/f")[1] == "", "what is behind a colon can be read")


TRIALS = try_links, try_kinds, try_link_itself, try_swaps, try_colon
