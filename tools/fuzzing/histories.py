"""Histories, saved and mostly forged: an audit's answer by the grammar and by a schedule of the entries' calls."""

import re

from fuzzing.calls import Maker, make_script, sizes
from fuzzing.grammar import CALLS, ERRNOS, KINDS, REPLIES, RIGHTS, entry_of, header_of, is_number, whole_and_last
from fuzzing.program import Case, holds, same

VOCABULARY = [KINDS, RIGHTS, ERRNOS, [*CALLS, *REPLIES], ["at", "old", "new"], ["/", "/a", "/b", "/a/b"]]
VOCABULARY += [["r", "w", "rw", "rt", "wc", "rwtc", "rcx"]]
REFUSED = ["refused 3 ENOENT", "refused 13 ENOSPC", "refused 21 HistoryFull", "refused 24 Stale"]
ODD_REPLIES = ["ok", "names", "client 2", "client 7", "fd 0", *REFUSED, "denied EACCES layer 1 read_dir at"]
ODD_ENTRIES = ["connect = ok", "connect = refused 12 EMFILE", "spawn = client 9", "make reg /f = refused 13 ENOSPC"]


# ---- forging them


def other_word(rng, word):
    if is_number(word):
        near = [int(word) + 1, max(0, int(word) - 1), int(word) * 10]
        return str(rng.choice([0, 1, *near, 2**64 - 1, 2**64, f"0{word}"]))
    return rng.choice(next((words for words in VOCABULARY if word in words), [f"{word}a", "ok", "=", "", word.upper()]))


def other_line(rng, line, others):
    """The line with a word, a letter or its reply changed, or gone, doubled, or with another one behind it."""
    words, column = line.split(" "), rng.randrange(len(line) + 1)
    word = rng.randrange(len(words))
    call, _, _ = line.rpartition(" = ")
    reply = rng.choice([rng.choice(others).rpartition(" = ")[2], *ODD_REPLIES])
    odd = f"{rng.choice([1, 2, 7, 2**64 - 1])} {rng.choice(ODD_ENTRIES)}"
    changed = [" ".join([*words[:word], other_word(rng, words[word]), *words[word + 1 :]])]
    replied = [f"{call} = {reply}"]
    letter = rng.choice([" ", "0", "a", "=", "\r", "\x80", "/", ""])
    edited = [line[:column] + letter + line[column + (letter == "") :]]
    more = [[], [line, line], [line, rng.choice(others)], [line, odd], [line, ""]]
    return rng.choice([changed, changed, changed, replied, replied, edited, edited, *more])


def forged(rng, lines):
    """The history with one thing changed, which may mean the same."""
    if not lines:
        return lines
    at, what = rng.randrange(len(lines)), rng.random()
    if what < 0.05:
        return [*lines[:at], lines[at][: rng.randrange(len(lines[at]) + 1)]]
    if what < 0.1:
        version, nodes = rng.choice([0, 1, 2, 3, 9]), rng.choice([0, 1, 2, 5, 64, 4096, 4097])
        level = "" if version == 1 else f" abi {rng.choice([1, 2, 3, 4])}"
        return [f"landtree-history {version} nodes {nodes}{level}", *lines[1:]]
    return [*lines[:at], *other_line(rng, lines[at], lines), *lines[at + 1 :]]


def make(program, rng):
    case, saved = Case([], **sizes(rng)), program.room / "saved"
    case.lines = make_script(program, Maker(rng), 60, *case.words())
    program.lines("run", "-", *case.words(), "--save", saved, text=case.text())
    lines = saved.read_bytes().decode("latin-1").split("\n")
    for _ in range(rng.choice([0, 1, 1, 1, 1, 1, 2, 3])):
        lines = forged(rng, lines)
    return Case(lines)


# ---- judging them


def step_of(numbers, client, call, reply):
    """The line of a schedule that makes the entry, and its outcome if the entry is legal; nothing where none can be.

    A history may number its clients otherwise than a schedule does; `numbers` has the schedule's.
    """
    if (call == "connect") == (client in numbers):
        return None
    if call == "connect":
        numbers[client] = len(numbers) + 1
        return "connect", f"client {len(numbers)}" if reply == "ok" else "none"
    by = numbers[client]
    if call == "spawn" and reply.startswith("client "):
        if reply[7:] in numbers:
            return None
        numbers[reply[7:]] = len(numbers) + 1
        reply = f"client {len(numbers)}"
    return f"@{by} do {call}", f"reply {reply}"


def by_schedule(program, nodes, abi, entries):
    numbers, steps = {}, []
    for entry in entries:
        step = step_of(numbers, *entry)
        if step is None:
            break
        steps.append(step)
    words = ["--nodes", nodes, "--abi", abi, "--history", str(len(entries) + 1)]
    outcomes = program.lines("schedule", "-", *words, text="".join(f"{line}\n" for line, _ in steps))
    wrong = next((k for k, (step, it) in enumerate(zip(steps, outcomes), 1) if step[1] != it), len(steps) + 1)
    return f"illegal at {wrong}" if wrong <= len(entries) else f"legal {len(entries)}"


def wanted(program, text):
    """The audit's answer; nothing where no schedule can tell it, as its spawned clients always get descriptors."""
    lines, last = whole_and_last(text)
    header = header_of(lines[0]) if lines else None
    if header is None:
        return "bad line 1"
    entries = [entry_of(line) for line in lines[1:]]
    if None in entries or last:
        return f"bad line {2 + (entries.index(None) if None in entries else len(entries))}"
    version, nodes, abi = header
    if version != "3" and any(call == "spawn" for _, call, _ in entries):
        return None
    return by_schedule(program, nodes, abi, entries)


def judge(program, case):
    want = wanted(program, case.text())
    status, answer, error = program.ran("audit", "-", text=case.text())
    if want is None:
        holds(re.fullmatch("legal [0-9]+\n|illegal at [1-9][0-9]*\n", answer), f"the audit answers {answer!r:.99}")
    else:
        same(answer, f"{want}\n", "the audit")
    same((status, error), (0 if answer.startswith("legal") else 3, ""), "how the audit ends")
