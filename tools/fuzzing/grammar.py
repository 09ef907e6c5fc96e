"""Which lines spell what: the grammar of docs/PROGRAM.md, written once more without the program."""

import re

RIGHTS = (
    "execute write_file read_file read_dir remove_dir remove_file make_char make_dir make_reg make_sock make_fifo "
    "make_block make_sym refer truncate"
).split()
KINDS = "reg dir sym fifo sock char block".split()
ERRNOS = (
    "EACCES EXDEV ENOENT EEXIST ENOTDIR EISDIR ENOTEMPTY EINVAL EPERM EBUSY EBADF EMFILE ENOSPC EMLINK ENAMETOOLONG "
    "EFBIG ELOOP ENXIO E2BIG ENOMSG HistoryFull NoMemory BadLine"
).split()
FULL, NO_MEMORY, BAD = "refused 21 HistoryFull", "refused 22 NoMemory", "refused 23 BadLine"
REFUSALS = [f"refused {number} {name}" for number, name in enumerate(ERRNOS, 1) if number > 2]
MOVES = ("rename", "rename_noreplace", "exchange")


def is_number(word):
    return re.fullmatch("0|[1-9][0-9]{0,19}", word) is not None and int(word) < 2**64


def is_rights(word):
    if word.startswith("0x"):
        return re.fullmatch("0x[1-9a-f][0-9a-f]{0,15}", word) is not None and int(word, 16) >= 1 << len(RIGHTS)
    names = word.split(",")
    return word == "none" or names == [right for right in RIGHTS if right in names]


def matches(form):
    return lambda word: re.fullmatch(form, word) is not None


TESTS = {
    "number": is_number,
    "path": matches("[!-~]{1,8000}"),
    "kind": KINDS.__contains__,
    "mode": matches("(r|w|rw)t?(cx?)?"),
    "hex": matches("-|([0-9a-f]{2}){1,4096}"),
    "rights": is_rights,
}
CALLS = {word: ["path"] for word in ("list", "stat", "exec", "unlink", "rmdir")}
CALLS |= {word: ["path", "path"] for word in (*MOVES, "link")}
CALLS |= {"make": ["kind", "path"], "open": ["mode", "path"], "truncate": ["path", "number"], "ruleset": ["rights"]}
CALLS |= {"read": ["number"] * 3, "write": ["number", "number", "hex"], "ftruncate": ["number"] * 2, "spawn": []}
CALLS |= {"close": ["number"], "allow": ["number", "path", "rights"], "confine": ["number"]}
ON_DESCRIPTOR = ("read", "write", "ftruncate", "close")
REPLIES = {word: ["number"] for word in ("fd", "wrote", "ruleset", "client")}
REPLIES |= {"ok": [], "data": ["hex"], "stat": ["number", "kind", "number", "number"]}


def fits(forms, text):
    """Whether the text is a word of the table and what has to follow it."""
    word, *others = text.split(" ")
    form = forms.get(word)
    return form is not None and len(form) == len(others) and all(TESTS[it](other) for it, other in zip(form, others))


def is_call(text):
    return fits(CALLS, text)


def is_name(word):
    return re.fullmatch("[!-.0-~]{1,255}", word) is not None and word not in (".", "..")


def is_path(word):
    """Whether the word spells a path, and isn't refused by its text."""
    names = word[1:].split("/") if word != "/" else []
    begins = re.fullmatch("/[!-~]*", word) is not None and len(word) <= 4095
    return begins and len(names) <= 64 and all(map(is_name, names))


def is_denial(others):
    if len(others) != 5:
        return False
    errno, layer, number, right, place = others
    is_cause = errno in ("EACCES", "EXDEV") and layer == "layer"
    return is_cause and is_number(number) and right in RIGHTS and place in ("at", "old", "new")


def is_reply(text):
    word, *others = text.split(" ")
    if word == "refused":
        return text in REFUSALS
    if word == "denied":
        return is_denial(others)
    if word == "names":
        return all(map(is_name, others)) and all(a < b for a, b in zip(others, others[1:]))
    return fits(REPLIES, text)


def is_refused(reply):
    return reply.startswith(("refused ", "denied "))


def entry_of(line):
    """Client, call and reply of a history's line, or nothing. The call ends where its form says: `=` may be a path."""
    client, *words = line.split(" ")
    end = 1 + (len(CALLS.get(words[0], [])) if words else 0)
    call, reply = " ".join(words[:end]), " ".join(words[end + 1 :])
    is_entry = words[end : end + 1] == ["="] and (call == "connect" or is_call(call)) and is_reply(reply)
    is_kept = reply not in (FULL, NO_MEMORY, BAD)
    return (client, call, reply) if is_number(client) and is_entry and is_kept else None


def header_of(line):
    """Version, nodes and level of a history's header, or nothing."""
    form = re.fullmatch("landtree-history (?:(1)|([23])) nodes ([1-9][0-9]{0,3})(?: abi ([123]))?", line)
    if not form or bool(form[1]) == bool(form[4]) or int(form[3]) > 4096:
        return None
    return form[1] or form[2], form[3], form[4] or "3"


def by_client(line):
    """The client that a script's line names, where it does so rightly, and the rest of the line; else the first."""
    named = re.fullmatch("@([^ ]*) (.*)", line)
    if named and is_number(named[1]) and int(named[1]) > 1:
        return int(named[1]), named[2]
    return 1, line


def by_do(line, first):
    """The schedule's line that has the script's client make the line, where its first client is the `first` there."""
    client, call = by_client(line)
    return f"@{client + first - 1} do {call}"


def told(reply):
    """A reply as an outcome of `do`."""
    return reply if reply == BAD else f"reply {reply}"


def whole_and_last(text):
    """The lines that a line feed ends, and what stands after the last one."""
    *whole, last = text.split("\n")
    return whole, last
