"""Scripts: by `run`, by `do` in a schedule, by an audit of what was saved, and as checks."""

from fuzzing.calls import Maker, make_script, sizes
from fuzzing.grammar import BAD, FULL, by_client, by_do, is_call, is_reply, told, whole_and_last
from fuzzing.model import Model
from fuzzing.program import Case, holds, same


def make(program, rng):
    case = Case([], **sizes(rng))
    case.lines = make_script(program, Maker(rng), 120, *case.words())
    return case


def judge_lines(case, lines, last, replies):
    """Each line is answered as by the rules, and by BadLine where it spells nothing of a client that is there."""
    same(len(replies), len(lines) + (last != ""), "how many replies there are")
    model = Model(case.nodes, case.history, case.abi)
    for number, (line, reply) in enumerate(zip([*lines, last], replies)):
        client, call = by_client(line)
        spells = number < len(lines) and client <= len(model.clients) and is_call(call)
        holds(is_reply(reply), f"{line!r:.99} is answered {reply!r:.99}")
        same(reply, model.answer(client, call) if spells else BAD, f"line {number + 1}, {line!r:.99}")


def judge(program, case):
    saved = program.room / "saved"
    replies = program.lines("run", "-", *case.words(), "--save", saved, text=case.text())
    lines, last = whole_and_last(case.text())
    judge_lines(case, lines, last, replies)
    entries = 1 + sum(reply not in (FULL, BAD) for reply in replies)
    schedule = "\n".join(["connect", *(by_do(line, 1) for line in lines), by_do(last, 1) if last else ""])
    outcomes = program.lines("schedule", "-", *case.words(), text=schedule)
    same(outcomes, ["client 1", *map(told, replies), f"legal {entries}"], "the schedule of `do` lines")
    same(program.lines("audit", saved), [f"legal {entries}"], "the audit")
    if FULL not in replies:
        judge_checks(program, case, [(line, reply) for line, reply in zip(lines, replies) if reply != BAD])


def false_reply(reply):
    """A reply that any command may get, and that isn't this one."""
    return "refused 18 ENXIO" if reply == "refused 3 ENOENT" else "refused 3 ENOENT"


def never(line):
    """A reply that no tree gives this command."""
    name = [it for it in line.split(" ") if not it.startswith("@")][0]
    return "ok" if name in ("open", "read", "write", "list", "stat", "ruleset", "spawn") else "fd .."


# Refusals that say nothing of a tree.
NO_REFUSALS = ("refused 21 HistoryFull", "refused 21 ..", "refused 22 NoMemory", "refused 22 ..")


def judge_vain(program, text, test, says):
    """The test, which no tree's answer passes, is a wrong line behind this text."""
    status, out, error = program.ran("check", "-", text=f"{text}{test}\n")
    same((status, out), (2, ""), f"the checks before {test!r:.99}")
    holds(says in error, f"a vain test is told as {error!r:.200}")


def judge_checks(program, case, pairs):
    """Each third reply is made a false one, and fails; of the others each fourth is told by its first word. Only a whole
    BadLine is met by a client that isn't there. A reply that never comes is a wrong line."""
    if not pairs:
        return
    text = f"@2 stat / = refused ..\n@2 stat / = {BAD}\n"
    for number, (line, reply) in enumerate(pairs, 1):
        short = f"{reply.split(' ')[0]} .." if number % 4 == 0 else reply
        text += f"{line} = {false_reply(reply) if number % 3 == 0 else short}\n"
    failed = len(pairs) // 3 + 1
    words = ["check", "-", "--quiet", "--nodes", str(case.nodes), "--abi", str(case.abi)]
    out = program.lines(*words, text=text, status=3)
    same(out[-1:], [f"{len(pairs) + 2 - failed} passed, {failed} failed"], "the checks")
    last = pairs[-1][0]
    judge_vain(program, text, f"{last} = {never(last)}", "never answers so")
    judge_vain(program, text, f"{last} = {NO_REFUSALS[len(pairs) % 4]}", "never refuses so")
