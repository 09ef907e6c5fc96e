"""Files of checks and policies, as docs/PROGRAM.md has them."""

import tomllib

from fuzzing.grammar import CALLS, by_client, is_call
from linux.comparison import Case, Test


class Unread(Exception):
    """A line or a policy that says nothing."""


def test_of(number, line):
    """The command of a line of a file of checks: it ends where its form says, and what must come stands behind it."""
    client, rest = by_client(line)
    words = rest.split(" ")
    call = " ".join(words[: 1 + len(CALLS.get(words[0], []))])
    if not is_call(call):
        raise Unread(f"line {number} has no command: {line!r:.99}")
    return Test(number, client, call)


def tests_of(text):
    lines = enumerate(text.split("\n"), 1)
    return [test_of(number, line) for number, line in lines if line.strip(" ") and not line.startswith("#")]


def read_case(file, policy, profile, abi):
    with open(file, encoding="latin-1", newline="") as it:
        tests = tests_of(it.read())
    if policy is None:
        return Case(tests, ["--abi", str(abi)])
    with open(policy, "rb") as it:
        document = tomllib.load(it)
    layers = []
    if profile is not None:
        if profile not in document.get("profile", {}):
            raise Unread(f"{policy} has no profile {profile}")
        layers = document["profile"][profile].get("layer", [])
    words = ["--policy", policy, *(["--profile", profile] if profile is not None else [])]
    return Case(tests, words, document.get("node", []), layers)
