"""The command line: each command's options, and how often each may be given.

An option that takes a list may be given again, and adds to the list then. Any other may be given once, so that no
command does half of what was asked for.
"""

from __future__ import annotations

import argparse
from typing import Any, Callable, Dict, FrozenSet, List, Optional, Sequence, Tuple, Union

from .values import Rights

COMMAND = "landtree-sandbox"
TAKES_PROGRAM = ("record", "exec", "try")
Values = Union[str, Sequence[Any], None]


class Single(argparse.Action):
    """Takes the value of an option that may be given once."""

    def __call__(
        self,
        parser: argparse.ArgumentParser,
        namespace: argparse.Namespace,
        values: Values,
        option_string: Optional[str] = None,
    ) -> None:
        given: FrozenSet[str] = getattr(namespace, "given", frozenset())
        if option_string is not None and self.dest in given:
            parser.error(f"{option_string} may be given once, and is given twice")
        namespace.given = given | {self.dest}
        self.take(parser, namespace, values)

    def take(self, parser: argparse.ArgumentParser, namespace: argparse.Namespace, values: Values) -> None:
        setattr(namespace, self.dest, values)


class Flag(Single):
    """Takes an option without a value, which may be given once."""

    def __init__(self, option_strings: Sequence[str], dest: str, help: Optional[str] = None) -> None:
        super().__init__(option_strings, dest, nargs=0, default=False, help=help)

    def take(self, parser: argparse.ArgumentParser, namespace: argparse.Namespace, values: Values) -> None:
        setattr(namespace, self.dest, True)


class Added(argparse.Action):
    """Adds the value of an option to what was given before: to a list, or to a set of rights."""

    def __call__(
        self,
        parser: argparse.ArgumentParser,
        namespace: argparse.Namespace,
        values: Any,
        option_string: Optional[str] = None,
    ) -> None:
        before = getattr(namespace, self.dest)
        if isinstance(before, Rights):
            setattr(namespace, self.dest, before | values)
        else:
            setattr(namespace, self.dest, [*before, *(it for it in values if it not in before)])


class Maps(argparse.Action):
    """Adds a map, unless one of the same directory was given before."""

    def __call__(
        self,
        parser: argparse.ArgumentParser,
        namespace: argparse.Namespace,
        values: Any,
        option_string: Optional[str] = None,
    ) -> None:
        before = getattr(namespace, self.dest)
        if values[0] in (inner for inner, _ in before):
            parser.error(f"{option_string} {values[0]}: one directory can't be two, and it is given twice")
        setattr(namespace, self.dest, [*before, values])


class Parser(argparse.ArgumentParser):
    """A parser whose options may be given once, unless an action adds up."""

    def __init__(self, **how: Any) -> None:
        super().__init__(allow_abbrev=False, **how)
        for name in (None, "store"):
            self.register("action", name, Single)
        self.register("action", "store_true", Flag)
        self.register("action", "add", Added)
        self.register("action", "map", Maps)


# ---- words


def map_of(text: str) -> Tuple[str, str]:
    inner, sign, real = text.partition("=/")
    if not sign or not inner.startswith("/") or "=/" in real:
        raise argparse.ArgumentTypeError(f"/IN=/OUT is expected, with one sign =: {text}")
    return inner, f"/{real}"


def rights_of(text: str) -> Rights:
    try:
        return Rights.of(text)
    except ValueError as error:
        raise argparse.ArgumentTypeError(str(error)) from None


def list_of(text: str) -> List[str]:
    return text.split(",")


def one_of(text: str) -> List[str]:
    """Returns a list of one, to be added to others."""
    return [text]


# ---- the options of each command


def add_record(parser: Parser) -> None:
    parser.add_argument("--to", metavar="LOG", default="run.log", help="a new file for the log [default: run.log]")
    add_changes(parser)
    add_rights(parser, "--never", "refer keeps the program from moves and links between directories")


def add_convert(parser: Parser) -> None:
    parser.add_argument("log", metavar="LOG", help="a log that `record` has made")
    parser.add_argument("--nodes", metavar="FILE", help="for the policy's nodes [default: LOG with .nodes.toml]")
    parser.add_argument("--checks", metavar="FILE", help="for the file of checks [default: LOG with .check]")
    parser.add_argument("--whole", action="store_true", help="keep also the calls that ask for nothing new")
    parser.add_argument("--replace", action="store_true", help="replace files that are there")


def add_exec(parser: Parser) -> None:
    add_program(parser)
    parser.add_argument("--policy", metavar="FILE", required=True, help="a policy")
    parser.add_argument("--profile", metavar="NAME", required=True, help="the profile whose layers are enforced")
    add_places(parser)
    add_list(parser, "--optional", "PATH", "a rule's path that may be missing")
    add_list(parser, "--also", "PATH", "a path to read and execute too")
    add_list(parser, "--checked", "FILE", "a file of checks that must pass first")
    parser.add_argument("--follow", action="store_true", help="follow links on the paths of rules")
    parser.add_argument("--best-effort", action="store_true", help="enforce what the kernel knows")
    parser.add_argument("--quiet", action="store_true", help="print faults only, no warnings")
    add_deny(parser)


def add_try(parser: Parser) -> None:
    add_program(parser)
    help_text = "a new directory for the log, the policy and the checks [default: landtree.try]"
    parser.add_argument("--to", metavar="DIR", default="landtree.try", help=help_text)
    add_changes(parser)
    add_learning(parser)
    help_text = "run it the second time where it was run first, and not in a copy"
    parser.add_argument("--in-place", action="store_true", help=help_text)
    add_deny(parser)


def add_learn(parser: Parser) -> None:
    add_program(parser)
    parser.add_argument("files", metavar="CHECKS", nargs="+", help="files of checks, as `convert` makes them")
    parser.add_argument("--policy", metavar="FILE", required=True, help="a policy with the nodes that are there first")
    add_learning(parser)


def add_lint(parser: Parser) -> None:
    add_program(parser)
    parser.add_argument("policy", metavar="POLICY", help="a policy")
    help_text = "the log of a run [default: run.log beside the policy, if it is there]"
    parser.add_argument("--log", metavar="LOG", help=help_text)
    add_places(parser)


def add_places(parser: Parser) -> None:
    parser.add_argument("--root", metavar="DIR", help="the directory that stands for the policy's root [default: /]")
    help_text = "have a real directory stand for a directory of the policy"
    parser.add_argument("--map", metavar="/IN=/OUT", type=map_of, action="map", default=[], help=help_text)


def add_learning(parser: Parser) -> None:
    parser.add_argument("--name", default="learned", help="the profile's name [default: learned]")
    add_rights(parser, "--never", "rights never to grant")
    add_list(parser, "--beneath", "DIR", "a directory whose files share one rule")
    parser.add_argument("--most", metavar="N", type=int, help="the most rules")


def add_changes(parser: Parser) -> None:
    help_text = "a directory whose files the program may change, beside the working directory"
    add_list(parser, "--changes", "DIR", help_text)


def add_program(parser: Parser) -> None:
    help_text = "the program landtree [default: as on the PATH]"
    parser.add_argument("--program", metavar="FILE", default="landtree", help=help_text)


def add_deny(parser: Parser) -> None:
    help_text = "any of tcp, ioctl_dev, signal and abstract_unix_socket, with commas between"
    parser.add_argument("--deny", metavar="LIST", type=list_of, action="add", default=[], help=help_text)


def add_list(parser: Parser, option: str, metavar: str, help_text: str) -> None:
    parser.add_argument(option, metavar=metavar, type=one_of, action="add", default=[], help=help_text)


def add_rights(parser: Parser, option: str, help_text: str) -> None:
    parser.add_argument(option, metavar="RIGHTS", type=rights_of, action="add", default=Rights.NONE, help=help_text)


COMMANDS: Dict[str, Tuple[Callable[[Parser], None], str]] = {
    "record": (add_record, "Runs a program under strace and keeps the log"),
    "convert": (add_convert, "Turns a log into a policy's nodes and a file of checks"),
    "learn": (add_learn, "Prints the profile under which the tests of files of checks pass"),
    "exec": (add_exec, "Runs a program under a profile's layers, by the kernel's Landlock"),
    "try": (add_try, "Records a program, learns its profile, and runs it under this profile"),
    "lint": (add_lint, "Looks in a policy for what its author may not want"),
}


def parser_of() -> Tuple[Parser, Dict[str, Parser]]:
    """Returns the parser of the command line, and that of each command."""
    parser = Parser(prog=COMMAND)
    commands = parser.add_subparsers(dest="command", metavar="COMMAND", required=True)
    parsers: Dict[str, Parser] = {}
    for name, (add, text) in COMMANDS.items():
        usage = f"{COMMAND} {name} [OPTION].. -- PROGRAM [WORD].." if name in TAKES_PROGRAM else None
        parsers[name] = commands.add_parser(name, help=text, description=text, usage=usage)
        add(parsers[name])
    return parser, parsers


def parsed(words: Sequence[str]) -> argparse.Namespace:
    """Returns the options of a command. The program's words come after `--`, and are never taken for options."""
    before, after = list(words), []
    if words[:1] and words[0] in TAKES_PROGRAM and "--" in words:
        place = words.index("--")
        before, after = list(words[:place]), list(words[place + 1 :])
    parser, _ = parser_of()
    options = parser.parse_args(before)
    if options.command in TAKES_PROGRAM and not after:
        parser.error(f"{options.command}: -- and a program are needed at the end")
    options.words = after
    return options
