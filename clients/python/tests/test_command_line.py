"""The command line: each option of each command, given once and given twice."""

import contextlib
import io

from tests.support import Case

from landtree import Rights
from landtree.command_line import Added, Flag, Maps, Single, TAKES_PROGRAM, parsed, parser_of

# Two values for an option of each kind, and what both together are.
VALUES = {
    "RIGHTS": ("read_file", "make_sock", Rights.READ_FILE | Rights.MAKE_SOCK),
    "LIST": ("tcp,ioctl_dev", "ioctl_dev,signal", ["tcp", "ioctl_dev", "signal"]),
    "/IN=/OUT": ("/a=/b", "/c=/d", [("/a", "/b"), ("/c", "/d")]),
    "N": ("1", "2", None),
}
ADDING = {"--also", "--beneath", "--changes", "--checked", "--deny", "--map", "--never", "--optional"}


def all_options():
    """Yields each command, and each of its options but --help."""
    for command, parser in parser_of()[1].items():
        for action in parser._actions:
            if action.option_strings and action.dest != "help":
                yield command, action


def needed_words(command, but=""):
    """The words without which a command is refused."""
    options = {"exec": ["--policy=p", "--profile=p"], "learn": ["--policy=p"]}.get(command, [])
    files = {"convert": ["log"], "learn": ["checks"], "lint": ["policy"]}.get(command, [])
    return [it for it in options if not it.startswith(f"{but}=")] + files


class Options(Case):
    def taken(self, command, action, *values):
        """Returns what a command takes of an option that is given with each of these values."""
        (option,) = action.option_strings
        words = [option if it is None else f"{option}={it}" for it in values]
        end = ["--", "true"] if command in TAKES_PROGRAM else []
        return getattr(parsed([command, *words, *needed_words(command, option), *end]), action.dest)

    def refusal(self, *words):
        """Returns the last line with which a command line is refused."""
        told = io.StringIO()
        with contextlib.redirect_stderr(told), self.assertRaises(SystemExit) as caught:
            self.taken(*words) if not isinstance(words[0], list) else parsed(words[0])
        self.assertEqual(caught.exception.code, 2)
        return told.getvalue().splitlines()[-1]

    def values_of(self, action):
        if isinstance(action, Flag):
            return None, None, None
        return VALUES.get(action.metavar, ("/a", "/b", ["/a", "/b"]))

    def test_each_option_twice(self):
        adding, options = set(), list(all_options())
        self.assertGreater(len(options), 30)
        for command, action in options:
            one, two, both = self.values_of(action)
            (option,) = action.option_strings
            with self.subTest(command=command, option=option):
                self.taken(command, action, one)
                if isinstance(action, Single):
                    said = f"landtree-sandbox {command}: error: {option} may be given once, and is given twice"
                    self.assertEqual(self.refusal(command, action, one, two), said)
                    self.assertEqual(self.refusal(command, action, one, one), said)
                else:
                    self.assertIsInstance(action, (Added, Maps))
                    self.assertEqual(self.taken(command, action, one, two), both)
                    adding.add(option)
        self.assertEqual(adding, ADDING)

    def test_one_value_twice(self):
        options = {action.option_strings[0]: (command, action) for command, action in all_options()}
        for option, value, wanted in (
            ("--deny", "tcp", ["tcp"]),
            ("--never", "refer", Rights.REFER),
            ("--optional", "/f", ["/f"]),
        ):
            self.assertEqual(self.taken(*options[option], value, value), wanted)

    def test_one_directory_that_is_mapped_twice(self):
        words = ["exec", "--map=/s=/a", "--map=/s=/b", *needed_words("exec"), "--", "true"]
        said = "landtree-sandbox exec: error: --map /s: one directory can't be two, and it is given twice"
        self.assertEqual(self.refusal(words), said)

    def test_statuses(self):
        for words, status in ((["exec", "--root=/", "--root=/", "--policy=p", "--profile=p", "--", "true"], 125),
                              (["lint", "--program=a", "--program=b", "p"], 2)):
            ended = self.run_command(*words)
            self.assertEqual((ended.returncode, ended.stdout), (status, ""))
            self.assertIn(" may be given once, and is given twice\n", ended.stderr)
