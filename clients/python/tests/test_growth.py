"""That the work of `convert` grows as its log does. It is counted in calls of functions, so the machine's load is no
matter."""

import json
import sys

from tests.support import Case

from landtree import Fault
from landtree.trace import convert

HOME = "/nowhere/w"


class Growth(Case):
    def work(self, lines, entries):
        """Returns how many functions are called, those of C too, to convert a log of these lines."""
        log = self.put("run.log", "".join(f"1 {it}\n" for it in (*lines, "+++ exited with 0 +++")))
        data = {"form": 1, "words": ["p"], "directory": HOME, "status": 0, "began": 1.0, "directories": ["/nowhere"]}
        found = {it: [kind, None, None] for it, kind in {"/nowhere": "dir", HOME: "dir", **entries}.items()}
        self.put("run.log.before", json.dumps({**data, "entries": found}))
        count = 0

        def called(_frame, event, _value):
            nonlocal count
            count += event in ("call", "c_call")

        sys.setprofile(called)
        try:
            convert(log)
        except Fault:
            pass  # There are more nodes than a tree has.
        finally:
            sys.setprofile(None)
        return count

    def wants_linear(self, logged, size=250):
        """Wants a log that is four times as long to take four times as much work, and not sixteen times."""
        small, large = self.work(*logged(size)), self.work(*logged(4 * size))
        self.assertLess(large, 5 * small)
        self.assertLess(large / (4 * size), 3_000)

    def test_directories_that_are_not_empty(self):
        def logged(size):
            entries = {f"{HOME}/d{it}": "dir" for it in range(size)}
            entries.update({f"{HOME}/d{it}/x": "reg" for it in range(size)})
            return [f'rmdir("{HOME}/d{it}") = -1 ENOTEMPTY (Directory not empty)' for it in range(size)], entries

        self.wants_linear(logged)

    def test_directories_in_which_something_is_made(self):
        def logged(size):
            calls = ('mkdir("{}/n", 0777) = 0', 'rmdir("{}/n") = 0')
            lines = [call.format(f"{HOME}/d{it}") for it in range(size) for call in calls]
            return lines, {f"{HOME}/d{it}": "dir" for it in range(size)}

        self.wants_linear(logged)

    def test_files_that_are_made_in_one_directory(self):
        self.wants_linear(lambda size: ([f'mkdir("{HOME}/n{it}", 0777) = 0' for it in range(size)], {}))

    def test_files_that_are_opened(self):
        def logged(size):
            files = [f"{HOME}/f{it}" for it in range(size)]
            return [f'open("{it}", O_RDONLY) = 3<{it}>' for it in files], dict.fromkeys(files, "reg")

        self.wants_linear(logged)

    def test_one_deep_path(self):
        def logged(size):
            paths = [HOME + "/a" * depth for depth in range(1, size + 1)]
            return [f'open("{paths[-1]}", O_RDONLY) = 3<{paths[-1]}>'], dict.fromkeys(paths, "dir")

        self.wants_linear(logged)

    def test_moves(self):
        self.wants_linear(lambda size: ([f'rename("{HOME}/n{it}", "{HOME}/n{it + 1}") = 0' for it in range(size)], {}))
