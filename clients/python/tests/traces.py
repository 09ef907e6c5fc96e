"""Reads logs that are written by hand, of trees that are there in words alone."""

from unittest import mock

from tests.support import Case

from landtree.trace.inventory import Entry, Inventory
from landtree.trace.reader import read


class Tracing(Case):
    FILES = {
        "/": "dir",
        "/w": "dir",
        "/w/f": "reg",
        "/w/g": "reg",
        "/w/d": "dir",
        "/w/d/x": "reg",
        "/w/d/e": "dir",
        "/w/empty": "dir",
        "/w/to-f": "-> f",
        "/w/to-d": "-> /w/d",
        "/w/loop": "-> loop",
        "/w/up": "-> d/../f",
        "/w/fifo": "fifo",
        "/dev": "dir",
        "/dev/null": "char",
        "/proc": "dir",
        "/proc/filesystems": "reg",
        "/proc/self": "-> 999",
    }

    def entry(self, text):
        return Entry("sym", text[3:]) if text.startswith("-> ") else Entry(text)

    def read(self, *lines, files=(), directory="/w", listed="/"):
        """Returns what comes of these lines, each a call of process 7 if it has no number.

        Of a directory that isn't `listed` it is known what was there, but not what wasn't.
        """
        text = "".join(f"{it}\n" if it[0].isdigit() else f"7 {it}\n" for it in lines)
        numbers = sorted({it.split(" ")[0] for it in text.splitlines()})
        text += "".join(f"{it} +++ exited with 0 +++\n" for it in numbers)
        log = self.room / "log"
        log.write_text(text)
        found = {path: self.entry(it) for path, it in {**self.FILES, **dict(files)}.items()}
        inventory = Inventory([listed], 0.0, found)
        with mock.patch.object(Inventory, "entry", lambda self, path: self.entries.get(path)):
            return read(log, inventory, directory)

    def commands(self, *lines, **options):
        return [command.text for event in self.read(*lines, **options).events for command in event.commands]

    def asks(self, *lines, **options):
        """Returns each right that is asked, and the path of the last node that was there at first."""
        trace = self.read(*lines, **options)
        found = []
        for ask in (it for event in trace.events for it in event.asks):
            starts = [node.start for node in ask.chain if node.start and node.is_lasting]
            found.append((ask.right, starts[-1]))
        return found

    def notes(self, *lines, **options):
        return [(it.line, it.text) for it in self.read(*lines, **options).notes]
