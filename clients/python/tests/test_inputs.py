"""Which files a program only read."""

import json
import os

from tests.support import Case
from tests.traces import Tracing

from landtree.trace import convert, files_only_read
from landtree.trace.inputs import only_read


class OnlyRead(Tracing):
    def test_calls(self):
        for call, files in {
            'open("f", O_RDONLY) = 3</w/f>': ["/w/f"],
            'open("to-d/x", O_RDONLY) = 3</w/d/x>': ["/w/d/x"],
            'open("f", O_RDWR) = 3</w/f>': [],
            'open("f", O_WRONLY|O_TRUNC) = 3</w/f>': [],
            'truncate("f", 0) = 0': [],
            'open("d", O_RDONLY) = 3</w/d>': [],
            'open("new", O_RDWR|O_CREAT, 0666) = 3</w/new>': [],
            'open("/dev/null", O_RDONLY) = 3</dev/null>': [],
            'open("/proc/self/maps", O_RDONLY) = 3</proc/7/maps>': [],
        }.items():
            self.assertEqual(only_read(self.read(call).events), files, call)

    def test_what_comes_after(self):
        first = ['open("f", O_RDONLY) = 3</w/f>', 'open("g", O_RDONLY) = 4</w/g>']
        self.assertEqual(only_read(self.read(*first).events), ["/w/f", "/w/g"])
        for call in ('unlink("f") = 0', 'rename("f", "n") = 0', 'rename("n", "f") = 0', 'truncate("f", 1) = 0'):
            self.assertEqual(only_read(self.read(*first, call, files={"/w/n": "reg"}).events), ["/w/g"], call)


class Recorded(Case):
    def test_a_recording(self):
        log = self.put("run.log", '7 open("a b", O_RDONLY) = 3</w/a b>\n7 +++ exited with 0 +++\n')
        entries = {"/w": ["dir", None, None], "/w/a b": ["reg", None, None]}
        data = {"form": 1, "words": ["p"], "directory": "/w", "status": 0, "began": 0.0, "directories": ["/w"]}
        self.put("run.log.before", json.dumps({**data, "entries": entries}))
        self.assertEqual((files_only_read(log), convert(log).only_read), (["/w/a%20b"], ["/w/a%20b"]))
        os.unlink(log)
        self.wants_fault(f"{log}: No such file or directory", files_only_read, log)
