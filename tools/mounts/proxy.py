#!/usr/bin/env python3
"""A program in the place of `landtree run -`: it passes lines on to the real one (LANDTREE_REAL), and answers itself
what it is asked by a name: `unlink /reply-REPLY`, where a dot is a space. It says nonsense of `stat /lie`. With
LANDTREE_HISTORY it becomes the real one, with room for so many entries."""

import os
import subprocess
import sys

real, words = os.environ["LANDTREE_REAL"], sys.argv[1:]
if "LANDTREE_HISTORY" in os.environ:
    words[words.index("--history") + 1] = os.environ["LANDTREE_HISTORY"]
    os.execv(real, ["landtree", *words])
place = words[words.index("--policy") + 1]
descriptor = int(place.rpartition("/")[2])
child = subprocess.Popen([real, *words], stdin=subprocess.PIPE, stdout=subprocess.PIPE, pass_fds=[descriptor])
try:
    for line in sys.stdin.buffer:
        asked = line.decode().split("/reply-")
        if line.startswith(b"unlink ") and len(asked) == 2:
            reply = asked[1].replace(".", " ").encode()
        elif line == b"stat /lie\n":
            reply = b"stat 99 reg 7 1\n"
        else:
            child.stdin.write(line)
            child.stdin.flush()
            reply = child.stdout.readline()
        sys.stdout.buffer.write(reply)
        sys.stdout.buffer.flush()
except (BrokenPipeError, ConnectionResetError):
    os._exit(1)  # the mount has gone
child.stdin.close()
sys.exit(child.wait())
