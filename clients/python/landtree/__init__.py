"""Runs Landtree from Python, for whoever tests a sandbox.

    with Landtree.run(policy="policy.toml", profile="build") as tree:
        source = tree.client.open("r", "/src/main.c")
        print(tree.client.read(source, 0, 4096))

`Landtree.run` starts the built program and talks with it over a pair of sockets. `Landtree.connect(port)` connects, as
one client of many, to a program that is serving. A `Client` has a method for each call of the tree, which takes the
words of the command in their order (docs/PROGRAM.md). A call that a layer forbids raises `Denied`. A call that fails
for another reason raises `Refused`. What no line can say raises `ValueError` or `TypeError`, and sends nothing.
`snapshot` makes the text of a policy from a real directory.

`Policy` makes policies, and `Commands` runs the program's other commands. `landtree-sandbox` records a real program,
and runs one under a policy by the kernel's Landlock (`trace`, `confine`, `tour`, `lint`).

This folder is all that is needed, with Python 3.8 or later on a Unix; policies are read with 3.11 or later, and real
programs are recorded and confined on Linux.
"""

from .client import Client, Descriptor
from .commands import Commands
from .directories import Snapshot, snapshot
from .errors import BadReply, Denied, Ended, Fault, LandtreeError, OpeningRefused, ProgramFault, Refused, TimedOut
from .options import ExportOptions, LearnOptions
from .policy import Layer, Policy, Rule
from .policy_text import load_policy, read_policy
from .session import Landtree
from .values import KINDS, Rights, Stat

__all__ = [
    "BadReply",
    "Client",
    "Commands",
    "Denied",
    "Descriptor",
    "Ended",
    "ExportOptions",
    "Fault",
    "KINDS",
    "Landtree",
    "LandtreeError",
    "Layer",
    "LearnOptions",
    "OpeningRefused",
    "Policy",
    "ProgramFault",
    "Refused",
    "Rights",
    "Rule",
    "Snapshot",
    "Stat",
    "TimedOut",
    "load_policy",
    "read_policy",
    "snapshot",
]
