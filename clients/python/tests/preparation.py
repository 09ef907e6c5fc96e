"""Profiles as they are exported, and what is refused before anything of them is enforced."""

import os

from tests.support import Case

from landtree import Rights
from landtree.confine import prepare
from landtree.exported import Exported, ExportedLayer, ExportedRule


def layer(handled, *rules):
    return ExportedLayer(Rights.of(handled), tuple(ExportedRule(path, kind, Rights.of(it)) for path, kind, it in rules))


def exported(*layers, root="/", also=(), deny=(), **flags):
    return Exported(3, root, tuple(also), frozenset(deny), layers, **flags)


class Prepared(Case):
    def wants(self, fault, *words, **options):
        before = os.listdir("/proc/self/fd")
        self.wants_fault(fault, prepare, *words, **options)
        self.assertEqual(os.listdir("/proc/self/fd"), before)

    def one(self, path, kind, rights="read_file", **options):
        return exported(layer("read_file,read_dir", (path, kind, rights)), **options)
