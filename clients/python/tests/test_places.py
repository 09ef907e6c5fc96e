"""The real files for paths of a policy: where they are, what may be missing, and that no link leads elsewhere."""

import os
from unittest import mock

from tests.preparation import Prepared
from tests.support import Case, needs_landlock

from landtree.confine import prepare
from landtree.places import Mapped


class Places(Case):
    def test_maps(self):
        mapped = Mapped("/root", [("/a", "/x"), ("/a/b", "/y"), ("/", "/z")])
        wanted = {"/a": ("/x", ""), "/a/c": ("/x", "c"), "/a/b/c/d": ("/y", "c/d")}
        wanted.update({"/ab": ("/z", "ab"), "/": ("/z", "")})
        self.assertEqual({it: mapped.place(it) for it in wanted}, wanted)
        self.assertEqual(Mapped("/root").place("/a"), ("/root", "a"))
        self.assertEqual(Mapped().place("/"), ("/", ""))

    def test_names(self):
        self.assertEqual(Mapped().place("/a%20b/%2E%2E"), ("/", "a b/%2E%2E"))


@needs_landlock
class Fitting(Prepared):
    def test_what_may_be_missing(self):
        missing = str(self.room / "none")
        prepared = prepare(self.one(missing, "reg"), optional=[missing])
        self.assertEqual(prepared.told, [f"layer 1: {missing}: it isn't there, so it has no rule"])
        prepared.close()

    def test_maps(self):
        self.put("d/f")
        prepare(self.one("/src/f", "reg"), [("/src", str(self.room / "d"))]).close()
        text = f"--map /src={self.room}/none: {self.room}/none is no directory"
        self.wants(text, self.one("/src/f", "reg"), [("/src", f"{self.room}/none")])

    def test_a_map_that_fits_no_rule(self):
        self.put("d/f")
        here = f"{self.room}"
        text = "no rule of the profile is there"
        profile = self.one("/src/f", "reg")
        for inner in ("/nosuch", "/sr", "/src/f/g"):
            self.wants(f"--map {inner}={here}/d: {text}", profile, [(inner, f"{here}/d")])
        # Of two that fit, the longer path counts, so the other one is for nothing.
        self.wants(f"--map /={here}: {text}", profile, [("/", here), ("/src", f"{here}/d")])
        prepare(profile, [("/", here), ("/src", f"{here}/d")][1:]).close()

    def test_a_map_that_is_not_straight(self):
        self.put("d/e/f")
        (self.room / "link").symlink_to("d")
        here, profile = f"{self.room}", self.one("/src/f", "reg")
        for inner in ("/src/../src", "/src/.", "/src/", "src", "/s c", "//src"):
            text = f"--map {inner}={here}/d/e: {inner!r} is no path of a policy, from / on and without . and .."
            self.wants(text, profile, [(inner, f"{here}/d/e")])
        for real in (f"{here}/d/../d/e", f"{here}/./d/e", "d/e"):
            text = f"--map /src={real}: {real!r} is no path from / on and without . and .."
            self.wants(text, profile, [("/src", real)])
        self.wants(f"--map /src={here}/link: {here}/link is a link", profile, [("/src", f"{here}/link")])
        self.wants(f"--map /src={here}/link/e: {here}/link is a link", profile, [("/src", f"{here}/link/e")])
        prepare(self.one("/src/f", "reg", follow=True), [("/src", f"{here}/link/e")]).close()
        prepare(profile, [("/src", f"{here}/d/e/")]).close()

    def test_a_mapped_directory_that_a_link_replaces(self):
        # The link comes after the options were looked at.
        self.put("d/e/f")
        self.put("other/e/f")
        here, profile = f"{self.room}", self.one("/src/f", "reg")
        with mock.patch("landtree.confine.need_fit", side_effect=lambda *_: self.turn_into_link()):
            self.wants(f"layer 1: /src/f ({here}/d/e/f): {here}/d is a link", profile, [("/src", f"{here}/d/e")])

    def turn_into_link(self):
        os.rename(self.room / "d", self.room / "old")
        (self.room / "d").symlink_to("other")

    def test_what_may_be_missing_and_has_no_rule(self):
        path = str(self.put("f"))
        for optional in ("/nowhere", str(self.room), f"{path}/g"):
            text = f"--optional {optional}: no rule of the profile has this path"
            self.wants(text, self.one(path, "reg"), optional=[path, optional])
        for optional in ("nowhere", f"{self.room}/../f", f"{path}/"):
            text = f"--optional {optional}: {optional!r} is no path of a policy, from / on and without . and .."
            self.wants(text, self.one(path, "reg"), optional=[optional])

    def test_a_link_on_what_may_be_missing(self):
        self.put("d/f")
        (self.room / "link").symlink_to("d")
        (self.room / "nowhere").symlink_to("none")
        for name, named in {"link/f": "link", "link/none": "link", "nowhere/f": "nowhere"}.items():
            path = f"{self.room}/{name}"
            text = f"layer 1: {path}: {self.room}/{named} is a link"
            self.wants(text, self.one(path, "reg"), optional=[path])
        path = f"{self.room}/d/f/none"
        prepare(self.one(path, "reg"), optional=[path]).close()
