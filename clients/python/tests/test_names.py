"""Names as policies spell them: %XX for each byte that isn't printed ASCII, the space and the percent sign."""

import os
import unittest

from tests.support import Case

from landtree.names import decoded, encoded, unfit


class Names(Case):
    PAIRS = [
        ("/a/b", "/a/b"),
        ("/a b", "/a%20b"),
        ("/100%", "/100%25"),
        ("/\u00e9", "/%C3%A9"),
        ("/new\nline", "/new%0Aline"),
        (os.fsdecode(b"/\xff"), "/%FF"),
        ("/%41", "/%2541"),
        ("/~!\"#$&'()*+,-.:;<=>?@[\\]^_`{|}", "/~!\"#$&'()*+,-.:;<=>?@[\\]^_`{|}"),
    ]

    def test_both_ways(self):
        for real, spelled in self.PAIRS:
            self.assertEqual((encoded(real), decoded(spelled)), (spelled, real))

    def test_each_byte(self):
        for byte in set(range(1, 256)) - {ord("/")}:
            name = os.fsdecode(b"/" + bytes([byte]))
            self.assertEqual(decoded(encoded(name)), name)
            self.assertTrue(all(0x21 <= ord(it) <= 0x7E for it in encoded(name)))

    def test_what_is_not_undone(self):
        for text in ("/%41", "/%2F", "/%2E%2E", "/%2e", "/%c3", "/%", "/%2", "/100%x"):
            self.assertEqual(decoded(text), text)

    def test_unfit(self):
        self.assertEqual(unfit("/"), "")
        self.assertEqual(unfit("/" + "a" * 255), "")
        self.assertEqual(unfit("/" + "a" * 256), "a name has over 255 bytes")
        self.assertEqual(unfit("/a" * 64), "")
        self.assertEqual(unfit("/a" * 65), "its path has over 64 names")
        self.assertEqual(unfit(("/" + "a" * 200) * 21), "its path has over 4,095 bytes")


if __name__ == "__main__":
    unittest.main()
