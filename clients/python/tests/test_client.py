"""What the client has beside the tests in test_landtree.py: descriptors after `with`, and sizes of snapshots."""

from tests.support import PROGRAM, Case

from landtree import Denied, Descriptor, Landtree, Refused, Rights, snapshot


class Descriptors(Case):
    def setUp(self):
        super().setUp()
        self.tree = Landtree.run(PROGRAM, timeout=60)
        self.addCleanup(self.tree.close)
        self.client = self.tree.client

    def test_closed_at_the_end(self):
        with self.client.open("rwc", "/f") as file:
            self.assertEqual((file, type(file)), (0, Descriptor))
            self.client.write(file, 0, b"x")
        with self.assertRaises(Refused) as caught:
            self.client.read(file, 0, 1)
        self.assertEqual(caught.exception.name, "EBADF")
        with self.client.open("r", "/f") as file:
            self.assertEqual((file, f"{file}", self.client.read(file, 0, 9)), (0, "0", b"x"))

    def test_closed_after_an_error(self):
        self.client.make("reg", "/g")
        self.client.confine(self.client.ruleset(Rights.WRITE_FILE))
        with self.assertRaises(Denied):
            with self.client.open("r", "/g"):
                self.client.open("w", "/g")
        self.assertEqual(self.client.open("r", "/g"), 0)

    def test_closed_twice(self):
        with self.assertRaises(Refused):
            with self.client.open("rwc", "/f") as file:
                self.client.close(file)
        with self.assertRaises(KeyError):
            with self.client.open("rwc", "/f") as file:
                self.client.close(file)
                raise KeyError

    def test_of_another_client(self):
        second = self.client.spawn()
        with second.open("rwc", "/f") as file:
            self.assertRaises(Refused, self.client.close, file)
        self.assertRaises(Refused, second.close, file)


class Sizes(Case):
    def test_sizes(self):
        self.put("d/a", "123")
        self.put("d/b/c")
        (self.room / "d/l").symlink_to("a")
        taken = snapshot(self.room / "d", at="/x")
        self.assertEqual(taken.sizes, {"/x/a": 3, "/x/b/c": 0})
        self.assertNotIn("data", taken.text)
