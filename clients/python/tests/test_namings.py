"""What calls that make, remove, move and link ask for, by docs/MODEL.md ("The calls")."""

from tests.traces import Tracing

MISSING = "-1 ENOENT (No such file or directory)"


class Making(Tracing):
    def test_kinds(self):
        calls = {
            'mkdir("n", 0777)': "make dir /w/n",
            'mkdirat(AT_FDCWD</w>, "d/n/", 0777)': "make dir /w/d/n",
            'symlink("../f", "n")': "make sym /w/n",
            'symlinkat("f", 4</w/d>, "n")': "make sym /w/d/n",
            'mknod("n", S_IFIFO|0644)': "make fifo /w/n",
            'mknodat(AT_FDCWD</w>, "n", S_IFREG|0644)': "make reg /w/n",
            'mknodat(AT_FDCWD</w>, "n", S_IFCHR|0644, makedev(0x1, 0x3))': "make char /w/n",
            'mknodat(AT_FDCWD</w>, "n", S_IFBLK|0644, makedev(0x1, 0x3))': "make block /w/n",
            'bind(3<socket:[9]>, {sa_family=AF_UNIX, sun_path="n"}, 110)': "make sock /w/n",
        }
        for call, command in calls.items():
            self.assertEqual(self.commands(f"{call} = 0"), [command], call)
            self.assertEqual(self.commands(f"{call} = -1 EEXIST (File exists)"), [], call)

    def test_other_addresses(self):
        for address in ('{sa_family=AF_UNIX, sun_path=@"n"}', "{sa_family=AF_INET, sin_port=htons(0)}"):
            self.assertEqual(self.commands(f"bind(3<socket:[9]>, {address}, 16) = 0"), [])

    def test_charged_to_what_was_there(self):
        lines = ['mkdir("d/n", 0777) = 0', 'mkdir("d/n/m", 0777) = 0', 'mknod("d/n/m/f", S_IFREG|0644) = 0']
        self.assertEqual(self.asks(*lines), [("make_dir", "/w/d"), ("make_dir", "/w/d"), ("make_reg", "/w/d")])

    def test_a_made_link_is_followed(self):
        lines = ['symlink("d", "n") = 0', 'open("n/x", O_RDONLY) = 3</w/d/x>']
        self.assertEqual(self.commands(*lines)[1], "open r /w/d/x = fd 0")

    def test_a_link_that_is_named_itself(self):
        self.assertEqual(self.commands('unlink("to-f") = 0'), ["unlink /w/to-f"])
        self.assertEqual(self.commands('rename("to-d", "n") = 0'), ["rename /w/to-d /w/n"])

    def test_not_known(self):
        text = 'it isn\'t known which file mkdir names: "none/n"'
        self.assertEqual(self.notes('mkdir("none/n", 0777) = 0'), [(1, text)])


class Removing(Tracing):
    def test_names(self):
        self.assertEqual(self.commands('unlink("d/x") = 0'), ["unlink /w/d/x"])
        self.assertEqual(self.commands('unlinkat(4</w/d>, "x", 0) = 0'), ["unlink /w/d/x"])
        self.assertEqual(self.commands('rmdir("empty/") = 0'), ["rmdir /w/empty"])
        self.assertEqual(self.commands('unlinkat(AT_FDCWD</w>, "empty", AT_REMOVEDIR) = 0'), ["rmdir /w/empty"])

    def test_rights(self):
        self.assertEqual(self.asks('unlink("d/x") = 0'), [("remove_file", "/w/d")])
        self.assertEqual(self.asks('rmdir("d/e") = 0'), [("remove_dir", "/w/d")])

    def test_not_empty(self):
        # The layers were asked before this error, and a policy needs something in the directory for it.
        trace = self.read('rmdir("d") = -1 ENOTEMPTY (Directory not empty)')
        self.assertEqual([it.text for it in trace.events[0].commands], ["rmdir /w/d = refused 7 ENOTEMPTY"])
        named = [[node.start for node in chain] for chain in trace.events[0].named]
        self.assertEqual(named, [["/", "/w", "/w/d"], ["/", "/w", "/w/d", "/w/d/e"]])

    def test_still_there(self):
        lines = ['rmdir("d") = -1 ENOTEMPTY (Directory not empty)', 'open("d/x", O_WRONLY|O_CREAT, 0666) = 3</w/d/x>']
        self.assertEqual(self.commands(*lines)[1:], ["open w /w/d/x = fd 0", "close 0"])

    def test_a_mount_point(self):
        # The layers were asked before this error, but no directory of a tree is busy.
        line = 'rmdir("d") = -1 EBUSY (Device or resource busy)'
        self.assertEqual(self.commands(line, 'open("d/x", O_RDONLY) = 3</w/d/x>'), ["open r /w/d/x = fd 0", "close 0"])
        self.assertEqual(self.notes(line), [(1, 'no check can say that rmdir fails with EBUSY: "d"')])

    def test_gone_then(self):
        lines = ['unlink("f") = 0', 'open("f", O_WRONLY|O_CREAT, 0666) = 3</w/f>']
        self.assertEqual(self.commands(*lines)[1], "open wc /w/f = fd 0")

    def test_errors_before_the_layers(self):
        self.assertEqual(self.commands(f'unlink("none") = {MISSING}', f'rmdir("f") = {MISSING}'), [])

    def test_was_there(self):
        self.assertEqual(self.commands('unlink("gone") = 0'), ["unlink /w/gone"])

    def test_cut(self):
        self.assertEqual(self.commands('truncate("to-f", 9) = 0'), ["truncate /w/f 0"])
        self.assertEqual(self.asks('truncate("f", 9) = 0'), [("truncate", "/w/f")])


class Moving(Tracing):
    def moves(self, *lines):
        trace = self.read(*lines)
        found = [move for event in trace.events for move in event.moves]
        return [(it.kind, it.own[-1].start, it.into[-1].start) for it in found]

    def test_in_a_directory(self):
        self.assertEqual(self.commands('rename("f", "n") = 0'), ["rename /w/f /w/n"])
        self.assertEqual(self.asks('rename("f", "n") = 0'), [("remove_file", "/w"), ("make_reg", "/w")])
        self.assertEqual(self.moves('rename("f", "n") = 0'), [])

    def test_between_directories(self):
        line = 'renameat(AT_FDCWD</w>, "f", 4</w/d>, "n") = 0'
        self.assertEqual(self.commands(line), ["rename /w/f /w/d/n"])
        refer = [("refer", "/w"), ("refer", "/w/d")]
        self.assertEqual(self.asks(line), [("remove_file", "/w"), ("make_reg", "/w/d"), *refer])
        self.assertEqual(self.moves(line), [("reg", "/w/f", "/w/d")])

    def test_over_another_file(self):
        asked = [("remove_file", "/w"), ("make_reg", "/w"), ("remove_file", "/w")]
        self.assertEqual(self.asks('rename("f", "g") = 0'), asked)

    def test_not_replacing(self):
        line = 'renameat2(AT_FDCWD</w>, "f", AT_FDCWD</w>, "n", RENAME_NOREPLACE)'
        self.assertEqual(self.commands(f"{line} = 0"), ["rename_noreplace /w/f /w/n"])
        self.assertEqual(self.commands(f"{line} = -1 EEXIST (File exists)"), [])

    def test_exchange(self):
        line = 'renameat2(AT_FDCWD</w>, "f", AT_FDCWD</w>, "d/e", RENAME_EXCHANGE) = 0'
        self.assertEqual(self.commands(line), ["exchange /w/f /w/d/e"])
        asked = [("remove_file", "/w"), ("make_reg", "/w/d"), ("remove_dir", "/w/d"), ("make_dir", "/w")]
        self.assertEqual(sorted(self.asks(line)), sorted([*asked, ("refer", "/w"), ("refer", "/w/d")]))
        self.assertEqual(self.moves(line), [("reg", "/w/f", "/w/d"), ("dir", "/w/d/e", "/w")])
        then = self.commands(line, 'open("d/e", O_RDONLY) = 3</w/d/e>', 'open("f", O_RDONLY) = 3</w/f>')
        self.assertEqual(then[1:], ["open r /w/d/e = fd 0", "close 0", "list /w/f"])

    def test_a_directory_that_was_not_listed(self):
        trace = self.read('rename("f", "d/n") = 0', 'rename("g", "d/m") = 0', listed="/elsewhere")
        self.assertEqual([it.line for it in trace.notes], [1])
        self.assertIn("it isn't known whether /w/d/n was there before; ", trace.notes[0].text)
        # What the program has made was empty at first.
        lines = ['mkdir("d/n", 0777) = 0', 'rename("f", "d/n/f") = 0']
        self.assertEqual(self.read(*lines, listed="/elsewhere").notes, [])

    def test_a_whiteout(self):
        line = 'renameat2(AT_FDCWD</w>, "f", AT_FDCWD</w>, "n", RENAME_WHITEOUT) = 0'
        self.assertEqual(self.notes(line), [(1, "renameat2 leaves a whiteout, which no policy can say")])

    def test_a_moved_directory(self):
        lines = ['rename("d", "empty/n") = 0', 'open("empty/n/x", O_RDONLY) = 3</w/empty/n/x>']
        self.assertEqual(self.commands(*lines)[1], "open r /w/empty/n/x = fd 0")
        self.assertEqual(self.asks(*lines)[-1], ("read_file", "/w/d/x"))

    def test_over_a_full_directory(self):
        line = 'rename("empty", "d") = -1 ENOTEMPTY (Directory not empty)'
        self.assertEqual(self.commands(line), ["rename /w/empty /w/d = refused 7 ENOTEMPTY"])

    def test_two_names_of_one_file(self):
        # A rename of one of them over the other changes nothing.
        lines = ['link("f", "n") = 0', 'rename("f", "n") = 0', 'open("f", O_WRONLY|O_CREAT, 0666) = 3</w/f>']
        self.assertEqual(self.commands(*lines)[2:], ["open w /w/f = fd 0", "close 0"])

    def test_between_file_systems(self):
        self.assertEqual(self.commands('rename("f", "/dev/n") = -1 EXDEV (Invalid cross-device link)'), [])


class Linking(Tracing):
    def test_a_link(self):
        self.assertEqual(self.commands('link("f", "n") = 0'), ["link /w/f /w/n"])
        self.assertEqual(self.asks('link("f", "n") = 0'), [("make_reg", "/w")])

    def test_into_another_directory(self):
        line = 'linkat(AT_FDCWD</w>, "f", 4</w/d>, "n", 0) = 0'
        self.assertEqual(self.commands(line), ["link /w/f /w/d/n"])
        self.assertEqual(self.asks(line), [("make_reg", "/w/d"), ("refer", "/w"), ("refer", "/w/d")])

    def test_of_a_symbolic_link(self):
        self.assertEqual(self.commands('link("to-f", "n") = 0'), ["link /w/to-f /w/n"])
        self.assertEqual(self.asks('link("to-f", "n") = 0'), [("make_sym", "/w")])
        line = 'linkat(AT_FDCWD</w>, "to-f", AT_FDCWD</w>, "n", AT_SYMLINK_FOLLOW) = 0'
        self.assertEqual(self.commands(line), ["link /w/f /w/n"])

    def test_of_an_open_file(self):
        lines = ['open("d/x", O_RDONLY) = 3</w/d/x>']
        lines.append('linkat(AT_FDCWD</w>, "/proc/self/fd/3", AT_FDCWD</w>, "n", AT_SYMLINK_FOLLOW) = 0')
        self.assertEqual(self.commands(*lines)[2], "link /w/d/x /w/n")
        lines[1] = 'linkat(3</w/d/x>, "", AT_FDCWD</w>, "n", AT_EMPTY_PATH) = 0'
        self.assertEqual(self.commands(*lines)[2], "link /w/d/x /w/n")

    def test_of_a_nameless_file(self):
        lines = ['open("d", O_WRONLY|O_TMPFILE, 0600) = 3</w/d/#7>(deleted)']
        link = 'linkat(AT_FDCWD</w>, "/proc/self/fd/3", AT_FDCWD</w>, "{}", AT_SYMLINK_FOLLOW) = 0'
        self.assertEqual(self.commands(*lines, link.format("d/n"))[1], "make reg /w/d/n")
        self.assertEqual(self.notes(*lines, link.format("d/n")), [])
        text = "no policy can say that a file without a name in /w/d gets the name /w/n"
        self.assertEqual(self.notes(*lines, link.format("n")), [(2, text)])
