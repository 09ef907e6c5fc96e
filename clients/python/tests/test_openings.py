"""What openings ask for, by docs/MODEL.md ("The calls") and landlock.rst."""

from tests.traces import Tracing

CWD = "AT_FDCWD</w>"


class Openings(Tracing):
    def opened(self, path, flags, result="3", **options):
        shown = f"{result}</w/{path}>" if result == "3" else result
        return self.commands(f'openat({CWD}, "{path}", {flags}) = {shown}', **options)

    def test_modes(self):
        self.assertEqual(self.opened("f", "O_RDONLY"), ["open r /w/f = fd 0", "close 0"])
        self.assertEqual(self.opened("f", "O_WRONLY|O_APPEND"), ["open w /w/f = fd 0", "close 0"])
        self.assertEqual(self.opened("f", "O_RDWR|O_CLOEXEC"), ["open rw /w/f = fd 0", "close 0"])

    def test_cutting(self):
        self.assertEqual(self.opened("f", "O_WRONLY|O_TRUNC"), ["open wt /w/f = fd 0", "close 0"])
        self.assertEqual(self.opened("f", "O_WRONLY|O_CREAT|O_TRUNC, 0666"), ["open wt /w/f = fd 0", "close 0"])

    def test_making(self):
        self.assertEqual(self.opened("new", "O_WRONLY|O_CREAT|O_TRUNC, 0666"), ["open wtc /w/new = fd 0", "close 0"])
        self.assertEqual(self.opened("new", "O_RDWR|O_CREAT|O_EXCL, 0600"), ["open rwcx /w/new = fd 0", "close 0"])
        line = f'openat({CWD}, "d/new", O_WRONLY|O_CREAT, 0666) = 3</w/d/new>'
        self.assertEqual(self.asks(line), [("write_file", "/w/d"), ("make_reg", "/w/d")])

    def test_made_once(self):
        line = f'openat({CWD}, "new", O_WRONLY|O_CREAT|O_TRUNC, 0666) = 3</w/new>'
        made, again = "open wtc /w/new = fd 0", "open wt /w/new = fd 0"
        self.assertEqual(self.commands(line, line), [made, "close 0", again, "close 0"])

    def test_what_is_made_is_not_cut(self):
        # Only the next run has something to cut, so this one doesn't ask for it.
        line = f'openat({CWD}, "new", O_WRONLY|O_CREAT|O_TRUNC, 0666) = 3</w/new>'
        self.assertEqual(self.asks(line), [("write_file", "/w"), ("make_reg", "/w")])
        then = "ftruncate(3</w/new>, 9) = 0"
        self.assertEqual(self.asks(line, then), [("write_file", "/w"), ("make_reg", "/w"), ("truncate", "/w")])

    def test_creat_and_open(self):
        self.assertEqual(self.commands('creat("/w/new", 0666) = 3</w/new>')[0], "open wtc /w/new = fd 0")
        self.assertEqual(self.commands('open("d/x", O_RDONLY) = 3</w/d/x>')[0], "open r /w/d/x = fd 0")

    def test_openat2(self):
        line = f'openat2({CWD}, "f", {{flags=O_RDWR|O_CLOEXEC, resolve=RESOLVE_BENEATH}}, 24) = 3</w/f>'
        self.assertEqual(self.commands(line)[0], "open rw /w/f = fd 0")
        line = 'openat2(4</w/d>, "/x", {flags=O_RDONLY, resolve=RESOLVE_IN_ROOT}, 24) = 3</w/d/x>'
        self.assertEqual(self.commands(line)[0], "open r /w/d/x = fd 0")

    def test_directories(self):
        self.assertEqual(self.opened("d", "O_RDONLY|O_DIRECTORY"), ["list /w/d"])
        self.assertEqual(self.asks(f'openat({CWD}, "d", O_RDONLY) = 3</w/d>'), [("read_dir", "/w/d")])
        self.assertEqual(self.commands('openat(AT_FDCWD</w>, "/", O_RDONLY) = 3</>'), ["list /"])

    def test_special_files(self):
        null = f'openat({CWD}, "/dev/null", O_RDWR) = 3</dev/null>'
        self.assertEqual(self.commands(null), ["open rw /dev/null = refused 18 ENXIO"])
        cut = f'openat({CWD}, "/dev/null", O_WRONLY|O_CREAT|O_TRUNC, 0666) = 3</dev/null>'
        self.assertEqual(self.commands(cut), ["open w /dev/null = refused 18 ENXIO"])
        # Nobody reads: the layers were asked before this error.
        error = "-1 ENXIO (No such device or address)"
        self.assertEqual(self.opened("fifo", "O_WRONLY|O_NONBLOCK", error), ["open w /w/fifo = refused 18 ENXIO"])

    def test_errors_before_the_layers(self):
        for error in ("ENOENT", "EEXIST", "EISDIR", "ELOOP", "EACCES", "ENOTDIR", "ETXTBSY"):
            self.assertEqual(self.opened("f", "O_WRONLY", f"-1 {error} (..)"), [])

    def test_a_full_disk(self):
        self.assertEqual(self.opened("new", "O_WRONLY|O_CREAT, 0666", "-1 ENOSPC (No space left on device)"), [])
        then = [f'openat({CWD}, "new", O_WRONLY|O_CREAT, 0666) = -1 ENOSPC (..)']
        then.append(f'openat({CWD}, "new", O_WRONLY|O_CREAT, 0666) = 3</w/new>')
        self.assertEqual(self.commands(*then)[0], "open wc /w/new = fd 0")

    def test_interrupted(self):
        self.assertEqual(self.opened("fifo", "O_RDONLY", "? ERESTARTSYS (To be restarted if SA_RESTART is set)"), [])

    def test_only_a_path(self):
        self.assertEqual(self.opened("d", "O_RDONLY|O_PATH|O_DIRECTORY"), [])
        below = self.commands(f'openat({CWD}, "d", O_PATH) = 3</w/d>', 'openat(3</w/d>, "x", O_RDONLY) = 4</w/d/x>')
        self.assertEqual(below[0], "open r /w/d/x = fd 0")

    def test_links(self):
        for name, path in (("to-f", "/w/f"), ("up", "/w/f"), ("to-d/x", "/w/d/x"), ("./to-d//e/../x", "/w/d/x")):
            line = f'openat({CWD}, "{name}", O_RDONLY) = 3<{path}>'
            self.assertEqual(self.commands(line)[0], f"open r {path} = fd 0", name)
        self.assertEqual(self.notes(f'openat({CWD}, "to-f", O_RDONLY) = 3</w/f>'), [])
        line = f'openat({CWD}, "to-d/", O_RDONLY|O_NOFOLLOW|O_DIRECTORY) = 3</w/d>'
        self.assertEqual(self.commands(line), ["list /w/d"])

    def test_another_file_than_expected(self):
        line = f'openat({CWD}, "f", O_RDONLY) = 3</w/g>'
        self.assertEqual(self.notes(line), [(1, "it has opened /w/g, where /w/f was expected")])

    def test_nameless(self):
        lines = [f'openat({CWD}, "d", O_RDWR|O_TMPFILE, 0600) = 3</w/d/#77>(deleted)']
        self.assertEqual(self.commands(*lines), ["open rw /w/d = refused 6 EISDIR"])
        self.assertEqual(self.asks(*lines), [("read_file", "/w/d"), ("write_file", "/w/d")])

    def test_own_place_in_proc(self):
        lines = [f'openat({CWD}, "/proc/self/maps", O_RDONLY) = 3</proc/7/maps>']
        self.assertEqual(self.commands(*lines), ["open r /proc = refused 6 EISDIR"])
        self.assertEqual(self.asks(*lines), [("read_file", "/proc")])
        line = f'openat({CWD}, "/proc/7/fd", O_RDONLY|O_DIRECTORY) = 3</proc/7/fd>'
        self.assertEqual(self.commands(line), ["list /proc"])
        lasting = f'openat({CWD}, "/proc/filesystems", O_RDONLY) = 3</proc/filesystems>'
        self.assertEqual(self.commands(lasting)[0], "open r /proc/filesystems = fd 0")

    def test_what_is_open_already(self):
        first = f'openat({CWD}, "f", O_RDONLY) = 3</w/f>'
        again = f'openat({CWD}, "/proc/self/fd/3", O_RDWR) = 4</w/f>'
        self.assertEqual(self.commands(first, again)[2], "open rw /w/f = fd 0")
        pipe = f'openat({CWD}, "/proc/self/fd/1", O_WRONLY) = 4<pipe:[3]>'
        self.assertEqual((self.commands(pipe), self.notes(pipe)), ([], []))

    def test_what_was_there(self):
        # It is gone now, but it was there, since the call has opened it.
        self.assertEqual(self.opened("gone", "O_RDONLY"), ["open r /w/gone = fd 0", "close 0"])
        self.assertEqual(self.opened("gone", "O_RDONLY|O_DIRECTORY"), ["list /w/gone"])

    def test_names_with_other_bytes(self):
        line = rf'openat({CWD}, "a b\303\251%", O_RDONLY|O_CREAT, 0600) = 3</w/a b\303\251%>'
        self.assertEqual(self.commands(line)[0], "open rc /w/a%20b%C3%A9%25 = fd 0")

    def test_not_known(self):
        line = 'openat(9, "f", O_RDONLY) = 3'
        text = "it isn't known which file openat has opened: 9, \"f\": it isn't known in which directory it begins"
        self.assertEqual((self.commands(line), self.notes(line)), ([], [(1, text)]))
        line = 'openat(AT_FDCWD</w>, "none/f", O_RDONLY) = 3</elsewhere/f>(deleted)'
        self.assertEqual(len(self.notes(line)), 1)


class Descriptors(Tracing):
    OPEN = 'openat(AT_FDCWD</w>, "f", O_RDWR) = 3</w/f>'
    CUT = ["open rw /w/f = fd 0", "close 0", "truncate /w/f 0"]

    def test_a_cut(self):
        lines = [self.OPEN, "ftruncate(3</w/f>, 5) = 0", "ftruncate(3</w/f>, 6) = 0"]
        self.assertEqual(self.commands(*lines), self.CUT)
        asked = [("read_file", "/w/f"), ("write_file", "/w/f"), ("truncate", "/w/f")]
        self.assertEqual(self.asks(*lines), asked)

    def test_by_a_copy(self):
        for copy in ("dup(3</w/f>)", "dup2(3</w/f>, 5)", "fcntl(3</w/f>, F_DUPFD_CLOEXEC, 5)"):
            lines = [self.OPEN, f"{copy} = 5</w/f>", "close(3</w/f>) = 0", "ftruncate(5</w/f>, 1) = 0"]
            self.assertEqual(self.commands(*lines), self.CUT)

    def test_by_a_child(self):
        lines = [self.OPEN, "fork() = 8", "8 ftruncate(3</w/f>, 1) = 0"]
        self.assertEqual(self.commands(*lines), self.CUT)
        # The child's call comes before the end of the call that has made the child.
        lines = [self.OPEN, "7 vfork( <unfinished ...>", "8 ftruncate(3</w/f>, 1) = 0", "7 <... vfork resumed>) = 8"]
        self.assertEqual(self.commands(*lines), self.CUT)

    def test_threads_share_descriptors(self):
        clone = "clone3({flags=CLONE_VM|CLONE_FS|CLONE_FILES|CLONE_THREAD}, 88) = 8"
        self.assertEqual(self.commands(clone, f"8 {self.OPEN}", "7 ftruncate(3</w/f>, 1) = 0"), self.CUT)
        alone = self.commands("fork() = 8", f"8 {self.OPEN}", "7 ftruncate(3</w/f>, 1) = 0")
        self.assertEqual(alone, self.CUT[:2])

    def test_judged_at_the_opening(self):
        lines = [self.OPEN, 'rename("f", "d/y") = 0', "ftruncate(3</w/d/y>, 1) = 0"]
        self.assertEqual(self.commands(*lines), [*self.CUT, "rename /w/f /w/d/y"])

    def test_a_nameless_file(self):
        lines = ['openat(AT_FDCWD</w>, "d", O_RDWR|O_TMPFILE, 0600) = 3</w/d/#7>(deleted)']
        lines.append("ftruncate(3</w/d/#7>(deleted), 1) = 0")
        self.assertEqual(self.commands(*lines)[1], "truncate /w/d 0 = refused 6 EISDIR")

    def test_no_files(self):
        for call in ("4</memfd:x>(deleted), 9) = 0", "4, 9) = 0", "4</w/f>, 9) = -1 EINVAL (..)"):
            self.assertEqual((self.commands(f"ftruncate({call}"), self.notes(f"ftruncate({call}")), ([], []), call)

    def test_a_closed_one_is_not_that_of_before(self):
        for close in ("close(3</w/f>) = 0", "close_range(3, 4294967295, 0) = 0"):
            lines = [self.OPEN, close, "ftruncate(3</w/g>, 1) = 0"]
            self.assertEqual(self.commands(*lines), self.CUT[:2])
            text = "it isn't known how descriptor 3 of /w/g was opened, which is cut here"
            self.assertEqual(self.notes(*lines), [(3, text)])
