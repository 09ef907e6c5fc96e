"""Where the tree answers otherwise than Linux, and why: each cause is a function that tells whether it explains what
was seen. docs/LINUX.md has a part for each, under its name."""

from dataclasses import dataclass, field

from fuzzing.grammar import CALLS, is_path, is_refused
from fuzzing.model import is_beneath, names_of, rights_of

DONE, NOT_ASKED = "done", "not asked"
SPECIAL = ("fifo", "sock", "char", "block")
# What a call is refused with where what it names has such a kind.
BY_KIND = {"open": {"dir": "EISDIR", "sym": "ELOOP"}, "truncate": {"dir": "EISDIR", "sym": "ELOOP"}}
BY_KIND["truncate"] |= dict.fromkeys(SPECIAL, "EINVAL")
BY_KIND["list"] = dict.fromkeys(("reg", "sym", *SPECIAL), "ENOTDIR")
BY_KIND["exec"] = {"sym": "ELOOP"}
LIMITS = ("ENOSPC", "EMFILE", "EMLINK", "EFBIG", "E2BIG")


@dataclass
class Seen:
    """One call: what the tree replied, what the kernel answered, and what stood there before."""

    call: str
    reply: str
    answer: str
    # The kind of what each of its paths named, or nothing.
    kinds: list = field(default_factory=list)
    # Whether the call left a file though it was refused.
    leaves: bool = False
    # What the tree replies to its caller's listing of the same path.
    listing: str = ""

    def __post_init__(self):
        self.word, *self.args = self.call.split(" ")
        self.tree = errno_of(self.reply)
        self.kernel = self.answer if self.answer.startswith("E") or self.answer == NOT_ASKED else DONE
        self.paths = [arg for form, arg in zip(CALLS[self.word], self.args) if form == "path"]

    def denied(self):
        return self.reply.startswith("denied ")

    def both_refuse(self):
        return DONE not in (self.tree, self.kernel)

    def agrees(self):
        """Whether both did the same with the same result, or refused it with the same errno and changed nothing."""
        return (self.kernel == self.tree if self.tree != DONE else self.answer == self.reply) and not self.leaves


def errno_of(reply):
    """The errno of a refusal or a denial, or DONE."""
    if not is_refused(reply):
        return DONE
    return reply.split(" ")[1 if reply.startswith("denied ") else 2]


# ---- what is asked before what


def kind_before_policy(it):
    """Linux looks what kind of node it is before it asks Landlock."""
    return it.denied() and it.kernel == BY_KIND.get(it.word, {}).get(it.kinds[0] if it.kinds else None)


def relation_by_names(it):
    """The tree refuses two paths by their names where one is beneath the other; Linux walks first."""
    if len(it.paths) != 2 or not all(map(is_path, it.paths)):
        return False
    old, new = map(names_of, it.paths)
    is_so = is_beneath(old, new) or is_beneath(new, old)
    return is_so and it.tree in ("EINVAL", "ENOTEMPTY", "EEXIST") and it.both_refuse()


def root_is_busy(it):
    """The tree refuses with EBUSY whatever would give the root a name or take it; Linux has no one errno for that."""
    return it.tree == "EBUSY" and "/" in it.paths and it.both_refuse()


def link_looks_at_old_first(it):
    """Linux walks link's old path to its end before it begins with the new one."""
    return it.word == "link" and it.tree in ("ENOTDIR", "ELOOP") and it.kernel == "ENOENT" and it.kinds[0] is None


def descriptor_before_path(it):
    """Linux takes a free descriptor before it walks."""
    return it.word == "open" and it.kernel == "EMFILE" and it.both_refuse()


# ---- what isn't a regular file


def directory_is_opened(it):
    """Linux opens a directory for reading, and asks read_dir; the tree's clients list it by its path."""
    is_so = it.word == "open" and it.args[0] == "r" and it.kinds == ["dir"]
    return is_so and it.kernel == errno_of(it.listing) and it.tree in ("EISDIR", "EACCES")


def fifo_is_opened(it):
    """Linux opens a fifo; the tree opens regular files alone."""
    return it.word == "open" and it.kinds == ["fifo"] and "r" in it.args[0] and it.kernel == DONE and it.tree == "ENXIO"


def special_is_not_cut(it):
    """Linux asks truncate of regular files alone; the tree asks it of whatever is opened with t."""
    is_so = it.word == "open" and "t" in it.args[0] and it.kinds[0] in SPECIAL
    return is_so and "truncate" in it.reply.split(" ") and it.kernel in (DONE, "ENXIO")


def exec_of_no_file(it):
    """execve(2) refuses what is no regular file with EACCES; the tree as an open would."""
    return it.word == "exec" and it.kinds[0] in ("dir", *SPECIAL) and it.kernel == "EACCES" and it.tree != DONE


def size_and_links_of_others(it):
    """The tree tells 0 bytes of all but regular files and 1 link of directories; a file system has its own numbers."""
    if it.word != "stat" or it.tree != DONE or it.kernel != DONE:
        return False
    ours, theirs = it.reply.split(" "), it.answer.split(" ")
    is_same = ours[:3] == theirs[:3] and (ours[2] == "dir" or ours[4] == theirs[4])
    return ours[2] != "reg" and is_same


# ---- what a refused call leaves, and what runs


def made_though_denied(it):
    """Linux makes the file before it asks whether it may be opened, and leaves it."""
    return it.leaves and it.word == "open" and it.kernel == "EACCES" and it.denied()


def text_is_busy(it):
    """Linux executes no file that somebody has open for writing."""
    return it.word == "exec" and it.kernel == "ETXTBSY"


# ---- words and numbers


def no_path_of_a_tree(it):
    """A path of the tree is absolute, without `.`, `..` and empty names, and has 64 names at most."""
    return it.answer == NOT_ASKED


def length_before_walk(it):
    """The tree refuses a long path by its text; Linux when its walk comes there."""
    return it.tree == "ENAMETOOLONG" and it.both_refuse()


def newer_level(it):
    """The kernel knows rights that the tree's level doesn't."""
    return it.word == "ruleset" and it.tree == "EINVAL" and rights_of(it.args[0]) >> 13 and it.kernel == DONE


def limit_of_the_tree(it):
    """The tree is smaller than a file system: its limits are its own."""
    if it.word == "read" and int(it.args[2]) > 4096:
        return it.tree == "EINVAL"
    return it.tree in LIMITS and it.kernel == DONE


def offsets_have_a_sign(it):
    """Linux refuses offsets and lengths from 2^63 on as negative; the tree's are whole numbers."""
    return it.kernel == "EINVAL" and any(arg.isdigit() and int(arg) >= 1 << 63 for arg in it.args)


CAUSES = [
    no_path_of_a_tree,
    length_before_walk,
    newer_level,
    made_though_denied,
    special_is_not_cut,
    directory_is_opened,
    fifo_is_opened,
    exec_of_no_file,
    text_is_busy,
    kind_before_policy,
    root_is_busy,
    relation_by_names,
    link_looks_at_old_first,
    descriptor_before_path,
    size_and_links_of_others,
    offsets_have_a_sign,
    limit_of_the_tree,
]


def cause_of(seen):
    """The name of the first cause that explains the difference, or nothing."""
    return next((cause.__name__ for cause in CAUSES if cause(seen)), None)


def is_asked(call):
    """Whether the kernel can be asked the same: its paths are a tree's, or too long for one."""
    word, *args = call.split(" ")
    paths = [arg for form, arg in zip(CALLS[word], args) if form == "path"]
    return all(is_path(path) or is_long(path) for path in paths)


def is_long(path):
    names = path.split("/")[1:]
    return path.startswith("/") and len(names) <= 64 and not {"", ".", ".."} & set(names)
