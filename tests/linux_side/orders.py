"""Why a call is refused: its rows, and in which order the program and the kernel look at them."""
from .files import MOST_NAME, is_odd, names_of
from .lines import paths_of

MOST_TEXT = 4095
WHITEOUT = 4
ALL_EVENTS, MASK_CREATE, MASK_ADD, ONLYDIR = 0xfff, 0x10000000, 0x20000000, 0x01000000

# Of each call the rows in the order of the program, and in that of the kernel. A row stands in both, or in one alone where
# the other looks at the same in more steps.
MAKE = ("text taken parent", "long parent name taken")
RENAME = (
    "text flags_row root old exchanged below above_old parent taken file directory filled",
    "unknown_flags long_old parent_old long parent old_root taken_root root old name taken exchanged below above_old above "
    "file directory filled",
)
WATCH = ("text instance mask_row old only_directory watched", "no_mask instance two_flags long_old old only_directory watched")
ORDERS = {
    "mkdir": MAKE, "create": MAKE, "rename": RENAME, "rename2": RENAME, "watch": WATCH,
    "link": ("text old linked parent taken", "long_old old long parent name taken linked"),
    "rmdir": ("text root old no_directory filled_old", "long parent_old root old no_directory filled_old"),
    "list": ("text old no_directory", "long old no_directory"),
}
OTHERS = ("text old is_directory", "long old is_directory")


def text_fault(text):
    """Why the program takes a text for no path, by the order in which it looks at it."""
    if len(text) > MOST_TEXT:
        return "ENAMETOOLONG"
    if is_odd(text):
        return "EINVAL"
    return "ENAMETOOLONG" if any(len(it) > MOST_NAME for it in names_of(text)) else None


class Rows:
    """The rows of a call, each an error where it holds."""

    def __init__(self, files, line):
        self.files, self.line, self.texts = files, line, paths_of(line)
        paths = [names_of(it) for it in self.texts] or [()]
        self.path, self.new = paths[0], paths[-1]
        self.all_flags = int(line.words[2]) if line.name == "rename2" else 0
        self.flags = self.all_flags & ~WHITEOUT
        self.mask = int(line.words[2], 16) if line.name == "watch" else 0
        self.kinds = files.kind(self.path), files.kind(self.new)

    def first(self, side):
        """The error of the first row that holds, on the side of the program (0) or of the kernel (1)."""
        for name in ORDERS.get(self.line.name, OTHERS)[side].split():
            found = getattr(self, name)()
            if found:
                return found
        return None

    def text(self):
        # (the first path that is none decides)
        return next(filter(None, map(text_fault, self.texts)), None)

    def long_old(self):
        return "ENAMETOOLONG" if self.texts and len(self.texts[0]) > MOST_TEXT else None

    def long(self):
        return "ENAMETOOLONG" if self.texts and len(self.texts[-1]) > MOST_TEXT else None

    def old(self):
        return self.files.find(self.path)

    def parent_old(self):
        return self.files.parent(self.path)

    def parent(self):
        return self.files.parent(self.new)

    def name(self):
        return "ENAMETOOLONG" if self.new and len(self.new[-1]) > MOST_NAME else None

    def taken(self):
        is_asked = self.line.name != "rename" and self.flags == (1 if self.line.name == "rename2" else 0)
        return "EEXIST" if is_asked and self.kinds[1] else None

    def linked(self):
        return "EPERM" if self.kinds[0] == "d" else None

    def is_directory(self):
        return ("EPERM" if self.line.name == "unlink" else "EISDIR") if self.kinds[0] == "d" else None

    def no_directory(self):
        return "ENOTDIR" if self.kinds[0] == "f" else None

    def filled_old(self):
        return "ENOTEMPTY" if self.files.names_in(self.path) else None

    def flags_row(self):
        return "EINVAL" if self.all_flags not in (0, 1, 2) else None

    def unknown_flags(self):
        return "EINVAL" if self.all_flags not in (0, 1, 2, WHITEOUT, WHITEOUT + 1) else None

    def old_root(self):
        return "EBUSY" if not self.path else None

    def taken_root(self):
        return "EEXIST" if not self.new and self.flags == 1 else None

    def root(self):
        return "EBUSY" if not self.path or not self.new else None

    def exchanged(self):
        return self.files.find(self.new) if self.flags == 2 else None

    def below(self):
        return "EINVAL" if self.kinds[0] == "d" and is_proper(self.path, self.new) else None

    def above_old(self):
        return "EINVAL" if self.flags == 2 and is_proper(self.new, self.path) else None

    def above(self):
        return "ENOTEMPTY" if self.flags != 2 and is_proper(self.new, self.path) else None

    def replaces(self, kinds):
        return self.flags != 2 and self.kinds == kinds

    def file(self):
        return "ENOTDIR" if self.replaces(("d", "f")) else None

    def directory(self):
        return "EISDIR" if self.replaces(("f", "d")) else None

    def filled(self):
        return "ENOTEMPTY" if self.replaces(("d", "d")) and self.path != self.new and self.files.names_in(self.new) else None

    def instance(self):
        number = int(self.line.words[0])
        return "EBADF" if not 1 <= number <= self.files.made or number in self.files.closed else None

    def two_flags(self):
        return "EINVAL" if self.mask & MASK_ADD and self.mask & MASK_CREATE else None

    def no_mask(self):
        return None if self.mask else "EINVAL"

    def mask_row(self):
        return self.two_flags() or (None if self.mask & ALL_EVENTS else "EINVAL")

    def only_directory(self):
        return "ENOTDIR" if self.mask & ONLYDIR and self.kinds[0] == "f" else None

    def watched(self):
        # (It is the last row on both sides, so what the instance watches is not needed.)
        return "EEXIST" if self.mask & MASK_CREATE else None


def is_proper(one, other):
    """Whether a path is a proper prefix of another."""
    return one != other and other[:len(one)] == one


def refusals(files, line):
    """What the program and the kernel answer to a call that both refuse."""
    rows = Rows(files, line)
    return rows.first(0), rows.first(1)
