"""The classes of differences: for each a rule that says what the kernel answers, or raises, where the program does as it does."""
from .files import is_odd, names_of
from .lines import paths_of, unescaped
from .orders import ALL_EVENTS, refusals

ISDIR, IGNORED, ATTRIB, DELETE_SELF, MOVE_SELF = 0x40000000, 0x8000, 0x4, 0x400, 0x800
OPEN, ACCESS, CLOSE_NOWRITE = 0x20, 0x1, 0x10
SIGNED, MOST_BYTES, MOST_MODE = 1 << 63, 1 << 24, 0o7777
# Bits of a mask that no Linux knows: neither an event, nor a flag, nor one that it writes into records.
UNKNOWN_BITS = 0xffffffff & ~(0xfff | 0xe000 | 0x07000000 | 0x70000000 | 0x80000000)
# Why a path is refused by its text. Of two paths the first that is refused decides, so it may be long and the other odd.
TEXT_FAULTS = ("EINVAL", "ENAMETOOLONG")
# Classes in which Linux opens what it then refuses to read or write.
OPENING = ("path-text", "offset-sign")
ORDER_NAMES = {"watch": "watch-refusal-order", "rename": "rename-refusal-order", "rename2": "rename-refusal-order"}


def mode_of(line):
    """The mode that a line names, or 0."""
    return int(line.words[1], 8) if line.name in ("mkdir", "create", "chmod") else 0


def mask_of(line):
    """The mask that a line names, or 0."""
    return int(line.words[2], 16) if line.name == "watch" else 0


def is_over_limit(line):
    """Whether a line writes bytes on both sides of the greatest length of a file."""
    return line.name == "write" and int(line.words[1]) < MOST_BYTES < end_of(line)


def end_of(line):
    """Where the bytes end that a call asks for."""
    if line.name == "write":
        return int(line.words[1]) + len(line.words[2].strip("-")) // 2
    if line.name == "cat":
        return int(line.words[1]) + int(line.words[2])
    return int(line.words[1]) if line.name == "truncate" else 0


def text_class(line, mine, other):
    """The class of two replies, of which one is a refusal, that the words of the line alone explain."""
    mask, flags = mask_of(line), int(line.words[2]) if line.name == "rename2" else 0
    rules = {
        "path-text": mine in TEXT_FAULTS and any(map(is_odd, paths_of(line))),
        "mode-bits": mine == "EINVAL" and mode_of(line) > MOST_MODE,
        "offset-sign": other == "EINVAL" and end_of(line) >= SIGNED,
        "short-write": (mine, other) == ("EFBIG", None) and is_over_limit(line),
        "file-size": (mine, other) == ("EFBIG", None) and end_of(line) > MOST_BYTES,
        "whiteout": mine == "EINVAL" and flags in (4, 5),
        "unknown-mask-bits": other == "EINVAL" and mask & UNKNOWN_BITS,
        "flags-alone": mine == "EINVAL" and mask and not mask & (ALL_EVENTS | UNKNOWN_BITS),
    }
    return next((name for name, holds in rules.items() if holds), None)


def reply_class(line, mine, other, files):
    """The class of two replies of which one is a refusal."""
    name = text_class(line, mine, other)
    if name:
        return name
    if line.name == "unlink" and (mine, other) == ("EPERM", "EISDIR"):
        return "unlink-directory"
    if mine and other and (mine, other) == refusals(files, line):
        is_above = (mine, other) == ("EISDIR", "ENOTEMPTY")
        return "rename-onto-above" if is_above else ORDER_NAMES.get(line.name, "refusal-order")
    return None


def tmpfs_counts(files, path):
    """The links and the size that tmpfs gives to a directory: 20 bytes for each entry, `.` and `..` among them."""
    below = files.names_in(path)
    return str(2 + sum(files.kind(it) == "d" for it in below)), str(20 * (2 + len(below)))


def answer_classes(line, ours, theirs, files):
    """The classes of two answers, or nothing where a difference has none."""
    if line.name == "list" and ours[0] == theirs[0] and list(ours[1:]) == sorted(theirs[1:], key=bytes_of):
        return {"list-order"}
    if line.name == "stat" and ours[:2] == theirs[:2] and ours[1] == "d":
        apart = int(ours[2], 8) ^ int(theirs[2], 8)
        is_known = theirs[3:] == tmpfs_counts(files, names_of(paths_of(line)[0])) and not apart & ~0o6000
        return {"directory-stat"} | ({"set-id-bits"} if apart else set()) if is_known else None
    return None


def bytes_of(name):
    """The bytes of a name as it is printed."""
    return unescaped(name)


def is_visit(records, kinds):
    """Whether records are those of a directory that is opened and closed: in the order of these kinds for each watch, where
    a watch that is gone by its first event raises that at once."""
    by_watch = {}
    for it in records:
        by_watch.setdefault(it.wd, []).append(it.mask)
    for masks in by_watch.values():
        is_once = len(masks) == 2 and masks[1] == IGNORED
        told = [kinds.index(it ^ ISDIR) if it ^ ISDIR in kinds else -1 for it in masks[:len(masks) - is_once]]
        if -1 in told or told != sorted(told) or not told:
            return False
    return True


def visit_classes(line, ours, theirs):
    """The classes of what a directory's reading or listing raises on Linux and not here."""
    if any(ours.values()):
        return None
    is_read = line.name == "cat"
    kinds, name = ([OPEN, CLOSE_NOWRITE], "directory-read") if is_read else ([OPEN, ACCESS, CLOSE_NOWRITE], "list-events")
    if not all(is_visit(it, kinds) for it in theirs.values()):
        return None
    is_used = any(it.mask == IGNORED for told in theirs.values() for it in told)
    return {name} | ({"oneshot-" + name} if is_used else set())


def replacing_variants(ours):
    """What Linux may raise for a rename over something, with the classes of each."""
    at = next((at for at, it in enumerate(ours) if it.mask == MOVE_SELF), len(ours))
    front, move = ours[:at], ours[at:]
    gone = front[-1].wd if front and front[-1].mask == IGNORED else None
    cut = len(front) - (1 + (len(front) > 1 and front[-2].mask == DELETE_SELF and front[-2].wd == gone)) if gone else len(front)
    front, end = front[:cut], front[cut:]
    found = {front + move + end: {"move-self-first"}}
    if gone:
        told = end[0]._replace(mask=ATTRIB | ISDIR)
        late = {"replaced-directory-attrib"} | ({"move-self-first"} if move else set())
        found[front + (told,) + move + end] = late
        found[front + (told, end[-1]) + move] = {"replaced-directory-attrib"}
    return found


def event_classes(line, ours, theirs, reply):
    """The classes of what two sides raise."""
    if line.name == "list" or (line.name == "cat" and reply.error == "EISDIR"):
        return visit_classes(line, ours, theirs)
    if line.name not in ("rename", "rename2"):
        return None
    found = set()
    for number in ours.keys() | theirs.keys():
        mine, other = ours.get(number, ()), theirs.get(number, ())
        if mine != other:
            names = replacing_variants(mine).get(other)
            if names is None:
                return None
            found |= names
    return found


def names_of_difference(line, ours, theirs, files):
    """The classes of what a line shows on the two sides, or nothing where a difference has none."""
    (mine, heard), (other, told) = ours, theirs
    if mine.error != other.error or text_class(line, mine.error, other.error) == "path-text":
        name = reply_class(line, mine.error, other.error, files)
        # What an accepted call raises follows from its being accepted; refused ones raise something only behind an open.
        is_told = any(heard.values()) and mine.error or any(told.values()) and other.error and name not in OPENING
        return None if is_told or not name else {name}
    answers = answer_classes(line, mine.words, other.words, files) if mine.words != other.words else set()
    events = event_classes(line, heard, told, mine) if heard != told else set()
    return None if answers is None or events is None else answers | events
