"""Lines of scripts, as tests/linux takes them apart, and the replies that a run of the program prints."""
import collections
import re

# A line: its command, and its words as they stand.
Line = collections.namedtuple("Line", "name words")
# A record, but for its length: the name with the zero bytes behind it.
Record = collections.namedtuple("Record", "wd mask cookie name")
# A reply: the error's name or nothing; the words behind `ok`; the records of a read.
Reply = collections.namedtuple("Reply", "error words records")

READS = ("read", "hex")
# For each command which of its words are paths.
PATHS = {
    "mkdir": [0], "create": [0], "write": [0], "cat": [0], "truncate": [0], "chmod": [0], "unlink": [0], "rmdir": [0],
    "stat": [0], "list": [0], "link": [0, 1], "rename": [0, 1], "rename2": [0, 1], "watch": [1],
}


def lines_of(script):
    """The lines of a script that are answered, and its lines `--`."""
    found = []
    for line in script.split(b"\n"):
        words = line.split(b" ")
        words = [it.decode("latin-1") for it in words if it]
        if words and not words[0].startswith("#"):
            found.append(Line(words[0], tuple(words[1:])))
    return found


def text_of(lines):
    """The script of some lines."""
    return "".join(" ".join((it.name, *it.words)) + "\n" for it in lines).encode("latin-1")


def unescaped(word):
    """The bytes that a path's word stands for."""
    return re.sub(rb"%(..)", lambda it: bytes([int(it[1], 16)]), word.encode("latin-1"))


def paths_of(line):
    """The bytes of the paths of a line."""
    return [unescaped(line.words[at]) for at in PATHS.get(line.name, [])]


def records_of(stored):
    """The records that bytes spell."""
    found, at = [], 0
    while at < len(stored):
        wd = int.from_bytes(stored[at:at + 4], "little", signed=True)
        mask, cookie, size = (int.from_bytes(stored[at + 4 * n:at + 4 * n + 4], "little") for n in (1, 2, 3))
        found.append(Record(wd, mask, cookie, stored[at + 16:at + 16 + size]))
        at += 16 + size
    return found


def replies_of(printed, lines):
    """The replies that the program printed to lines, of which all reads are `hex`."""
    groups = []
    for text in printed.decode("latin-1").splitlines():
        if text.startswith("  "):
            groups[-1].append(text[2:])
        else:
            groups.append([text])
    found = []
    for line, (head, *behind) in zip(lines, groups):
        words = head.split(" ")
        if words[0] == "err":
            found.append(Reply(words[1], (), ()))
        elif line.name in READS:
            found.append(Reply(None, (), tuple(records_of(bytes.fromhex(behind[0])))))
        else:
            found.append(Reply(None, (*words[1:], *behind), ()))
    return found


class Renaming:
    """Numbers by the order in which they first came, so that two runs can be compared whatever numbers each gave."""

    def __init__(self):
        self.known = {0: 0}

    def of(self, number):
        """The index of a number among those that came."""
        return self.known.setdefault(number, len(self.known))

    def reply(self, line, reply):
        """The reply with its cookies, or with its file number, renamed."""
        if reply.records:
            records = tuple(it._replace(cookie=self.of(it.cookie)) for it in reply.records)
            return reply._replace(records=records)
        if line.name in ("mkdir", "create", "stat") and reply.words:
            return reply._replace(words=("number %d" % self.of("file " + reply.words[0]), *reply.words[1:]))
        return reply


def renamed(lines, replies):
    """Replies with cookies and file numbers renamed."""
    cookies, files = Renaming(), Renaming()
    return [(cookies if line.name in READS else files).reply(line, it) for line, it in zip(lines, replies)]
