"""Compares the program with the running kernel, line by line, and the records of each instance by a model of a queue."""
import collections
import itertools
import subprocess

from . import classes, kernel
from .files import Files
from .lines import READS, Line, Record, Renaming, Reply, paths_of, renamed, replies_of, text_of

ALL = "4194304"
MARK = Record(-1, 0x4000, 0, b"")
IGNORED = 0x8000

# What a script showed: how often each class, with the command and both errors; and the differences that have no class.
Found = collections.namedtuple("Found", "shown unnamed")
# The program, how a tree of its own is had of the kernel, and how many records its queues hold.
Sides = collections.namedtuple("Sides", "program way limit")


def program_replies(sides, lines):
    """What the program answers to lines."""
    ran = subprocess.run([sides.program, "run"], input=text_of(lines), stdout=subprocess.PIPE, stderr=subprocess.PIPE, timeout=20)
    replies = replies_of(ran.stdout, lines)
    if ran.returncode != 0 or len(replies) != len(lines):
        ended = f"status {ran.returncode} and {len(replies)} of {len(lines)} replies"
        raise ValueError(f"the program ended with {ended}: {ran.stderr}")
    return replies


def drained(lines):
    """The lines with a read of all that waits in each instance behind each of them; and where the lines stand in that."""
    found, places, made = [], [], 0
    for line in lines:
        places.append(len(found))
        found.append(Line("init", ()) if line.name == "init" else line)
        made += line.name == "init"
        found += [Line("hex", (str(number), ALL)) for number in range(1, made + 1)]
    return found, places


def by_line(found, places, replies):
    """For each line its reply, and the records that it raised for each instance."""
    steps = []
    for at, end in zip(places, [*places[1:], len(found)]):
        heard = {int(found[it].words[0]): replies[it].records for it in range(at + 1, end) if not replies[it].error}
        steps.append((replies[at], heard))
    return steps


def steps_of(sides, lines):
    """What each side answers to the lines and raises by each."""
    found, places = drained(lines)
    ours = renamed(found, program_replies(sides, found))
    theirs = renamed(found, kernel.run(found, sides.way))
    return by_line(found, places, ours), by_line(found, places, theirs)


def is_parting(ours, theirs):
    """Whether a difference may leave the two sides apart: one refused what the other did, or a watch ended on one side."""
    ends = [sum(it.mask == IGNORED for told in heard.values() for it in told) for _, heard in (ours, theirs)]
    return bool(ours[0].error) != bool(theirs[0].error) or ends[0] != ends[1]


def settled(sides, lines, found):
    """The lines that both sides answer alike, with what each raises. A line with a difference is named and taken out."""
    while True:
        ours, theirs = steps_of(sides, lines)
        kept, files, is_apart = [], Files(), False
        for at, (line, mine, other) in enumerate(zip(lines, ours, theirs)):
            if mine == other or is_apart:
                kept.append(line)
            else:
                names = classes.names_of_difference(line, mine, other, files)
                if names is None:
                    found.unnamed.append((lines[:at + 1], line, mine, other))
                found.shown.update((name, line.name, mine[0].error, other[0].error) for name in names or ())
                is_apart = is_parting(mine, other)
            if not mine[0].error:
                files.accept(line)
        if len(kept) == len(lines):
            return lines, ours
        lines = kept


class Queue:
    """A queue of records, as the program has it or as the kernel has it."""

    def __init__(self, limit, rules):
        self.limit, self.rules, self.waiting = limit, rules, []

    def repeats(self, record):
        """Whether a record is merged with the last one that waits."""
        last = self.waiting[-1] if self.waiting else None
        if last and "merge-without-cookie" in self.rules:
            last, record = last._replace(cookie=0), record._replace(cookie=0)
        return last == record and record.mask != IGNORED

    def offer(self, record):
        """Merges, keeps or loses a record, by the rules in their order."""
        is_full = len(self.waiting) >= self.limit
        if is_full and "limit-before-merge" in self.rules:
            self.waiting += [MARK] * (MARK not in self.waiting)
        elif self.repeats(record):
            pass
        elif is_full:
            self.waiting += [MARK] * (MARK not in self.waiting)
        else:
            self.waiting.append(record)

    def read(self, count):
        """The reply to a read with a buffer of `count` bytes."""
        given = []
        if not self.waiting:
            return Reply("EAGAIN", (), ())
        while self.waiting and count >= 16 + len(self.waiting[0].name):
            count -= 16 + len(self.waiting[0].name)
            given.append(self.waiting.pop(0))
        return Reply(None, (), tuple(given)) if given else Reply("EINVAL", (), ())


def foretold(lines, raised, limit, rules):
    """The replies to the reads among lines, by the model, from what each other line raises."""
    queues, replies, raised = {}, [], iter(raised)
    for line in lines:
        if line.name in READS:
            queue = queues.get(int(line.words[0]))
            replies.append(queue.read(int(line.words[1])) if queue else Reply("EBADF", (), ()))
            continue
        reply, heard = next(raised)
        replies.append(reply)
        if line.name == "init" and not reply.error:
            own = int(line.words[0]) if line.words and "one-limit-for-all" not in rules else limit
            queues[len(queues) + 1] = Queue(own, rules)
        for number, records in heard.items():
            for record in records:
                queues[number].offer(record)
        if line.name == "close" and not reply.error:
            queues[int(line.words[0])] = None
    return renamed_reads(lines, replies)


def renamed_reads(lines, replies):
    """The replies to reads, with cookies renamed; all others as they are."""
    cookies = Renaming()
    return [cookies.reply(line, it) if line.name in READS else it for line, it in zip(lines, replies)]


QUEUE_RULES = ("merge-without-cookie", "limit-before-merge", "one-limit-for-all")


def compare_queues(sides, lines, raised, found):
    """Compares the reads where they stand: each side's are those of the model by its rules."""
    ours = renamed(lines, program_replies(sides, lines))
    theirs = renamed(lines, kernel.run(lines, sides.way))
    foretelling = lambda rules: foretold(lines, raised, sides.limit, rules)
    if ours != foretelling(()):
        found.unnamed.append((lines, *first_difference(lines, ours, foretelling(()))))
    for count in range(len(QUEUE_RULES) + 1):
        for rules in itertools.combinations(QUEUE_RULES, count):
            if foretelling(rules) == theirs:
                found.shown.update((name, "read", None, None) for name in rules)
                return
    found.unnamed.append((lines, *first_difference(lines, foretelling(QUEUE_RULES), theirs)))


def first_difference(lines, ours, theirs):
    """The first line with two replies, and both."""
    return next((it for it in zip(lines, ours, theirs) if it[1] != it[2]))


def is_comparable(line, way):
    """Whether the kernel can be asked what a line asks. It has no cuts, no limit that is refused, and no byte 0 in a path;
    without root a set-ID bit of a file goes by a write; and in a folder of /dev/shm there is no root, and users count."""
    paths, mode = paths_of(line), classes.mode_of(line)
    if line.name == "cut" or any(b"\0" in it for it in paths):
        return False
    if line.name == "init" and line.words and not 1 <= int(line.words[0]) <= 65535:
        return False
    if way != "root" and line.name in ("create", "chmod") and mode & 0o6000:
        return False
    if way == "folder":
        is_root = line.name not in ("stat", "list", "cat", "watch") and any(not it.strip(b"/") for it in paths)
        needs = {"mkdir": 0o700, "chmod": 0o700, "create": 0o600}.get(line.name, 0)
        return not is_root and max(map(len, paths), default=0) < 3000 and mode & needs == needs
    return True


def compare(sides, lines):
    """What a script shows."""
    found = Found(collections.Counter(), [])
    lines = [it._replace(name="hex") if it.name in READS else it for it in lines if is_comparable(it, sides.way)]
    asking = [it for it in lines if it.name not in READS]
    kept, raised = settled(sides, asking, found)
    if found.unnamed or not any(it.name in READS for it in lines):
        return found
    rest = collections.Counter(map(id, kept))
    whole = [it for it in lines if it.name in READS or rest[id(it)]]
    compare_queues(sides, whole, raised, found)
    return found
