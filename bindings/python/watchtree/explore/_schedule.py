"""Scripts, schedules, and their text."""

from typing import Dict, List, NamedTuple, Optional, Tuple, Union

from .._library import QUEUE

PAUSE = "--"


class Change(NamedTuple):
    """A line of a script, and when it happens: right before a request is answered, or at rest if that is None."""

    line: str
    before: Optional[int] = None


class Schedule(NamedTuple):
    """What happens when. `str(schedule)` is the text of its file, which parse_schedule() reads.

    Requests of the consumer are numbered from 1. A change whose request does not come happens at rest.
    """

    setup: Tuple[str, ...]
    changes: Tuple[Change, ...]
    reads: Tuple[Tuple[int, int], ...] = ()
    """Pairs of a request, which is a read, and the number of records that it returns at most."""
    queue: int = QUEUE
    """The limit of each queue, in records."""

    def __str__(self) -> str:
        text = [] if self.queue == QUEUE else [f"#@ queue {self.queue}"]
        text += [*self.setup, PAUSE]
        reads, last = list(self.reads), None  # type: List[Tuple[int, int]], Optional[int]
        for change in self.changes:
            if change.before != last:
                text += _reads_before(reads, change.before) if change.before else []
                text.append(f"#@ before {change.before}" if change.before else "#@ at rest")
                last = change.before
            text.append(change.line)
        text += _reads_before(reads, None)
        return "".join(f"{it}\n" for it in text)


def _reads_before(reads: List[Tuple[int, int]], request: Optional[int]) -> List[str]:
    """Takes the reads before a request off a list, or all, and returns their directives."""
    count = sum(request is None or it[0] < request for it in reads)
    found = [f"#@ read {it[0]} {it[1]}" for it in reads[:count]]
    del reads[:count]
    return found


AnySchedule = Union[str, Schedule]


def is_skipped(line: str) -> bool:
    """Whether a line of a script is empty or a comment."""
    return not line.strip(" ") or line.lstrip(" ").startswith("#")


def parse_script(text: str) -> Tuple[Tuple[str, ...], Tuple[str, ...]]:
    """Returns the lines before the first `--`, and those after it."""
    lines = [it for it in text.split("\n") if not is_skipped(it)]
    if PAUSE not in lines:
        raise ValueError("a script has a line `--` between what happens first and the changes")
    at = lines.index(PAUSE)
    return tuple(lines[:at]), tuple(lines[at + 1 :])


class _Parser:
    """Reads the text of a schedule line by line."""

    def __init__(self) -> None:
        self.setup: List[str] = []
        self.changes: List[Change] = []
        self.reads: Dict[int, int] = {}
        self.queue = QUEUE
        self._is_setup, self._before = True, None  # type: bool, Optional[int]

    def _directive(self, words: List[str]) -> bool:
        """Takes a directive. False if there is no such directive."""
        if words == ["at", "rest"]:
            self._before = None
            return not self._is_setup
        if not all(it.isdecimal() and int(it) for it in words[1:]):
            return False
        numbers = [int(it) for it in words[1:]]
        if words[:1] == ["queue"] and len(numbers) == 1:
            self.queue = numbers[0]
            return self._is_setup and not self.setup
        if words[:1] == ["read"] and len(numbers) == 2:
            self.reads[numbers[0]] = numbers[1]
            return True
        if words[:1] == ["before"] and len(numbers) == 1:
            self._before = numbers[0]
            return not self._is_setup
        return False

    def take(self, number: int, line: str) -> None:
        if line.startswith("#@"):
            if not self._directive(line[2:].split()):
                raise ValueError(f"line {number}: {line!r} is not a directive, or not one for this line")
        elif is_skipped(line):
            pass
        elif not self._is_setup:
            self.changes.append(Change(line, self._before))
        elif line == PAUSE:
            self._is_setup = False
        else:
            self.setup.append(line)


def parse_schedule(text: str) -> Schedule:
    """Reads the text of a schedule: a script with the directives of docs/EXPLORE.md. Any script is a schedule."""
    parser = _Parser()
    for number, line in enumerate(text.split("\n"), 1):
        parser.take(number, line)
    return Schedule(tuple(parser.setup), tuple(parser.changes), tuple(sorted(parser.reads.items())), parser.queue)
