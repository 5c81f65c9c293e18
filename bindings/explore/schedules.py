"""A schedule: a script, and where its lines happen. docs/EXPLORE.md has the format of its file."""

import re
from dataclasses import dataclass, replace
from typing import List, Optional, Sequence, Tuple, Union

USUAL_QUEUE = 16384


class Fault(Exception):
    """What stops the search: a fault of the tool, the script, the check or the machine."""


class Refused(Fault):
    """A line that sets the tree up is refused, so the program is not started."""


@dataclass(frozen=True)
class Line:
    """A line after the first mark, or a turn of a second program, which has no text. It happens at rest, or before a request:
    its number, or how many requests follow the one that was next when the line above had happened."""

    text: Optional[str]
    before: Optional[int] = None
    is_relative: bool = False

    def is_turn(self) -> bool:
        """Whether it is a turn of a second program."""
        return self.text is None


@dataclass(frozen=True)
class Mark:
    """A further line `--`."""


@dataclass(frozen=True)
class ShortRead:
    """A read that hands over at most `records` records. Its request is counted as that of a line."""

    request: int
    records: int
    is_relative: bool = False


Item = Union[Line, Mark, ShortRead]


@dataclass(frozen=True)
class Schedule:
    """The limit of each queue, the lines that set the tree up, and what happens then, in order."""

    queue: int
    setup: Tuple[str, ...]
    items: Tuple[Item, ...]

    def steps(self) -> List[Line]:
        """Returns the lines after the first mark, and the turns."""
        return [it for it in self.items if isinstance(it, Line)]

    def lines(self) -> List[Line]:
        """Returns the lines after the first mark."""
        return [it for it in self.steps() if not it.is_turn()]

    def turns(self) -> List[Line]:
        """Returns the turns of a second program."""
        return [it for it in self.steps() if it.is_turn()]

    def moved(self) -> int:
        """Counts the lines and turns that do not happen at rest."""
        return sum(it.before is not None for it in self.steps())

    def short_reads(self) -> int:
        """Counts the reads that hand over less than they could."""
        return sum(isinstance(it, ShortRead) for it in self.items)

    def changes(self) -> int:
        """Counts what makes it another schedule than the script alone."""
        return self.moved() + self.short_reads() + (self.queue != USUAL_QUEUE)

    def order(self) -> List[Tuple[int, int, int]]:
        """Returns what is moved, by request: a line, a turn, or a read that is short. Schedules of one script sort by it."""
        lines = [(it.before, 0, at) for at, it in enumerate(self.steps()) if it.before is not None]
        reads = [(it.request, 1, it.records) for it in self.items if isinstance(it, ShortRead)]
        # (they are compared item by item: a line comes before a read, as in a search)
        return [(kind, request, which) for request, kind, which in sorted(lines + reads)]

    def size(self) -> Tuple[int, int, int]:
        """Returns what shrinking makes less: the lines, the changes, the marks."""
        marks = sum(isinstance(it, Mark) for it in self.items)
        return len(self.setup) + len(self.lines()), self.changes(), marks

    def text(self) -> str:
        """Returns the text of its file."""
        out = [] if self.queue == USUAL_QUEUE else [f"#@ queue {self.queue}"]
        out += [*self.setup, "--"]
        now, turns = "#@ at rest", 0
        for it in self.items:
            if isinstance(it, Mark):
                out.append("--")
            elif isinstance(it, ShortRead):
                out.append(f"#@ read {_request(it.request, it.is_relative)} {it.records}")
            else:
                place = "#@ at rest" if it.before is None else f"#@ before {_request(it.before, it.is_relative)}"
                # A relative position counts from the line above, so each line needs its own.
                is_new = place != now or it.is_relative
                if is_new:
                    out.append(place)
                now = place
                if it.text is not None:
                    out.append(it.text)
                else:
                    # Turns that follow each other are one directive.
                    turns = turns + 1 if turns and not is_new else 1
                    out[len(out) - (turns > 1) :] = [f"#@ and {turns}"]
                    continue
            turns = 0
        return "\n".join(out) + "\n"

    def encoded(self) -> bytes:
        """Returns the bytes of its file."""
        return self.text().encode("utf-8", "surrogateescape")

    def at_rest(self) -> "Schedule":
        """Returns the script with nothing moved."""
        kept = (replace(it, before=None, is_relative=False) if isinstance(it, Line) else it for it in self.items)
        return Schedule(self.queue, self.setup, tuple(it for it in kept if not isinstance(it, ShortRead)))


def _request(number: int, is_relative: bool) -> str:
    return f"+{number}" if is_relative else str(number)


def _parse_request(word: str) -> Tuple[int, bool]:
    return int(word), word.startswith("+")


def read(path: str) -> Schedule:
    """Reads the file of a script or a schedule. Comments may have any bytes."""
    with open(path, "rb") as file:
        return parse(file.read().decode("utf-8", "surrogateescape"))


def parse(text: str) -> Schedule:
    """Reads a script, or the file of a schedule."""
    queue, setup, items = USUAL_QUEUE, [], []  # type: int, List[str], List[Item]
    is_setup, place, is_relative = True, None, False  # type: bool, Optional[int], bool
    for number, line in enumerate(text.split("\n"), 1):
        if line == "--":
            if not is_setup:
                items.append(Mark())
            is_setup = False
        elif line.startswith("#@"):
            found = re.fullmatch(r"#@ (?:queue (\d+)|(at rest)|before (\+?\d+)|read (\+?\d+) (\d+)|and (\d+))\s*", line)
            if not found:
                raise Fault(f"line {number}: not a directive of a schedule: {line}")
            limit, rest, before, read, records, turns = found.groups()
            if limit:
                queue = int(limit)
            elif read:
                request, read_is_relative = _parse_request(read)
                items.append(ShortRead(request, int(records), read_is_relative))
            elif turns:
                # (the first of them counts from the line above, if it is relative, and the others follow it at once)
                follows = Line(None, 0, True) if is_relative else Line(None, place)
                items += [Line(None, place, is_relative), *[follows] * (int(turns) - 1)]
            elif rest:
                place, is_relative = None, False
            else:
                place, is_relative = _parse_request(before)
        elif not line.strip(" ") or line.lstrip(" ").startswith("#"):
            continue
        elif is_setup:
            setup.append(line)
        else:
            items.append(Line(line, place, is_relative))
    return Schedule(queue, tuple(setup), tuple(items))


def relative(schedule: Schedule, places: Sequence[int]) -> Schedule:
    """Returns the same schedule with each request counted from the line above it. `places` has, for each line after the first
    mark, the request that was next when it had happened. The last lines have none if the program ended before them."""
    items, origin, at = [], 1, 0  # type: List[Item], int, int
    for it in schedule.items:
        if isinstance(it, ShortRead) and not it.is_relative:
            it = replace(it, request=max(it.request - origin, 0), is_relative=True)
        if isinstance(it, Line):
            if it.before is not None and not it.is_relative:
                it = replace(it, before=max(it.before - origin, 0), is_relative=True)
            origin = places[at] if at < len(places) else origin
            at += 1
        items.append(it)
    return Schedule(schedule.queue, schedule.setup, tuple(items))
