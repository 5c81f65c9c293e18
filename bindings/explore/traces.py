"""What a run left: the trace of the runner, read line by line."""

import re
from dataclasses import dataclass, field
from typing import Iterable, List, Optional, Union


@dataclass
class Happened:
    """A line of the script, or a turn of the second program: the request before which it happened, or None at rest, and the
    reply of a line. The text of a turn is what the program asked."""

    text: str
    before: Optional[int]
    next_request: int
    reply: List[str] = field(default_factory=list)
    is_turn: bool = False


@dataclass
class Asked:
    """A request of the program."""

    number: int
    text: str


@dataclass
class Told:
    """A record that the program took: the instance, the watch, the names of its bits, the cookie and the name."""

    instance: int
    wd: int
    events: List[str]
    cookie: int
    name: str


@dataclass
class Called:
    """A call of inotify and what was answered, as the trace has it: `watch 1 /d 0x100: 1`."""

    text: str


Entry = Union[Happened, Asked, Told, Called]


def _told(words: List[str]) -> Told:
    instance, wd, rest = int(words[0]), int(words[2]), words[3:]
    cookie, name = 0, ""
    if "name" in rest:
        at = rest.index("name")
        name, rest = rest[at + 1], rest[:at]
    if "cookie" in rest:
        at = rest.index("cookie")
        cookie, rest = int(rest[at + 1]), rest[:at]
    return Told(instance, wd, rest, cookie, name)


def read_trace(lines: Iterable[str]) -> List[Entry]:
    """Reads a trace. The lines before the first mark are part of it."""
    out: List[Entry] = []
    request = 0
    last: Optional[Happened] = None
    for line in lines:
        line = line.rstrip("\n")
        found = re.match(r"(?:@(\d+) )?([>&]) (.*)", line)
        if found:
            before = int(found[1]) if found[1] else None
            last = Happened(found[3], before, request + 1 if before is None else before, is_turn=found[2] == "&")
            out.append(last)
        elif line.startswith("? "):
            number, text = line[2:].split(" ", 1)
            request = int(number)
            out.append(Asked(request, text))
        elif line.startswith("< "):
            out.append(_told(line[2:].split(" ")))
        elif line.startswith("# "):
            out.append(Called(line[2:]))
        elif last:
            last.reply.append(line)
    return out


def after_first_mark(trace: List[Entry]) -> List[Entry]:
    """Returns what happened from the start of the program on."""
    for at, it in enumerate(trace):
        if isinstance(it, Happened) and it.text == "--":
            return trace[at + 1 :]
    return []


def places(trace: List[Entry]) -> List[int]:
    """Returns, for each line after the first mark and each turn, the request that was next when it had happened."""
    return [it.next_request for it in after_first_mark(trace) if isinstance(it, Happened) and it.text != "--"]


def requests(trace: List[Entry]) -> int:
    """Counts the program's requests."""
    return max((it.number for it in trace if isinstance(it, Asked)), default=0)


def records_by_read(trace: List[Entry]) -> List[List[int]]:
    """Returns the number of each read that took records, and how many it took."""
    out: List[List[int]] = []
    for it in trace:
        if isinstance(it, Asked) and it.text.startswith("read "):
            out.append([it.number, 0])
        elif isinstance(it, Told) and out:
            out[-1][1] += 1
    return out
