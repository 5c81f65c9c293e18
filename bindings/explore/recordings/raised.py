#!/usr/bin/python3
"""What a recording raises in a row: raised.py [--library DIR] [--rows] [FILE..]

The calls of each recording happen on a tree, one after the other, while one instance watches every directory of it for all
events, each from the moment at which it is made, as no client can. A second one watches as much and is not read before the end.

    calls      the lines behind --
    events     what the first instance got; and the most by one call
    renames    the calls that rename; of directories; in pairs: both halves were raised, by one call and with one cookie
    at once    the directories that the next call already fills, of those that were made
    queue      the records that wait for the second one at the end, and their bytes; equal neighbours are one

With --rows it prints the rows of the table in docs/RECORDED.md. FILE is each recording of this folder unless it is given. DIR has
the package of watchtree for Python: out of the repository unless it is given.
"""

import argparse
import importlib
import os
import sys
from dataclasses import dataclass
from typing import Any, Iterator, List, Tuple
from urllib.parse import unquote

HERE = os.path.dirname(os.path.abspath(__file__))
OUT = os.path.normpath(f"{HERE}/../../../out")
ALL = "0xfff"


@dataclass
class Raised:
    """What a recording raised."""

    calls: int = 0
    events: int = 0
    most: int = 0
    renames: int = 0
    of_directories: int = 0
    in_pairs: int = 0
    made: int = 0
    filled_at_once: int = 0
    waiting: int = 0
    size: int = 0

    def row(self, name: str) -> str:
        """Returns the row of the table."""
        each = f"{self.events / self.calls:.1f}"
        renames = f"{self.renames} ({self.of_directories})"
        made = f"{self.made} ({self.filled_at_once})"
        cells = (name, self.calls, self.events, each, self.most, renames, self.in_pairs, made, self.waiting, self.size)
        return "| " + " | ".join(str(it) for it in cells) + " |"


def read_lines(path: str) -> Tuple[List[str], List[str]]:
    """Returns the lines that make the tree, and those behind the line --, without comments."""
    with open(path, encoding="utf-8", errors="surrogateescape") as file:
        lines = [line.rstrip("\n") for line in file if not line.startswith("#")]
    at = lines.index("--")
    return lines[:at], lines[at + 1:]


def filled(lines: List[str]) -> Iterator[bool]:
    """Yields for each directory that is made whether the next call is one in it."""
    for line, following in zip(lines, [*lines[1:], ""]):
        words = line.split()
        if words[0] == "mkdir":
            yield any(it.startswith(words[1] + "/") for it in following.split()[1:])


def pairs_in(events: List[Any], mask: Any) -> int:
    """Counts the renames of which both halves were raised."""
    cookies = {it.cookie for it in events if it.mask & mask.MOVED_TO}
    return sum(bool(it.mask & mask.MOVED_FROM) and it.cookie in cookies for it in events)


class Bench:
    """A tree with an instance that is read after each call, and one that is not read."""

    def __init__(self, path: str, watchtree: Any) -> None:
        self.path, self.mask = path, watchtree.Mask
        self.tree = watchtree.Tree()
        self.read, self.unread = self.tree.inotify(), self.tree.inotify()
        self.call(f"watch {self.read.number} / {ALL}", f"watch {self.unread.number} / {ALL}")

    def call(self, *lines: str) -> None:
        """Makes calls, and watches a directory that they make."""
        for line in lines:
            reply = self.tree.line(line)
            if not reply.startswith("ok"):
                sys.exit(f"{self.path}: {line}: {reply}")
            words = line.split()
            if words[0] == "mkdir":
                self.call(f"watch {self.read.number} {words[1]} {ALL}", f"watch {self.unread.number} {words[1]} {ALL}")

    def take(self, instance: Any) -> List[Any]:
        """Returns what waits."""
        events: List[Any] = []
        while instance.waiting:
            events += instance.read()
        return events

    def measure(self) -> Raised:
        """Runs the recording."""
        setup, lines = read_lines(self.path)
        made = list(filled(lines))
        out = Raised(calls=len(lines), made=len(made), filled_at_once=sum(made))
        self.call(*setup)
        for instance in (self.read, self.unread):
            self.take(instance)
        for line in lines:
            words = line.split()
            if words[0] in ("rename", "rename2"):
                out.renames += 1
                out.of_directories += self.tree.peek_stat(unquote(words[1])).is_directory
            self.call(line)
            events = self.take(self.read)
            out.events += len(events)
            out.most = max(out.most, len(events))
            out.in_pairs += pairs_in(events, self.mask)
        out.waiting, out.size = self.unread.waiting, self.unread.bytes_waiting
        self.tree.close()
        return out


def main() -> int:
    """Measures recordings."""
    parser = argparse.ArgumentParser(usage=__doc__, allow_abbrev=False)
    parser.add_argument("--library", default=OUT)
    parser.add_argument("--rows", action="store_true")
    parser.add_argument("files", nargs="*")
    words = parser.parse_args()
    sys.path.insert(0, words.library)
    watchtree = importlib.import_module("watchtree")
    for path in words.files or sorted(f"{HERE}/{it}" for it in os.listdir(HERE) if it.endswith(".script")):
        raised, name = Bench(path, watchtree).measure(), os.path.basename(path).rsplit(".", 1)[0]
        print(raised.row(f"`{name}`") if words.rows else f"{name}: {raised}")
    return 0


if __name__ == "__main__":
    sys.exit(main())
