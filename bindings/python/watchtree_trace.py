"""Writes a page of a script's run: each call, what it raised in each instance, and how each queue filled.

    python3 watchtree_trace.py run.script >run.html
    python3 watchtree_trace.py --queue 16 <run.script >run.html

The journal of a tree, printed by `tree.script()`, is a script too; `run(tree)` takes it from the tree.

The page is one file that needs no network. Its first columns have the calls with their replies. Each instance has a lane:
a mark for each record that was raised, which says whether it joined the queue, was merged into an equal record that
waited last, or was lost to a full queue; a line that fills as the queue does; and a bracket over what one read took.

A second tree shows what was raised: its instances are read empty after each call. Which of them join the queue is
computed here by the rule of inotify(7), and compared after each call with how many records wait in the tree itself.
"""

import argparse
import sys
from typing import Dict, Iterable, List, NamedTuple, Optional, Union

import watchtree_trace_page
from watchtree import OWN, QUEUE, Event, Instance, Mask, Tree

SHADOW_QUEUE = 65535
OVERFLOW = Event(-1, Mask.Q_OVERFLOW, 0, "")
READS = ("read", "hex")


class Fault(Exception):
    """A line that is no command, or a run that could not go on."""


class Told:
    """A record that a call raised, what became of it ('joined', 'merged' or 'lost'), and the line that read it."""

    def __init__(self, event: Event, fate: str, line: int) -> None:
        self.event, self.fate, self.line = event, fate, line
        self.read_at: Optional[int] = None


class Row:
    """A line of the script in one instance's lane."""

    def __init__(self) -> None:
        self.told: List[Told] = []
        self.waiting = 0
        # How many records a read at this line took, and the brackets that pass here: each by its number, and how.
        self.taken: Optional[int] = None
        self.brackets: Dict[int, str] = {}


class Lane:
    """An instance: its queue as worked out, and its rows by the numbers of their lines."""

    def __init__(self, tree: Tree, shadow: Tree, number: int, limit: int) -> None:
        self.number, self.limit = number, limit
        self.instance, self.shadow = Instance(tree, number), Instance(shadow, number)
        self.queue: List[Told] = []
        self.rows: Dict[int, Row] = {}
        self.reads = 0
        self.is_marked = False
        self.is_open = True

    def tell(self, event: Event, at: int) -> None:
        """Takes an event as the queue of inotify(7) does."""
        if self.queue and self.queue[-1].event == event:
            self.rows[at].told.append(Told(event, "merged", at))
        elif len(self.queue) < self.limit:
            self._join(event, at)
        else:
            self.rows[at].told.append(Told(event, "lost", at))
            if not self.is_marked:
                self._join(OVERFLOW, at)
                self.is_marked = True

    def _join(self, event: Event, at: int) -> None:
        told = Told(event, "joined", at)
        self.queue.append(told)
        self.rows[at].told.append(told)

    def take(self, count: int, at: int) -> None:
        """Takes the records of a read off the queue, and draws a bracket from the first of them to the read."""
        taken = self.queue[:count]
        del self.queue[:count]
        for told in taken:
            told.read_at = at
            self.is_marked = self.is_marked and told.event != OVERFLOW
        first = taken[0].line if taken else at
        for line in range(first, at + 1):
            if line in self.rows:
                self.rows[line].brackets[self.reads] = "from" if line == first else "to" if line == at else "over"
        self.rows[at].taken = count
        self.reads += 1

    def hear(self, at: int) -> None:
        """Asks the second tree what the call raised, and the tree itself how many records wait."""
        row = self.rows.setdefault(at, Row())
        told = self.shadow.read()
        while told:
            for event in told:
                self.tell(event, at)
            told = self.shadow.read()
        row.waiting = self.instance.waiting

    def check(self, at: int) -> None:
        """Compares the queue with that of the tree."""
        waiting = self.rows[at].waiting
        if waiting != len(self.queue):
            raise Fault(f"line {at}: {waiting} records wait in instance {self.number}, not {len(self.queue)}")


class Call(NamedTuple):
    """A line of the script that is a call, and what was answered."""

    number: int
    line: str
    reply: str


class Run:
    """A run of a script on two trees."""

    def __init__(self, queue: int) -> None:
        self.queue = queue
        self.tree, self.shadow = Tree(), Tree()
        self.calls: List[Call] = []
        self.lanes: Dict[int, Lane] = {}

    def step(self, at: int, line: str) -> None:
        """Runs a line on both trees."""
        words = line.split()
        if not words or words[0].startswith("#"):
            return
        try:
            text = self.tree.line(line, self.queue)
        except OSError as fault:
            raise Fault(f"line {at}: {OWN.get(fault.errno or 0) or fault.strerror}") from fault
        reply, *records = text.splitlines()
        self.calls.append(Call(at, line.strip(), reply))
        is_done = reply.startswith("ok")
        # A refused call raises no events, so the second tree can skip it.
        if is_done:
            self._follow(words, reply)
        self._look(at, words, records if is_done else None)

    def _follow(self, words: List[str], reply: str) -> None:
        """Runs the same line on the second tree, whose queues can hold all that one call raises."""
        if words[0] == "init":
            number = int(reply.split()[1])
            limit = int(words[1]) if len(words) > 1 else self.queue
            self.lanes[number] = Lane(self.tree, self.shadow, number, limit)
        if words[0] == "close":
            self.lanes[int(words[1])].is_open = False
        if words[0] not in READS:
            self.shadow.line("init" if words[0] == "init" else " ".join(words), SHADOW_QUEUE)
        if len(self.calls) % 1000 == 0:
            self.shadow.cut()

    def _look(self, at: int, words: List[str], records: Optional[List[str]]) -> None:
        """Looks what became of each instance. The records are a read's lines, and None where the call was refused."""
        for lane in self.lanes.values():
            if not lane.is_open:
                continue
            lane.hear(at)
            if records is not None and words[0] in READS and int(words[1]) == lane.number:
                lane.take(count_of(words[0], records), at)
            lane.check(at)

    def close(self) -> None:
        self.tree.close()
        self.shadow.close()


def count_of(command: str, records: List[str]) -> int:
    """Returns how many records a read printed."""
    if command == "read":
        return len(records)
    data, count, at = bytes.fromhex("".join(records)), 0, 0
    while at < len(data):
        at += 16 + int.from_bytes(data[at + 12 : at + 16], sys.byteorder)
        count += 1
    return count


def run(script: Union[Iterable[str], Tree], queue: int = QUEUE) -> Run:
    """Runs a script, line by line: that of a file, or the journal of a tree."""
    done = Run(queue)
    for at, line in enumerate(script.script().splitlines() if isinstance(script, Tree) else script, 1):
        done.step(at, line.rstrip("\n"))
    return done


def main() -> int:
    parser = argparse.ArgumentParser(description="Writes a page of a script's run to standard output.")
    parser.add_argument("script", nargs="?", type=argparse.FileType("r"), default=sys.stdin)
    parser.add_argument("--queue", type=int, default=QUEUE, help="limit of an instance that names none")
    words = parser.parse_args()
    try:
        done = run(words.script, words.queue)
    except Fault as fault:
        print(f"trace: {fault}", file=sys.stderr)
        return 2
    watchtree_trace_page.write(sys.stdout, words.script.name, done)
    done.close()
    return 0


if __name__ == "__main__":
    sys.exit(main())
