"""Makes a failing schedule shorter while it still fails."""

import itertools
from typing import Iterator, Optional

from .._library import QUEUE
from ._moves import moved
from ._once import Outcome, Program
from ._schedule import Change, Schedule

# What is tried of the schedules of a script: how many lines are moved, and how many runs are made.
_MOVES, _MOVED_RUNS = 3, 300
# How many requests earlier a change is tried when a line before it is dropped.
_EARLIER = 24


def _without_lines(schedule: Schedule) -> Iterator[Schedule]:
    """Drops lines: many at once first, later ones first."""
    changes, setup = schedule.changes, schedule.setup
    size = len(changes)
    while size:
        for at in range(len(changes) - size, -1, -size):
            yield schedule._replace(changes=changes[:at] + changes[at + size :])
        size //= 2
    for at in range(len(setup) - 1, -1, -1):
        yield schedule._replace(setup=setup[:at] + setup[at + 1 :])


def _with_shifts(schedule: Schedule) -> Iterator[Schedule]:
    """Drops one line, and lets the changes after it happen before earlier requests: the consumer makes fewer then."""
    for at in range(len(schedule.changes)):
        rest = schedule.changes[at + 1 :]
        first = next((it.before for it in rest if it.before is not None), 0)
        for shift in range(1, min(first, _EARLIER)):
            moved = tuple(it._replace(before=max(1, it.before - shift) if it.before else None) for it in rest)
            reads = tuple((max(1, r - shift), n) if r >= first else (r, n) for r, n in schedule.reads)
            yield schedule._replace(changes=schedule.changes[:at] + moved, reads=tuple(dict(reads).items()))


def _without_moves(schedule: Schedule) -> Iterator[Schedule]:
    """Lets changes happen at rest, drops limits of reads, and makes queues longer."""
    changes = schedule.changes
    if schedule.queue != QUEUE:
        yield schedule._replace(queue=QUEUE)
    if schedule.reads:
        yield schedule._replace(reads=())
    for at in range(len(schedule.reads) - 1, -1, -1):
        yield schedule._replace(reads=schedule.reads[:at] + schedule.reads[at + 1 :])
    for at in range(len(changes) - 1, -1, -1):
        if changes[at].before is not None:
            yield schedule._replace(changes=(*changes[:at], Change(changes[at].line), *changes[at + 1 :]))


def _pairs(schedule: Schedule) -> Iterator[Schedule]:
    """Drops two lines together: one that makes something, and one that removes it."""
    changes = schedule.changes
    for one in range(len(changes)):
        for other in range(one + 1, len(changes)):
            yield schedule._replace(changes=changes[:one] + changes[one + 1 : other] + changes[other + 1 :])


def _smaller(schedule: Schedule) -> Iterator[Schedule]:
    """Each has fewer lines, or as many and fewer choices."""
    return itertools.chain(
        _without_lines(schedule), _without_moves(schedule), _with_shifts(schedule), _pairs(schedule)
    )


class _Search:
    """Looks for failures of one kind, in at most `runs` runs."""

    def __init__(self, program: Program, found: Outcome, runs: int) -> None:
        self._program, self._kind, self._left = program, found.kind, runs

    def _is_found(self, outcome: Outcome) -> bool:
        self._left -= 1
        return outcome.error is not None and outcome.kind == self._kind

    def by_schedule(self, schedules: Iterator[Schedule]) -> Optional[Outcome]:
        """Returns the first schedule that fails."""
        for schedule in schedules:
            outcome = self._program.replay(schedule) if self._left > 0 else None
            if not outcome:
                return None
            if self._is_found(outcome):
                return outcome
        return None

    def by_moves(self, schedule: Schedule) -> Optional[Outcome]:
        """Drops a line, and tries all schedules of the rest with few moves."""
        lines = [it.line for it in schedule.changes]
        for at in range(len(lines)):
            program = self._program.with_lines(schedule.setup, lines[:at] + lines[at + 1 :])
            for queue in sorted({1, schedule.queue}):
                for outcome in itertools.islice(moved(program, _MOVES, queue), _MOVED_RUNS):
                    if self._is_found(outcome):
                        return outcome
                    if self._left <= 0:
                        return None
        return None


def shrink(program: Program, found: Outcome, runs: int) -> Outcome:
    """Returns the smallest failure of the same kind, by lines and moves, that at most `runs` runs find."""
    search, best = _Search(program, found, runs), found
    while True:
        better = search.by_schedule(_smaller(best.schedule)) or search.by_moves(best.schedule)
        if not better:
            return best
        best = better
