"""Shrinking: lines, moves, short reads and the limit of the queues are dropped while the run still fails.

A candidate counts if it fails, ends with the status of the first run, and, unless the whole script fails with nothing moved,
passes with nothing moved: otherwise lines would be dropped until the script is wrong for another reason.
"""

from concurrent.futures import ThreadPoolExecutor
from dataclasses import replace
from typing import Callable, Iterator, List, Optional, Sequence, Tuple

from runs import Bench, Result
from schedules import USUAL_QUEUE, Item, Line, Refused, Schedule, ShortRead, relative

# How often a run that fails for the first time is replayed before it counts as one that cannot be replayed.
ATTEMPTS = 3


class Shrinker:
    """Makes one failing schedule smaller. Each candidate is a run: up to `jobs` at once, at most `budget` in all."""

    def __init__(self, bench: Bench, failed: Result, is_race: bool, jobs: int, budget: int) -> None:
        self.bench, self.jobs, self.budget = bench, jobs, budget
        self.seed, self.status, self.is_race = failed.seed, failed.status, is_race
        self.best = failed
        self.runs = 0

    def shrink(self) -> Optional[Result]:
        """Returns the run of the smallest schedule that it found, or None if the first one does not fail again."""
        if not any(self._takes(self._run(self.best.schedule)) for _ in range(ATTEMPTS)):
            return None
        steps: List[Callable[[Schedule], Iterator[Schedule]]] = [without_moves, without_limits, without_items, without_setup]
        size = None
        while size != self.best.schedule.size() and self.runs < self.budget:
            size = self.best.schedule.size()
            for step in steps:
                while self._improve(step):
                    pass
        return self.best

    def _run(self, schedule: Schedule) -> Optional[Result]:
        """Runs a candidate. None if its set-up is refused: a line needs one that was dropped."""
        try:
            return self.bench.replay(schedule, self.seed)
        except Refused:
            return None

    def _takes(self, result: Optional[Result]) -> bool:
        """Keeps a run that fails as the first one did."""
        if not result or not result.fails or result.status != self.status:
            return False
        if self.is_race:
            self.runs += 1
            at_rest = self._run(result.schedule.at_rest())
            if not at_rest or at_rest.fails:
                return False
        self.best = result
        return True

    def _improve(self, step: Callable[[Schedule], Iterator[Schedule]]) -> bool:
        """Tries the candidates of a step, the boldest first, and keeps the first that is smaller and fails."""
        now = relative(self.best.schedule, self.best.places())
        least = self.best.schedule.size()
        candidates = (it for it in step(now) if it.size() < least)
        with ThreadPoolExecutor(self.jobs) as pool:
            while self.runs < self.budget:
                batch = [it for _, it in zip(range(self.jobs), candidates)]
                if not batch:
                    return False
                self.runs += len(batch)
                for result in pool.map(self._run, batch):
                    if result and result.schedule.size() < least and self._takes(result):
                        return True
        return False


def without_moves(now: Schedule) -> Iterator[Schedule]:
    """Lines and turns happen at rest again: all, parts of them, single ones."""
    yield now.at_rest()
    moved = [at for at, it in enumerate(now.items) if isinstance(it, Line) and it.before is not None]
    for some in chunks(moved):
        items = [replace(it, before=None, is_relative=False) if at in some and isinstance(it, Line) else it
                 for at, it in enumerate(now.items)]
        yield replace(now, items=tuple(items))


def without_limits(now: Schedule) -> Iterator[Schedule]:
    """Reads take all they can, and queues have their usual limit."""
    if now.queue != USUAL_QUEUE:
        yield replace(now, queue=USUAL_QUEUE)
    short = [at for at, it in enumerate(now.items) if isinstance(it, ShortRead)]
    for some in chunks(short):
        yield replace(now, items=tuple(it for at, it in enumerate(now.items) if at not in some))


def without_items(now: Schedule) -> Iterator[Schedule]:
    """Lines and marks after the first mark are dropped. What follows a dropped line counts from the line above it: by its own
    distance, or by both."""
    droppable = [at for at, it in enumerate(now.items) if not isinstance(it, ShortRead) and not is_turn(it)]
    for some in chunks(droppable):
        near, far = _drop(now.items, some, False), _drop(now.items, some, True)
        yield replace(now, items=near)
        if far != near:
            yield replace(now, items=far)


def is_turn(it: Item) -> bool:
    """Whether it is a turn of a second program, which makes it anyway: it can only happen elsewhere."""
    return isinstance(it, Line) and it.is_turn()


def _drop(items: Sequence[Item], some: Sequence[int], adds: bool) -> Tuple[Item, ...]:
    out: List[Item] = []
    more = 0
    for at, it in enumerate(items):
        if at in some:
            more += it.before or 0 if isinstance(it, Line) else 0
        elif adds and isinstance(it, ShortRead):
            out.append(replace(it, request=it.request + more))
        elif isinstance(it, Line):
            out.append(replace(it, before=it.before + more) if adds and it.before is not None else it)
            more = 0
        else:
            out.append(it)
    return tuple(out)


def without_setup(now: Schedule) -> Iterator[Schedule]:
    """Lines that set the tree up are dropped."""
    for some in chunks(range(len(now.setup))):
        yield replace(now, setup=tuple(it for at, it in enumerate(now.setup) if at not in some))


def chunks(places: Sequence[int]) -> Iterator[Sequence[int]]:
    """Yields all of some positions, then each half, each quarter, and so on to single ones, the last first."""
    size = len(places)
    while size:
        for end in range(len(places), 0, -size):
            yield places[max(end - size, 0) : end]
        size = 0 if size == 1 else (size + 1) // 2
