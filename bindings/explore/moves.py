"""The search by moves: every schedule in which one or two lines, or turns, are moved, or reads are short."""

import heapq
from concurrent.futures import FIRST_COMPLETED, Future, ThreadPoolExecutor, wait
from dataclasses import dataclass, replace
from typing import Dict, Iterator, List, Optional, Tuple

import traces
from deadline import Deadline
from progress import Progress
from runs import Bench, Result
from schedules import Line, Mark, Schedule, ShortRead
from search import Found
from shards import Shard

# When a move takes effect: the request, and whether it is a read that is short rather than a line before it; then which.
Key = Tuple[int, int, int]


@dataclass(frozen=True)
class Moved:
    """A schedule with some moves, the last of which has this key and is that of this line."""

    schedule: Schedule
    count: int
    key: Key
    line: int
    name: str = ""
    """The moves in words."""

    def with_move(self, schedule: Schedule, key: Key, line: int, move: str) -> "Moved":
        """Returns a schedule with one more move."""
        return Moved(schedule, self.count + 1, key, line, f"{self.name}, {move}" if self.name else move)


def line_moves(parent: Moved, result: Result) -> Iterator[Moved]:
    """Yields the schedules in which one more line happens earlier: after the line above it, and not before the last move."""
    places = result.places()
    line, is_marked, lowest = -1, False, 1
    for at, it in enumerate(result.schedule.items):
        if isinstance(it, Mark):
            is_marked = True
        if not isinstance(it, Line):
            continue
        line += 1
        # Before the request that is next when it happens at rest is no other schedule.
        if line > parent.line and it.before is None and not is_marked:
            for request in range(max(lowest, parent.key[0]), places[line]):
                if (request, 0, line) > parent.key:
                    yield _with_line(parent, result.schedule, at, request, line)
        lowest, is_marked = places[line], False


def _with_line(parent: Moved, schedule: Schedule, at: int, request: int, line: int) -> Moved:
    items = list(schedule.items)
    item = items[at]
    assert isinstance(item, Line)
    items[at] = replace(item, before=request)
    schedule = replace(schedule, items=tuple(items))
    what = "turn" if item.is_turn() else "line"
    return parent.with_move(schedule, (request, 0, line), line, f"{what} {line + 1} before request {request}")


def read_moves(parent: Moved, result: Result) -> Iterator[Moved]:
    """Yields the schedules in which one more read hands over less than it could, after the last move."""
    for request, records in traces.records_by_read(traces.after_first_mark(result.trace)):
        for most in range(1, records):
            key = (request, 1, most)
            if key > parent.key and not _is_short(result.schedule, request):
                schedule = replace(result.schedule, items=(*result.schedule.items, ShortRead(request, most)))
                yield parent.with_move(schedule, key, parent.line, f"read {request} of at most {most}")


def _is_short(schedule: Schedule, request: int) -> bool:
    return any(isinstance(it, ShortRead) and it.request == request for it in schedule.items)


class Queue:
    """The schedules that are left: those with fewer moves come first, then those that were found first."""

    def __init__(self, most: int, vary: str, shard: Shard) -> None:
        self._most, self._vary, self._shard = most, vary, shard
        self._heap: List[Tuple[int, int, Moved]] = []
        self._order = 0

    def __len__(self) -> int:
        return len(self._heap)

    def put(self, moved: Moved) -> None:
        """Takes a schedule."""
        self._order += 1
        heapq.heappush(self._heap, (moved.count, self._order, moved))

    def take(self) -> Moved:
        """Returns the next schedule."""
        return heapq.heappop(self._heap)[2]

    def expand(self, parent: Moved, result: Result) -> int:
        """Takes the schedules with one move more than a run had. Returns how many."""
        children: List[Moved] = []
        if parent.count < self._most:
            children += line_moves(parent, result) if "lines" in self._vary else []
            children += read_moves(parent, result) if "reads" in self._vary else []
        for child in children:
            if parent.count or self._shard.has_move(child.key):
                self.put(child)
        return len(children)

    def left(self) -> List[Moved]:
        """Returns all in their order."""
        return [it for _, _, it in sorted(self._heap, key=lambda it: it[:2])]


def by_moves(bench: Bench, base: Result, moves: int, vary: str, jobs: int, first: bool, found: Optional[Found] = None,
             deadline: Optional[Deadline] = None, shard: Shard = Shard()) -> Found:
    """Runs every schedule with at most `moves` moves that did not run yet. With `first` it stops at a failure."""
    found, deadline, progress = found or Found(), deadline or Deadline(), Progress("explore", 0)
    queue, waiting = Queue(moves, vary, shard), {}  # type: Queue, Dict["Future[Result]", Moved]
    if found.left is None:
        queue.expand(Moved(base.schedule, 0, (0, 0, -1), -1), base)
    for moved in found.left or ():
        queue.put(moved)
    pool = ThreadPoolExecutor(jobs)
    try:
        while waiting or (queue and not deadline.is_over()):
            while queue and len(waiting) < 2 * jobs and not deadline.is_over():
                moved = queue.take()
                waiting[pool.submit(bench.replay, moved.schedule)] = moved
            progress.total = progress.runs + len(queue) + len(waiting)
            for it in wait(waiting, return_when=FIRST_COMPLETED)[0]:
                result = it.result()
                with deadline.whole():
                    _count(found, queue, waiting.pop(it), result)
                progress.add(result.fails)
            if first and found.failures:
                break
    finally:
        # (first: a second signal may end the rest of this)
        found.left = [*waiting.values(), *queue.left()]
        found.seconds += progress.seconds()
        pool.shutdown(wait=True, cancel_futures=True)
        progress.close()
    found.is_complete = not found.left or (first and bool(found.failures))
    return found


def _count(found: Found, queue: Queue, moved: Moved, result: Result) -> None:
    """Counts a run. What fails with one move fails with more, too."""
    result.name = moved.name
    found.add(result)
    if not result.fails:
        queue.expand(moved, result)
