"""What decides a run: a seed, a schedule, or a number of lines before each request."""

from typing import Dict, Mapping, Optional, Sequence

from ._schedule import Schedule

_MASK = 2**64 - 1


class Plan:
    """Decides what a player asks."""

    queue: int

    def lines(self, request: int, begin: int, end: int) -> int:
        """Returns how many of the lines from `begin` to `end`, at least one, happen before a request is answered."""
        raise NotImplementedError

    def records(self, request: int) -> Optional[int]:
        """How many records a read returns at most. None is without a limit."""
        raise NotImplementedError


class Draws:
    """Numbers that a seed decides: splitmix64."""

    def __init__(self, seed: int) -> None:
        self._state = seed & _MASK

    def below(self, count: int) -> int:
        """Returns a number from 0 to `count` - 1."""
        self._state = z = (self._state + 0x9E3779B97F4A7C15) & _MASK
        z = ((z ^ (z >> 30)) * 0xBF58476D1CE4E5B9) & _MASK
        z = ((z ^ (z >> 27)) * 0x94D049BB133111EB) & _MASK
        return (z ^ (z >> 31)) % count


class Seeded(Plan):
    """A seed decides. Lines happen early and often with some seeds, late and seldom with others."""

    def __init__(self, seed: int, queues: Sequence[int], batches: Sequence[Optional[int]]) -> None:
        self._draws = draws = Draws(seed)
        self._batches = batches
        self.queue = queues[draws.below(len(queues))]
        self._odds = 1 + draws.below(16)
        self._is_short = draws.below(2) == 1

    def lines(self, request: int, begin: int, end: int) -> int:
        below, count = self._draws.below, 0
        if below(self._odds):
            return 0
        count = 1
        while count < end - begin and below(2):
            count += 1
        return count

    def records(self, request: int) -> Optional[int]:
        return self._batches[self._draws.below(len(self._batches))] if self._is_short else None


class Fixed(Plan):
    """A schedule decides."""

    def __init__(self, schedule: Schedule) -> None:
        self._before = [it.before for it in schedule.changes]
        self._reads = dict(schedule.reads)
        self.queue = schedule.queue

    def lines(self, request: int, begin: int, end: int) -> int:
        at = begin
        while at < end:
            before = self._before[at]
            if before is None or before > request:
                break
            at += 1
        return at - begin

    def records(self, request: int) -> Optional[int]:
        return self._reads.get(request)


class Moved(Plan):
    """`counts` has how many lines happen before some requests; all others happen at rest. Notes where more could."""

    def __init__(self, counts: Mapping[int, int], queue: int) -> None:
        self._counts = counts
        self.queue = queue
        self.left: Dict[int, int] = {}
        """How many lines were left after those that happened before a request."""

    def lines(self, request: int, begin: int, end: int) -> int:
        count = min(self._counts.get(request, 0), end - begin)
        self.left[request] = end - begin - count
        return count

    def records(self, request: int) -> Optional[int]:
        return None
