"""The search by seeds, what a search found, and runs that go at once. moves.py has the search by moves."""

from concurrent.futures import FIRST_COMPLETED, Future, ThreadPoolExecutor, wait
from dataclasses import dataclass, field
from itertools import takewhile
from typing import TYPE_CHECKING, Callable, Iterator, List, Optional, Set

from deadline import Deadline
from progress import Progress
from runs import LINES_LEFT, STALLED, Bench, Result

if TYPE_CHECKING:
    from moves import Moved

Step = Callable[[], Result]


@dataclass
class Found:
    """What a search found, what it has searched, and what is left."""

    undelivered: int = 0
    unfinished: int = 0
    stalled: int = 0
    seconds: float = 0.0
    failures: List[Result] = field(default_factory=list)
    seeds: Set[int] = field(default_factory=set)
    """Those that ran."""
    names: List[str] = field(default_factory=list)
    """The moves that ran."""
    left: "Optional[List[Moved]]" = None
    """The moves that did not run yet, of a search that stopped. None before it began."""
    is_complete: bool = False

    def add(self, result: Result) -> None:
        """Counts a run, and keeps it if it fails."""
        self.undelivered += not result.delivered
        self.unfinished += result.status == LINES_LEFT
        self.stalled += result.status == STALLED
        if result.fails:
            self.failures.append(result)
        if result.seed is not None:
            self.seeds.add(result.seed)
        else:
            self.names.append(result.name)

    @property
    def runs(self) -> int:
        """How many runs there were."""
        return len(self.seeds) + len(self.names)

    def rate(self) -> float:
        """Returns how many runs a second there were."""
        return self.runs / max(self.seconds, 1e-9)


def by_seeds(bench: Bench, seeds: range, vary: str, jobs: int, first: bool, found: Optional[Found] = None,
             deadline: Optional[Deadline] = None) -> Found:
    """Runs each seed that did not run yet. With `first` it stops at a failure."""
    found, stop = found or Found(), deadline or Deadline()
    left = [it for it in seeds if it not in found.seeds]
    progress = Progress("explore", len(left))
    steps = ((lambda seed=seed: bench.seed(seed, vary)) for seed in takewhile(lambda _: not stop.is_over(), left))
    try:
        for result in in_parallel(steps, jobs):
            with stop.whole():
                found.add(result)
            progress.add(result.fails)
            if first and result.fails:
                found.is_complete = True
                break
    finally:
        progress.close()
        found.seconds += progress.seconds()
        found.failures.sort(key=lambda it: it.seed or 0)
    found.is_complete = found.is_complete or len(found.seeds) == len(seeds)
    return found


def in_parallel(steps: Iterator[Step], jobs: int) -> Iterator[Result]:
    """Takes steps, at most `jobs` at once, and yields the results as they come."""
    pool = ThreadPoolExecutor(jobs)
    waiting: Set["Future[Result]"] = set()
    try:
        for step in steps:
            waiting.add(pool.submit(step))
            if len(waiting) < 2 * jobs:
                continue
            done, waiting = wait(waiting, return_when=FIRST_COMPLETED)
            for it in done:
                yield it.result()
        while waiting:
            done, waiting = wait(waiting, return_when=FIRST_COMPLETED)
            for it in done:
                yield it.result()
    finally:
        pool.shutdown(wait=True, cancel_futures=True)
