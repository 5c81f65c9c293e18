"""run() and replay(): many schedules, and one."""

import time
from typing import Iterable, Iterator, List, NamedTuple, Optional, Sequence, Tuple, Union

from .._library import QUEUE
from . import _reports
from ._moves import moved
from ._once import Check, Consumer, Outcome, Program
from ._plans import Seeded
from ._schedule import AnySchedule, Schedule, parse_schedule
from ._scripts import AnyFile, AnyScript, name_of, read
from ._shards import WHOLE, Shard, parse_shard
from ._shrink import shrink

QUEUES: Tuple[int, ...] = (QUEUE, QUEUE, 1, 2, 3, 5)
BATCHES: Tuple[Optional[int], ...] = (None, 1, 1, 2, 3)
REQUESTS, SHRINKING_RUNS = 10_000, 10_000


class Failure(NamedTuple):
    """A failing schedule, shrunk. `str(failure)` is what happened in it, and how to replay it."""

    seed: Optional[int]
    """The seed that found it; None if it was found otherwise."""
    schedule: Schedule
    """The shrunk schedule. replay() runs it."""
    error: BaseException
    """What the consumer or the check raised."""
    where: str
    """Who raised it: `consumer` or `check`."""
    timeline: str
    found: Schedule
    """The schedule as it was found."""
    script: str = ""
    """The calls of the run and their replies, those of the consumer and the changes: `watchtree run` repeats them."""

    def __str__(self) -> str:
        seed = "" if self.seed is None else f" (seed {self.seed})"
        lines = len(self.schedule.setup) + len(self.schedule.changes)
        head = f"the {self.where} failed under a schedule of {lines} lines{seed}"
        return f"{head}\n\n{self.timeline}\n\nthe schedule, for explore.replay():\n\n{self.schedule}"

    def save(self, path: str) -> None:
        """Writes the schedule to a file."""
        with open(path, "w", encoding="utf-8", errors="surrogateescape") as file:
            file.write(str(self.schedule))


class FoundFailure(AssertionError):
    """What Result.check() raises."""


class Result(NamedTuple):
    """What run() found. `str(result)` is its text."""

    runs: int
    reads: int
    """How many reads returned records, in all runs."""
    seconds: float
    failures: List[Failure]
    """The first is shrunk, and so are others if they were asked for."""
    name: str = "script"
    """The file of the script, for reports."""

    @property
    def failure(self) -> Optional[Failure]:
        """The first failure; None if no run failed."""
        return self.failures[0] if self.failures else None

    def check(self) -> "Result":
        """Returns the result, or raises FoundFailure if a run failed: for the last line of a test."""
        if self.failures:
            raise FoundFailure(str(self)) from self.failures[0].error
        return self

    def report(self, *, junit: "Optional[AnyFile]" = None, json: "Optional[AnyFile]" = None) -> "Result":
        """Writes reports to files, which are replaced: JUnit's XML and JSON. Returns the result."""
        _reports.write(self, self.name, {"junit": junit, "json": json})
        return self

    def __str__(self) -> str:
        head = f"{self.runs} schedules, {self.reads} reads, {len(self.failures)} failed"
        return "\n".join([head, *map(str, self.failures[:1])])


class NotDeterministic(RuntimeError):
    """A schedule that failed did not fail again."""


def run(
    script: AnyScript,
    consumer: Consumer,
    check: Check,
    *,
    seeds: Iterable[int] = range(200),
    moves: Optional[int] = None,
    queues: Sequence[int] = QUEUES,
    batches: Sequence[Optional[int]] = BATCHES,
    keep_going: bool = False,
    max_requests: int = REQUESTS,
    shard: Union[str, Shard] = WHOLE,
) -> Result:
    """Runs a consumer under one schedule for each seed, until one fails.

    `script` is text, or the path of a file, such as a recording: a `pathlib.Path`, or any other `os.PathLike`. Its lines
    before `--` happen first, the others are changes; a further `--` ends a timeout.
    `consumer(tree)` is a function, which returns what it believes, or a generator, which yields it. A run fails if the
    consumer raises an exception, or if `check(tree, believed)` raises one or returns False.

    A seed takes the limit of all queues from `queues`, and how many records a read returns at most from `batches`; None
    is without a limit. With `moves` all schedules are run in which at most `moves` lines happen before an earlier
    request than at rest; queues then have the first limit of `queues`, and seeds are not used. With `keep_going` all
    schedules are run. A consumer that makes more than `max_requests` requests fails. With `shard`, such as `2/4`, a
    part of the seeds or moves is run: all parts together are the whole, and no two have a schedule in common.

    ValueError if `script` is no script or its set-up is refused; RuntimeError if no read returned a record.
    """
    part = parse_shard(shard)
    program = Program(*read(script), consumer, check, max_requests)
    begin, runs, reads = time.monotonic(), 0, 0
    failures: List[Failure] = []
    for seed, outcome in _outcomes(program, part, seeds, moves, queues, batches):
        runs, reads = runs + 1, reads + outcome.reads
        if outcome.error:
            failures.append(failure_of(program, seed, outcome))
            if not keep_going:
                break
    if runs and not reads and not failures:
        raise RuntimeError(f"no read returned a record in {runs} runs, so the check saw nothing")
    return Result(runs, reads, time.monotonic() - begin, failures, name_of(script))


def replay(
    schedule: AnySchedule, consumer: Consumer, check: Check, *, max_requests: int = REQUESTS
) -> Optional[Failure]:
    """Runs a consumer under one schedule, or the text of one. Returns how it failed; None if it did not."""
    it = schedule if isinstance(schedule, Schedule) else parse_schedule(schedule)
    outcome = Program((), (), consumer, check, max_requests).replay(it, has_timeline=True)
    if not outcome.error:
        return None
    return Failure(None, outcome.schedule, outcome.error, outcome.where, outcome.timeline, it, outcome.script)


def _outcomes(
    program: Program,
    shard: Shard,
    seeds: Iterable[int],
    moves: Optional[int],
    queues: Sequence[int],
    batches: Sequence[Optional[int]],
) -> Iterator[Tuple[Optional[int], Outcome]]:
    if moves is not None:
        for outcome in moved(program, moves, queues[0], shard):
            yield None, outcome
        return
    for seed in shard.part(seeds):
        yield seed, program.run(Seeded(seed, queues, batches))


def failure_of(program: Program, seed: Optional[int], found: Outcome) -> Failure:
    """Shrinks a failure."""
    again = program.replay(found.schedule)
    if not again.error or again.kind != found.kind:
        raise NotDeterministic(f"{found.where} failed once, not again, under\n{found.schedule}") from found.error
    short = shrink(program, found, SHRINKING_RUNS)
    outcome = program.replay(short.schedule, has_timeline=True)
    assert outcome.error
    return Failure(
        seed, outcome.schedule, outcome.error, outcome.where, outcome.timeline, found.schedule, outcome.script
    )

