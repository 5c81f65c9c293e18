"""Runs a consumer once, under one plan."""

import inspect
import os
from typing import TYPE_CHECKING, Any, Callable, List, NamedTuple, Optional, Sequence, Tuple

from .._library import default_library
from .._tree import Tree
from ._plans import Fixed, Plan
from ._player import EndOfRun, Player, TooManyRequests, encode
from ._schedule import Schedule
from ._timeline import Timeline
from ._tree import ExploredTree

if TYPE_CHECKING:
    from ._player import Buffer

_PACKAGE = os.path.dirname(os.path.dirname(os.path.abspath(__file__))) + os.sep
Consumer = Callable[[Tree], Any]
Check = Callable[[Tree, Any], Optional[bool]]


class Outcome(NamedTuple):
    """What became of a run."""

    error: Optional[BaseException]
    """What the consumer or the check raised; None if the run did not fail."""
    where: str
    """Who raised it: `consumer` or `check`."""
    schedule: Schedule
    requests: int
    reads: int
    timeline: str
    script: str

    @property
    def kind(self) -> Tuple[object, ...]:
        """Two failures are of one kind if the same line of a user raised the same type of exception."""
        return self.where, type(self.error), _user_line(self.error)


def _user_line(error: Optional[BaseException]) -> object:
    """Returns the innermost line outside this package that an exception came through."""
    found = None
    trace = error.__traceback__ if error else None
    while trace:
        name = trace.tb_frame.f_code.co_filename
        if not name.startswith(_PACKAGE):
            found = name, trace.tb_lineno
        trace = trace.tb_next
    return found


def believed_by(consumer: Consumer, tree: Tree) -> Any:
    """Runs a consumer to its end, and returns what it believes: what it returns, or the last value of a generator."""
    believed = None
    try:
        believed = consumer(tree)
        if inspect.isgenerator(believed):
            generator, believed = believed, None
            while True:
                try:
                    believed = next(generator)
                except StopIteration as end:
                    return believed if end.value is None else end.value
        if inspect.iscoroutine(believed):
            believed.close()
            raise TypeError("a consumer is a function or a generator, not a coroutine")
    except EndOfRun:
        pass
    return believed


class Program:
    """A script, a consumer and a check, ready to run many times."""

    def __init__(
        self, setup: Sequence[str], changes: Sequence[str], consumer: Consumer, check: Check, limit: int
    ) -> None:
        self.setup, self.changes = tuple(setup), tuple(changes)
        self._consumer, self._check, self._limit = consumer, check, limit
        self._setup, self._lines = encode(setup), encode(changes)
        self._library = default_library()
        self._buffer: Optional["Buffer"] = None

    def with_lines(self, setup: Sequence[str], changes: Sequence[str]) -> "Program":
        """Returns the program with another script."""
        program = Program(setup, changes, self._consumer, self._check, self._limit)
        program._buffer = self._buffer
        return program

    def run(self, plan: Plan, has_timeline: bool = False) -> Outcome:
        """Makes one run in a new tree."""
        timeline = Timeline(self.setup) if has_timeline else None
        tree = Tree(self._library)
        player = Player(tree, plan, self._lines, self._limit, timeline, self._buffer)
        player.set_up(self._setup)
        error, where = self._judge(tree, player)
        self._buffer = player.buffer
        if timeline and error:
            timeline.failed(where, error)
        schedule = player.schedule(self.setup, self.changes)
        script = timeline.script if timeline else ""
        return Outcome(error, where, schedule, player.requests, player.reads, str(timeline or ""), script)

    def _judge(self, tree: Tree, player: Player) -> Tuple[Optional[BaseException], str]:
        try:
            believed = believed_by(self._consumer, ExploredTree(tree, player))
        except (Exception, TooManyRequests) as fault:
            return fault, "consumer"
        finally:
            # (before the check makes calls)
            if player.timeline:
                player.timeline.script = tree.script()
        try:
            if self._check(tree, believed) is False:
                raise AssertionError("the check returned False")
        except Exception as fault:
            return fault, "check"
        return None, ""

    def replay(self, schedule: Schedule, has_timeline: bool = False) -> Outcome:
        """Makes the run of a schedule, whose script may be another one."""
        lines: List[str] = [it.line for it in schedule.changes]
        return self.with_lines(schedule.setup, lines).run(Fixed(schedule), has_timeline)
