"""Schedules as a state machine of Hypothesis: its rules are changes, and steps of the consumer.

    from hypothesis import strategies as st
    from hypothesis.stateful import rule
    from watchtree.explore.hypothesis import ExploreMachine

    class Watching(ExploreMachine):
        script = "mkdir /d 755"
        consumer = staticmethod(consumer)
        check = staticmethod(check)

        @rule(name=st.sampled_from("abc"))
        def make(self, name):
            self.change(f"mkdir /d/{name} 755")

    TestWatching = Watching.TestCase

Hypothesis draws which rules run, and shrinks those that fail. RecordedMachine has rules that draw from a recording.
"""

from typing import Any, List, Optional

from hypothesis import strategies as st
from hypothesis.stateful import RuleBasedStateMachine, precondition, rule

from .._library import QUEUE
from .._tree import Tree
from ._once import believed_by
from ._plans import Fixed
from ._player import Player, TooManyRequests, encode
from ._run import REQUESTS, FoundFailure, replay
from ._schedule import PAUSE, Change, Schedule, parse_script
from ._scripts import AnyScript, read
from ._tree import ExploredTree


class _Ahead(Fixed):
    """A schedule, and limits for the reads after it."""

    def __init__(self, schedule: Schedule, requests: int, limits: List[int]) -> None:
        super().__init__(schedule)
        self._requests, self._limits = requests, limits

    def records(self, request: int) -> Optional[int]:
        if request > self._requests and self._limits:
            return self._limits.pop(0)
        return super().records(request)


class ExploreMachine(RuleBasedStateMachine):
    """A state machine with rules that let the consumer go on. A subclass adds rules that call change().

    Each step repeats the run so far, so the consumer has to be deterministic. After the last rule the run goes to its
    end, and the check is made.
    """

    script = ""
    """What happens first: lines of a script, without `--`."""
    queue = QUEUE
    """The limit of each queue."""

    def consumer(self, tree: Tree) -> Any:
        """The event code, as run() takes it."""
        raise NotImplementedError

    def check(self, tree: Tree, believed: Any) -> Optional[bool]:
        """Raises an exception or returns False if the run failed."""
        raise NotImplementedError

    def __init__(self) -> None:
        super().__init__()
        setup, _ = parse_script(f"{self.script}\n{PAUSE}")
        self.schedule = Schedule(setup, (), (), self.queue)
        self._requests, self._is_at_rest, self._limits = 0, False, []  # type: int, bool, List[int]

    def change(self, line: str) -> None:
        """Lets a line happen now: before the next request of the consumer, or at rest if it waits."""
        change = Change(line, None if self._is_at_rest else self._requests + 1)
        self.schedule = self.schedule._replace(changes=(*self.schedule.changes, change))

    @rule(count=st.integers(1, 6))
    def go_on(self, count: int) -> None:
        """The consumer makes requests, fewer if it waits before."""
        self._run(self._requests + count)

    @rule()
    def come_to_rest(self) -> None:
        """The consumer makes requests until it waits."""
        self._run(REQUESTS)

    @rule(records=st.integers(1, 3))
    def read_at_most(self, records: int) -> None:
        """Limits the next read to `records` records."""
        self._limits.append(records)

    def _run(self, limit: int) -> None:
        limits = list(self._limits)
        lines = [it.line for it in self.schedule.changes]
        with Tree() as tree:
            player = Player(tree, _Ahead(self.schedule, self._requests, limits), encode(lines), limit)
            player.set_up(encode(self.schedule.setup))
            try:
                believed_by(self.consumer, ExploredTree(tree, player))
            except TooManyRequests:
                pass
            except Exception:
                pass  # (teardown() makes the same run)
        self._requests, self._is_at_rest = min(player.requests, limit), player.requests <= limit
        self.schedule, self._limits = player.schedule(self.schedule.setup, lines), limits

    def teardown(self) -> None:
        """Makes the run to its end, and raises FoundFailure if it fails."""
        self._run(REQUESTS)
        failure = replay(self.schedule, self.consumer, self.check)
        if failure:
            raise FoundFailure(str(failure)) from failure.error


class RecordedMachine(ExploreMachine):
    """A state machine whose rules draw from the calls of a recording, or of any script.

    The calls happen in their order, some of them are skipped, and some happen when it is not their turn. The tree that
    the recorded program began with is there first. A subclass may add rules of its own.
    """

    recording: AnyScript = ""
    """The text of the script, or the path of its file."""

    def __init__(self) -> None:
        setup, lines = read(self.recording)
        self.calls = [it for it in lines if it != PAUSE]
        if not self.calls:
            raise ValueError("the recording has no call behind its line `--`")
        self.script = "\n".join(setup)
        self._next = 0
        super().__init__()

    def _are_left(self) -> bool:
        return self._next < len(self.calls)

    @precondition(_are_left)
    @rule(count=st.integers(1, 8))
    def make_calls(self, count: int) -> None:
        """The next calls of the recording happen."""
        for line in self.calls[self._next : self._next + count]:
            self.change(line)
        self._next += count

    @precondition(_are_left)
    @rule(count=st.integers(1, 4))
    def skip_calls(self, count: int) -> None:
        """The next calls of the recording do not happen."""
        self._next += count

    @rule(data=st.data())
    def make_another_call(self, data: Any) -> None:
        """A call of the recording happens when it is not its turn."""
        self.change(data.draw(st.sampled_from(self.calls)))


__all__ = ["ExploreMachine", "RecordedMachine"]
