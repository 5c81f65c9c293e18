"""Makes one run: lets lines happen before requests of the consumer, and while it waits."""

import ctypes
import errno
import os
from typing import TYPE_CHECKING, Callable, Dict, List, Optional, Sequence, Set, Tuple

from .._arguments import PathText, seconds
from .._errors import fail
from .._tree import Tree
from ._plans import Plan
from ._schedule import PAUSE, Change, Schedule
from ._timeline import Timeline

if TYPE_CHECKING:
    Buffer = ctypes.Array[ctypes.c_char]
new_buffer = ctypes.create_string_buffer
# The first error number for a line, the step between the sizes of records, and the size of the first buffer.
_FAULTS, _STEP, _LEAST = 1101, 16, 65536


class EndOfRun(OSError):
    """No line is left, and the consumer asked for events in vain. It is an OSError with EBADF, as if the instance were
    closed: `for event in instance` ends."""

    def __init__(self) -> None:
        super().__init__(errno.EBADF, "the run is over: no line is left, and no record waits")


class TooManyRequests(BaseException):
    """A consumer made more requests than a run may have. It is no Exception, so that a consumer does not catch it."""


class Player:
    """One run. The caller opens and closes its tree, and may use its buffer for the next run."""

    def __init__(
        self,
        tree: Tree,
        plan: Plan,
        lines: Sequence[bytes],
        limit: int,
        timeline: Optional[Timeline] = None,
        buffer: Optional["Buffer"] = None,
    ) -> None:
        self._tree, self._library, self._at = tree, tree._library, tree._at
        self._plan, self._lines, self._limit, self.timeline = plan, lines, limit, timeline
        self.buffer: Buffer = buffer or new_buffer(_LEAST)
        self._asked: Set[int] = set()
        self._asks = 0
        self.requests = 0
        self.reads = 0
        """How many reads returned records."""
        self.before: List[Optional[int]] = []
        """When each line that happened did so."""
        self.limits: Dict[int, int] = {}
        """How many records some reads returned at most, by their requests."""

    @property
    def queue(self) -> int:
        return self._plan.queue

    def set_up(self, lines: Sequence[bytes]) -> None:
        for line in lines:
            self._line(line)

    def schedule(self, setup: Sequence[str], changes: Sequence[str]) -> Schedule:
        """Returns what happened when. Lines that did not happen are at rest."""
        before = [*self.before, *([None] * (len(changes) - len(self.before)))]
        return Schedule(tuple(setup), tuple(map(Change, changes, before)), tuple(self.limits.items()), self.queue)

    def _line(self, line: bytes) -> bytes:
        out = self.buffer
        count: int = self._library.wtt_line(self._at, self._plan.queue, line, len(line), out, len(out))
        if count < 0:
            if -count >= _FAULTS:
                raise ValueError(f"{os.fsdecode(line)!r} is not a line of a script")
            fail(-count)
        # (only the beginning of a long text is shown)
        return ctypes.string_at(out, min(count, len(out))) if self.timeline else b""

    def _happen(self, before: Optional[int]) -> None:
        line = self._lines[len(self.before)]
        self.before.append(before)
        reply = self._line(line) if line != b"--" else b""
        if self.timeline:
            self.timeline.line(line, reply, before)

    def request(self) -> int:
        """Counts a request, and lets the lines happen that happen before it is answered."""
        self.requests = request = self.requests + 1
        if request > self._limit:
            raise TooManyRequests(f"the consumer made more than {self._limit} requests")
        if self._asked:
            self._asked.clear()
        begin, end = len(self.before), len(self._lines)
        if begin != end:
            for _ in range(self._plan.lines(request, begin, end)):
                self._happen(request)
        return request

    def answer(self, name: str, words: Tuple[object, ...], call: Callable[..., object]) -> object:
        """Makes a call of the consumer, which is a request."""
        request = self.request()
        if not self.timeline:
            return call(name, *words)
        try:
            answer = call(name, *words)
        except OSError as fault:
            self.timeline.request(request, name, words, fault)
            raise
        self.timeline.request(request, name, words, answer)
        return answer

    def _rest(self, instance: int, timeout: Optional[float]) -> bool:
        """Lets a line happen, as the consumer asks an instance in vain. False if the timeout is over first."""
        self._asks += 1
        if self._asks > self._limit:
            raise TooManyRequests(f"the consumer asked in vain more than {self._limit} times")
        is_first = instance not in self._asked
        self._asked.add(instance)
        if timeout == 0 and is_first:
            return False
        if len(self.before) == len(self._lines):
            if timeout is not None and is_first:
                return False
            if self.timeline:
                self.timeline.end()
            raise EndOfRun
        is_pause = self._lines[len(self.before)] == b"--"
        self._happen(None)
        return not (is_pause and timeout)

    def waiting(self, instance: int, name: str = "wtt_waiting") -> int:
        """Returns how many records of an instance wait, or their bytes. The consumer asks, so it is a request."""
        while not self._tree._call("wtt_waiting", instance):
            if not self._rest(instance, 0):
                return 0
        answer = self.answer(name, (instance,), self._tree._call)
        assert isinstance(answer, int)
        return answer

    def read(self, instance: int, size: int, timeout: Optional[float]) -> Optional[bytes]:
        """Returns the bytes of whole records, or None if the timeout is over."""
        if timeout is not None:
            seconds("timeout", timeout)
        while not self._tree._call("wtt_waiting", instance):
            if not self._rest(instance, timeout):
                return None
        request = self.request()
        self.reads += 1
        limit = self._plan.records(request)
        if limit is None:
            data = self._take(instance, size)
            if data is None:
                fail(errno.EINVAL)
        else:
            self.limits[request] = limit
            data = self._take_records(instance, size, limit)
        if self.timeline:
            self.timeline.read(request, instance, data, limit)
        return data

    def text(self, name: str, *words: object, paths: Sequence[PathText] = ()) -> bytes:
        """Makes a call that returns how many bytes its text has. (As Tree._text, with one buffer for all.)"""
        while True:
            wanted = self._tree._call(name, *words, self.buffer, len(self.buffer), paths=paths)
            if wanted <= len(self.buffer):
                return ctypes.string_at(self.buffer, wanted)
            self.buffer = new_buffer(wanted)

    def _take(self, instance: int, size: int) -> Optional[bytes]:
        """Takes as many records as fit. None if the first does not fit."""
        if len(self.buffer) < size:
            self.buffer = new_buffer(size)
        count: int = self._library.wtt_read(self._at, instance, self.buffer, size, 0)
        if count < 0:
            if count == -errno.EINVAL:
                return None
            fail(-count)
        return ctypes.string_at(self.buffer, count)

    def _take_records(self, instance: int, size: int, limit: int) -> bytes:
        """Takes at most `limit` records, each with the shortest buffer that it fits, so that no other follows."""
        taken = b""
        for _ in range(limit):
            if taken and not self._tree._call("wtt_waiting", instance):
                break
            data, step = None, _STEP
            while data is None and len(taken) + step <= size:
                data = self._take(instance, step)
                step += _STEP
            if data is None:
                break
            taken += data
        if not taken:
            fail(errno.EINVAL)
        return taken


def encode(lines: Sequence[str]) -> List[bytes]:
    """Returns lines as the library takes them."""
    return [PAUSE.encode() if it == PAUSE else os.fsencode(it) for it in lines]
