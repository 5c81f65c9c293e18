"""An instance of inotify."""

import ctypes
import errno
import os
from collections import deque
from typing import TYPE_CHECKING, AsyncIterator, Deque, Iterator, List, NoReturn, Optional

from . import _waiting
from ._arguments import AnyPath, integer, path_text, unsigned
from ._errors import fail
from ._events import Event, Mask, parse, parse_one, records

if TYPE_CHECKING:
    from ._tree import Tree

_SIZE = 65536
# The bytes of the record with the longest name.
_LONGEST = 16 + 256


class Instance:
    """An instance of inotify. It is closed at the end of a `with`, by close(), or with its tree.

    Threads may share it; each record goes to one of them. `for event in instance` waits for events, and ends when the
    instance is closed; so does `async for`. Both take records from the queue in batches: leaving the loop loses none of
    them, since all methods that read take the rest of the batch first, and a fork of the tree has it too. fileno() does
    not report that rest.

    `number` is its number in lines of scripts. Tree.instance() takes it, also in forks of the tree.
    """

    def __init__(self, tree: "Tree", number: int) -> None:
        self.tree = tree
        self.number = number = unsigned("number", number)
        # The rest of a batch, which each object for this instance takes from, and the descriptor of fileno().
        self._ahead: Deque[bytes] = tree._batches.setdefault(number, deque())
        self._fd = -1

    def __del__(self) -> None:
        # Not in close(): a thread or an event loop that waits for the descriptor is woken by it.
        if getattr(self, "_fd", -1) >= 0:
            os.close(self._fd)

    def __reduce__(self) -> NoReturn:
        # A second object with the same descriptor would close it twice.
        raise TypeError("an instance can't be copied or pickled: it owns a descriptor; use tree.instance(number)")

    def __enter__(self) -> "Instance":
        return self

    def __exit__(self, *_: object) -> None:
        # It may be closed already.
        try:
            self.close()
        except OSError as fault:
            if fault.errno != errno.EBADF:
                raise

    def add_watch(self, path: AnyPath, mask: int = Mask.ALL_EVENTS) -> int:
        """Watches the file or directory at a path, and returns the watch descriptor."""
        text, bits = path_text("path", path), unsigned("mask", mask)
        plain = os.fsencode(text)
        return self.tree._call("wtt_inotify_add_watch", self.number, plain, len(plain), bits, paths=(text,))

    def rm_watch(self, wd: int) -> None:
        """Ends a watch."""
        self.tree._call("wtt_inotify_rm_watch", self.number, integer("wd", wd, -(2**31), 2**31 - 1))

    def close(self) -> None:
        """Closes the instance, and wakes whoever waits for it."""
        self.tree._call("wtt_inotify_close", self.number)
        self.tree._batches.pop(self.number, None)

    @property
    def waiting(self) -> int:
        """How many records wait."""
        with self.tree._lock():
            return self._count() + len(self._ahead)

    @property
    def bytes_waiting(self) -> int:
        """How many bytes the waiting records have."""
        with self.tree._lock():
            return self.tree._call("wtt_bytes_waiting", self.number) + sum(len(it) for it in self._ahead)

    def fileno(self) -> int:
        """Returns a descriptor for select, selectors and event loops: it is readable while records wait in the queue.

        When the instance or the tree is closed it stays readable, so that a loop wakes up and read() raises EBADF. It
        is only for waiting, and belongs to this object, which closes it when it is deleted.
        """
        with self.tree._lock():
            if self._fd < 0:
                self._fd = self.tree._call("wtt_fd", self.number)
            return self._fd

    def read_bytes(self, size: int = _SIZE, timeout: Optional[float] = 0) -> bytes:
        """Returns what read(2) on an inotify descriptor returns: as many whole records as fit.

        If no record waits, it waits up to `timeout` seconds for one, forever if that is None. Then it raises as a
        socket does: BlockingIOError if the timeout is 0, and TimeoutError otherwise.
        """
        end, size = _waiting.end_of(timeout), unsigned("size", size)
        while True:
            try:
                return self._take(size)
            except BlockingIOError:
                if timeout == 0:
                    raise
            if not _waiting.wait_until(self.fileno(), end):
                raise TimeoutError(errno.ETIMEDOUT, os.strerror(errno.ETIMEDOUT))

    def read(self, size: int = _SIZE, timeout: Optional[float] = 0) -> List[Event]:
        """Returns as many events as fit into `size` bytes.

        If no record waits, it waits up to `timeout` seconds for one, forever if that is None. Then it returns an empty
        list, as select.select() and selectors do.
        """
        try:
            return parse(self.read_bytes(size, timeout))
        except (BlockingIOError, TimeoutError):
            return []

    def __iter__(self) -> Iterator[Event]:
        while True:
            try:
                event = self._next()
                if not event:
                    _waiting.wait_until(self.fileno(), _waiting.end_of(None))
                    continue
            except OSError as fault:
                if fault.errno == errno.EBADF:
                    return
                raise
            yield event

    def __aiter__(self) -> AsyncIterator[Event]:
        return _AsyncEvents(self)

    def _read(self, size: int) -> bytes:
        count = self._count()
        if not count:
            fail(errno.EAGAIN)
        # As much as what waits can need: a larger buffer takes longer than the read.
        size = min(size, count * _LONGEST)
        out = ctypes.create_string_buffer(max(size, 1))
        return ctypes.string_at(out, self.tree._call("wtt_read", self.number, out, size, 0))

    def _take(self, size: int) -> bytes:
        """Takes as many whole records as fit, those of the batch first."""
        with self.tree._lock():
            if not self._ahead:
                return self._read(size)
            self._count()
            taken = b""
            while self._ahead and len(taken) + len(self._ahead[0]) <= size:
                taken += self._ahead.popleft()
            if not taken:
                fail(errno.EINVAL)
            return taken

    def _next(self) -> Optional[Event]:
        """Takes one record, and before that a batch if none is left. None if no record waits."""
        with self.tree._lock():
            try:
                if self._ahead:
                    self._count()
                else:
                    self._ahead.extend(records(self._read(_SIZE)))
            except BlockingIOError:
                return None
            return parse_one(self._ahead.popleft())

    def _count(self) -> int:
        """Returns how many records wait in the queue; EBADF if the instance is closed."""
        return self.tree._call("wtt_waiting", self.number)


class _AsyncEvents:
    """The events of an instance in an event loop."""

    def __init__(self, instance: Instance) -> None:
        self._instance = instance

    def __aiter__(self) -> "_AsyncEvents":
        return self

    async def __anext__(self) -> Event:
        instance = self._instance
        try:
            while True:
                event = instance._next()
                if event:
                    return event
                # A descriptor of its own: an event loop has one reader for each.
                fd = instance.tree._call("wtt_fd", instance.number)
                try:
                    await _waiting.wait_in_loop(fd)
                finally:
                    os.close(fd)
        except OSError as fault:
            if fault.errno == errno.EBADF:
                raise StopAsyncIteration from None
            raise
