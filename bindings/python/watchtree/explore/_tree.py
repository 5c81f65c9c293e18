"""The tree as the consumer has it: each call is a request, and changes happen between them."""

import errno
import functools
import io
import os
from typing import AsyncIterator, Iterator, NoReturn, Optional, Sequence, Union

from .._arguments import AnyPath, PathText, unsigned
from .._errors import fail
from .._events import Event, parse_one, records
from .._instance import _SIZE, Instance
from .._library import QUEUE
from .._tree import Stat, Tree
from ._player import EndOfRun, Player


class ExploredInstance(Instance):
    """An instance whose reads let lines happen while they wait. It has no descriptor, and belongs to one thread."""

    def __init__(self, tree: "ExploredTree", number: int) -> None:
        super().__init__(tree, number)
        self._player = tree._player

    @property
    def waiting(self) -> int:
        return self._player.waiting(self.number) if not self._ahead else len(self._ahead)

    @property
    def bytes_waiting(self) -> int:
        if self._ahead:
            return sum(len(it) for it in self._ahead)
        return self._player.waiting(self.number, "wtt_bytes_waiting")

    def fileno(self) -> NoReturn:
        raise io.UnsupportedOperation("an explored instance has no descriptor: read it with a timeout")

    def read_bytes(self, size: int = _SIZE, timeout: Optional[float] = 0) -> bytes:
        """Like Instance.read_bytes(), but no time passes: docs/EXPLORE-IN-PROCESS.md says when a timeout is over."""
        if self._ahead:
            return self._rest_of_batch(unsigned("size", size))
        data = self._player.read(self.number, unsigned("size", size), timeout)
        if data is not None:
            return data
        if timeout == 0:
            fail(errno.EAGAIN)
        raise TimeoutError(errno.ETIMEDOUT, os.strerror(errno.ETIMEDOUT))

    def _rest_of_batch(self, size: int) -> bytes:
        taken = b""
        while self._ahead and len(taken) + len(self._ahead[0]) <= size:
            taken += self._ahead.popleft()
        if not taken:
            fail(errno.EINVAL)
        return taken

    def __iter__(self) -> Iterator[Event]:
        while True:
            if not self._ahead:
                try:
                    self._ahead.extend(records(self.read_bytes(timeout=None)))
                except OSError as fault:
                    if fault.errno == errno.EBADF:
                        return
                    raise
            yield parse_one(self._ahead.popleft())

    def __aiter__(self) -> AsyncIterator[Event]:
        raise io.UnsupportedOperation("an explored instance has no event loop: use `for event in instance`")


class ExploredTree(Tree):
    """A tree whose calls are requests of the consumer."""

    def __init__(self, tree: Tree, player: Player) -> None:
        # (the tree belongs to the caller: __init__ of Tree would open one)
        self._tree, self._player = tree, player
        self._library, self._process, self._several = tree._library, tree._process, tree._several
        self._batches = tree._batches
        self._is_closed = False

    def close(self) -> None:
        """Closes the tree for the consumer: further calls raise EBADF."""
        self._is_closed = True

    def _call(self, name: str, *words: object, paths: Sequence[PathText] = ()) -> int:
        if self._is_closed:
            fail(errno.EBADF, *paths)
        answer = self._player.answer(name, words, functools.partial(self._tree._call, paths=paths))
        assert isinstance(answer, int)
        return answer

    def _text(self, name: str, *words: object, paths: Sequence[PathText] = ()) -> bytes:
        if self._is_closed:
            fail(errno.EBADF, *paths)
        answer = self._player.answer(name, words, functools.partial(self._player.text, paths=paths))
        assert isinstance(answer, bytes)
        return answer

    def inotify(self, limit: int = QUEUE) -> ExploredInstance:
        """Makes an instance. Its queue has the limit of the schedule if that is smaller."""
        least = min(unsigned("limit", limit), self._player.queue)
        return ExploredInstance(self, self._call("wtt_inotify_init", least))

    def instance(self, number: int) -> ExploredInstance:
        """Returns an open instance by its number. That is not a request."""
        if self._is_closed:
            fail(errno.EBADF)
        return ExploredInstance(self, self._tree.instance(number).number)

    def line(self, line: Union[str, bytes], queue: int = QUEUE) -> NoReturn:
        raise io.UnsupportedOperation("a consumer makes calls: lines belong to the script")

    def fork(self) -> NoReturn:
        raise io.UnsupportedOperation("a consumer has one tree: the check may fork it")

    def _bounds(self) -> NoReturn:
        raise io.UnsupportedOperation("a consumer does not read the journal: the check may")


def paths(tree: Tree, top: AnyPath = "/") -> "set[str]":
    """Returns the path of each file and directory below a directory, without an entry in the journal.

    For checks: what is there.
    """
    found, folders = set(), [os.fsdecode(top)]
    while folders:
        folder = folders.pop()
        for name in tree.peek_listdir(folder):
            path = f"{folder.rstrip('/')}/{name}"
            found.add(path)
            stat: Stat = tree.peek_stat(path)
            if stat.is_directory:
                folders.append(path)
    return found


__all__ = ["EndOfRun", "ExploredInstance", "ExploredTree", "paths"]
