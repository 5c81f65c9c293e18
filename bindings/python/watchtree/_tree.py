"""The tree."""

import ctypes
import errno
import os
import threading
from collections import deque
from typing import TYPE_CHECKING, Deque, Dict, Iterator, List, NamedTuple, NoReturn, Optional, Sequence, Tuple, Union

from ._arguments import AnyPath, PathText, data_bytes, path_text, unsigned, wrong_type
from ._errors import fail
from ._instance import Instance
from ._library import QUEUE, StatBuffer, default_library

if TYPE_CHECKING:
    from _typeshed import ReadableBuffer

RENAME_NOREPLACE, RENAME_EXCHANGE = 1, 2
# How many instances can be open at a time.
INSTANCES = 128


class Stat(NamedTuple):
    """The status of a file or directory, as of stat(2)."""

    number: int
    is_directory: bool
    mode: int
    links: int
    size: int


class Entry(NamedTuple):
    """An entry of a tree's journal: a call and its reply."""

    place: int
    """Its sequence number: the first call of a tree has 1."""
    line: str
    """The line of a script that makes the call, without a newline; a comment if none can, as the mode is too large."""
    reply: str
    """What the line prints, as Tree.line() returns it."""


def entry_of(place: int, text: str) -> Entry:
    """Returns an entry that has a text: a line, and a reply whose lines begin with `# `."""
    line, *reply = text.splitlines()
    return Entry(place, line, "".join(f"{it[2:]}\n" for it in reply))


class Tree:
    """A tree, which has only the root at first. It is closed at the end of a `with`, by close(), or when it is deleted.

    Threads may share it. Each call takes the lock of the tree in the C library, and lets other threads of Python run.
    """

    def __init__(self, library: Optional[ctypes.CDLL] = None) -> None:
        if not isinstance(library, (ctypes.CDLL, type(None))):
            raise wrong_type("library", "None or a ctypes.CDLL", library)
        self._begin(library or default_library())
        number = self._library.wtt_open(ctypes.byref(self._at))
        if number < 0:
            fail(-number)

    def _begin(self, library: ctypes.CDLL) -> None:
        """Sets the attributes of a tree or a fork, before it is opened."""
        self._library = library
        # What takes more than one call, such as line(), has a lock of its own.
        self._several = threading.RLock()
        self._process = os.getpid()
        # The rest of the batch of each instance, by its number.
        self._batches: Dict[int, Deque[bytes]] = {}
        self._at = ctypes.c_void_p()

    def __del__(self) -> None:
        # No thread is in a call now: a method has a reference to its tree.
        if getattr(self, "_at", None):
            self._library.wtt_close(self._at)

    def __reduce__(self) -> NoReturn:
        # A second object with the same handle would free it twice.
        raise TypeError("a tree can't be copied or pickled: fork() returns an independent tree like it")

    def close(self) -> None:
        """Closes the tree and its instances. Calls on them, and those that wait in other threads, raise EBADF."""
        self._library.wtt_shutdown(self._at)

    def __enter__(self) -> "Tree":
        return self

    def __exit__(self, *_: object) -> None:
        self.close()

    def _call(self, name: str, *words: object, paths: Sequence[PathText] = ()) -> int:
        """Makes a call of the library. Its OSError has the paths."""
        number: int = getattr(self._library, name)(self._at, *words)
        if number < 0:
            fail(-number, *paths)
        return number

    def _on_path(self, name: str, path: AnyPath, *words: object) -> int:
        text = path_text("path", path)
        plain = os.fsencode(text)
        return self._call(name, plain, len(plain), *words, paths=(text,))

    def _on_paths(self, name: str, old: AnyPath, to: AnyPath, *words: object) -> int:
        texts = path_text("old", old), path_text("to", to)
        one, other = map(os.fsencode, texts)
        return self._call(name, one, len(one), other, len(other), *words, paths=texts)

    def _lock(self) -> "threading._RLock":
        # In a child of fork(2) a thread that is not there any more may hold it.
        if os.getpid() != self._process:
            fail(errno.EBADF)
        return self._several

    def fork(self) -> "Tree":
        """Returns an independent tree with the same files, instances, watches and waiting records.

        It answers from now on exactly as this one does, with the same numbers and cookies, and neither sees what the
        other does. Its journal is empty, and its sequence numbers continue. `instance()` returns its instances, which
        also have the rest of a batch, and have descriptors of their own.
        """
        fork: Tree = Tree.__new__(Tree)
        fork._begin(self._library)
        # (no thread takes a batch from the queue meanwhile)
        with self._lock():
            self._call("wtt_fork", ctypes.byref(fork._at))
            fork._batches = {number: deque(batch) for number, batch in list(self._batches.items()) if batch}
        return fork

    def instance(self, number: int) -> Instance:
        """Returns the open instance with a number. In a fork it has the same number. EBADF if none is open."""
        self._call("wtt_waiting", unsigned("number", number))
        return Instance(self, number)

    def entries(self) -> Iterator[Entry]:
        """Returns the entries of the journal in order, up to this call.

        The journal begins after the last cut(), or where a fork began. Later calls add none to them, and a cut ends the
        iteration.
        """
        return (entry_of(place, text) for place, text in self._journal(*self._bounds()))

    def script(self) -> str:
        """Returns the journal as a script: each call as its line, and its reply in lines that begin with `# `.

        Run on a new tree it makes the same calls with the same replies. After a cut, and in a fork, the journal begins with
        a later call, and the script with a comment that says so: it is for a tree as this one was then.
        """
        lines: List[str] = []
        for place, text in self._journal(*self._bounds()):
            if place > 1 and not lines:
                lines.append(f"# The journal begins with call {place}: this is no script of an empty tree.\n")
            lines.append(text)
        return "".join(lines)

    def cut(self) -> int:
        """Cuts the journal of calls, and returns the sequence number of the last one."""
        return self._call("wtt_cut")

    def mkdir(self, path: AnyPath, mode: int = 0o755) -> int:
        """Makes a directory, and returns its number."""
        return self._on_path("wtt_mkdir", path, unsigned("mode", mode))

    def create(self, path: AnyPath, mode: int = 0o644) -> int:
        """Makes a regular file, and returns its number."""
        return self._on_path("wtt_create", path, unsigned("mode", mode))

    def write(self, path: AnyPath, data: "ReadableBuffer", offset: int = 0) -> int:
        """Writes bytes at an offset, and returns how many."""
        plain = data_bytes("data", data)
        return self._on_path("wtt_write", path, unsigned("offset", offset, 64), plain, len(plain))

    def read(self, path: AnyPath, count: int, offset: int = 0) -> bytes:
        """Reads at most `count` bytes at an offset."""
        return self._read("wtt_pread", path, count, offset)

    def truncate(self, path: AnyPath, length: int) -> None:
        """Sets the size of a file."""
        self._on_path("wtt_truncate", path, unsigned("length", length, 64))

    def chmod(self, path: AnyPath, mode: int) -> None:
        """Sets the mode of a file or directory."""
        self._on_path("wtt_chmod", path, unsigned("mode", mode))

    def link(self, old: AnyPath, to: AnyPath) -> None:
        """Makes a hard link."""
        self._on_paths("wtt_link", old, to)

    def unlink(self, path: AnyPath) -> None:
        """Removes a path of a file."""
        self._on_path("wtt_unlink", path)

    def rmdir(self, path: AnyPath) -> None:
        """Removes an empty directory."""
        self._on_path("wtt_rmdir", path)

    def rename(self, old: AnyPath, to: AnyPath) -> None:
        """Renames a file or directory."""
        self._on_paths("wtt_rename", old, to)

    def rename2(self, old: AnyPath, to: AnyPath, flags: int) -> None:
        """Renames with the flags of renameat2(2): RENAME_NOREPLACE, RENAME_EXCHANGE, or 0."""
        self._on_paths("wtt_rename2", old, to, unsigned("flags", flags))

    def stat(self, path: AnyPath) -> Stat:
        """Returns the status of the file or directory at a path."""
        return self._stat("wtt_stat", path)

    def listdir(self, path: AnyPath = "/") -> List[str]:
        """Returns the names in a directory in the order of their bytes."""
        return self._list("wtt_list", path)

    def peek_stat(self, path: AnyPath) -> Stat:
        """Like stat(), but without an entry in the journal."""
        return self._stat("wtt_peek_stat", path)

    def peek_listdir(self, path: AnyPath = "/") -> List[str]:
        """Like listdir(), but without an entry in the journal."""
        return self._list("wtt_peek_list", path)

    def peek_read(self, path: AnyPath, count: int, offset: int = 0) -> bytes:
        """Like read(), but without an entry in the journal and without events."""
        return self._read("wtt_peek_pread", path, count, offset)

    def path_of(self, number: int) -> str:
        """Returns a path of the file or directory with a number: the first in the order of names.

        It looks at each path of the tree, and adds no entry to the journal.
        """
        return os.fsdecode(self._text("wtt_path_of", unsigned("number", number, 64)))

    def ready(self) -> List[int]:
        """Returns the numbers of the open instances that have a record waiting in their queue, in ascending order."""
        out = (ctypes.c_uint32 * INSTANCES)()
        count = self._call("wtt_ready", out, len(out))
        return out[:count]

    def _bounds(self) -> Tuple[int, int]:
        """Returns the sequence numbers of the first and the last entry of the journal."""
        # (the last one first: if another thread cuts the journal in between, none is left)
        last = self._call("wtt_last_place")
        return self._call("wtt_first_place"), last

    def _journal(self, first: int, last: int) -> Iterator[Tuple[int, str]]:
        """Yields entries and their texts, as long as they are there."""
        for place in range(first, last + 1):
            try:
                text = self._text("wtt_entry", place)
            except FileNotFoundError:
                return
            yield place, os.fsdecode(text)

    def _read(self, name: str, path: AnyPath, count: int, offset: int) -> bytes:
        size, at = unsigned("count", count), unsigned("offset", offset, 64)
        out = ctypes.create_string_buffer(max(size, 1))
        return ctypes.string_at(out, self._on_path(name, path, at, out, size))

    def _stat(self, name: str, path: AnyPath) -> Stat:
        out = StatBuffer()
        self._on_path(name, path, ctypes.byref(out))
        return Stat(out.number, bool(out.is_directory), out.mode, out.links, out.size)

    def _list(self, name: str, path: AnyPath) -> List[str]:
        text = path_text("path", path)
        plain = os.fsencode(text)
        names = self._text(name, plain, len(plain), paths=(text,))
        return [os.fsdecode(it) for it in names.split(b"\0")[:-1]]

    def _text(self, name: str, *words: object, paths: Sequence[PathText] = ()) -> bytes:
        """Makes a call that returns the length of a text, with a larger buffer until the text fits."""
        size = 4096
        while True:
            out = ctypes.create_string_buffer(size)
            wanted = self._call(name, *words, out, size, paths=paths)
            if wanted <= size:
                return ctypes.string_at(out, wanted)
            size = wanted

    def inotify(self, limit: int = QUEUE) -> Instance:
        """Makes an instance whose queue holds at most `limit` records."""
        return Instance(self, self._call("wtt_inotify_init", unsigned("limit", limit)))

    def line(self, line: Union[str, bytes], queue: int = QUEUE) -> str:
        """Runs a line of a script, such as `mkdir /d 755`, and returns the text that it prints."""
        if not isinstance(line, (str, bytes)):
            raise wrong_type("line", "str or bytes", line)
        plain, limit = os.fsencode(line), unsigned("queue", queue)
        out = ctypes.create_string_buffer(4096)
        with self._lock():
            wanted = self._call("wtt_line", limit, plain, len(plain), out, len(out))
            if wanted > len(out):
                out = ctypes.create_string_buffer(wanted)
                # (a signal handler that runs a line in between changes the text)
                if self._call("wtt_text", out, wanted) != wanted:
                    fail(errno.ESTALE)
        return os.fsdecode(ctypes.string_at(out, wanted))
