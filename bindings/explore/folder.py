"""The folder of a search: a list in it names what the search left, so that the next one removes that and nothing else.

A line of the list is `directory PATH`, or the SHA-256 of a file and its path, each directory before what is in it. In
a path % and two hexadecimal digits stand for a byte.
"""

import errno
import hashlib
import os
import re
import stat
import sys
from contextlib import contextmanager, suppress
from typing import Callable, Dict, Iterator, Optional, TextIO, Tuple
from urllib.parse import quote_from_bytes, unquote_to_bytes

from schedules import Fault

LIST = "explore.files"
HEAD = "# What watchtree explore left here. The next search removes what is still so.\n"
DIRECTORY = "directory"
# No link is followed but one that names the folder itself.
_OPEN_FOLDER = os.O_RDONLY | os.O_DIRECTORY | os.O_CLOEXEC
_OPEN = os.O_RDONLY | os.O_NOFOLLOW | os.O_NONBLOCK | os.O_CLOEXEC
_CREATE = os.O_WRONLY | os.O_CREAT | os.O_EXCL | os.O_NOFOLLOW | os.O_CLOEXEC
_APPEND = os.O_WRONLY | os.O_APPEND | os.O_NOFOLLOW | os.O_CLOEXEC
# Why an entry of the list is not removed: it is gone, or has become something else.
_KEPT = (errno.ENOENT, errno.ENOTDIR, errno.ELOOP, errno.ENOTEMPTY, errno.EEXIST)
_PIECE = 1 << 20


class Folder:
    """A folder in which nothing is replaced. `is_left` decides whether a search may leave an entry of that name.

    What is kept is reported to `file`, standard error unless given.
    """

    def __init__(self, path: str, is_left: Callable[[str], bool], file: Optional[TextIO] = None) -> None:
        self.path, self._is_left, self._file = path, is_left, file or sys.stderr
        self._top = -1
        """Its descriptor, from clear() or go_on() on."""
        self._ours: Dict[str, str] = {}
        """What the search that goes on has left before."""

    def check(self, but: str = "") -> None:
        """A fault if something is in the way of what a search leaves, but for one name. It removes nothing."""
        try:
            top = os.open(self.path, _OPEN_FOLDER)
        except FileNotFoundError:
            return
        taken = [it for it in _strangers(top, self._earlier(top) or {}) if it != but and self._is_left(it.split("/")[0])]
        os.close(top)
        if taken:
            paths = ", ".join(f"{self.path}/{it}" for it in taken)
            raise Fault(f"{paths}: in the way: {LIST} does not list it as it is now: move it, or give another --out")

    def clear(self) -> None:
        """Removes what an earlier search left, and begins a list. Names what somebody changed since."""
        os.makedirs(self.path, exist_ok=True)
        self._top = os.open(self.path, _OPEN_FOLDER)
        earlier = self._earlier(self._top)
        if earlier is not None:
            self._remove_all(earlier)
        self._create(LIST, HEAD.encode())

    def go_on(self) -> None:
        """Goes on with what an earlier part of this search left, and with its list."""
        self._top = os.open(self.path, _OPEN_FOLDER)
        self._ours = self._earlier(self._top) or {}
        if not self._ours:
            self._create(LIST, HEAD.encode())

    def replace(self, name: str, data: bytes) -> None:
        """Writes a file that says by itself whether it is whole. Another one of that name is there until it is."""
        new = f".{name}.{os.getpid()}"
        try:
            self._create(new, data)
            os.rename(new, name, src_dir_fd=self._top, dst_dir_fd=self._top)
        except OSError:
            with suppress(FileNotFoundError):
                os.unlink(new, dir_fd=self._top)
            raise
        self._note(name, hashlib.sha256(data).hexdigest())

    def _remove_all(self, earlier: Dict[str, str]) -> None:
        for path, what in reversed(list(earlier.items())):
            _remove(self._top, path, what)
        for path in _strangers(self._top, earlier):
            if path in earlier:
                why = "which was changed since a search left it"
                print(f"watchtree explore: kept {self.path}/{path}, {why}", file=self._file)
        os.unlink(LIST, dir_fd=self._top)

    def write(self, name: str, data: bytes) -> None:
        """Writes a file. One that this search left before is replaced."""
        if name in self._ours:
            _remove(self._top, name, self._ours[name])
        self._create(name, data)
        self._note(name, hashlib.sha256(data).hexdigest())

    @contextmanager
    def directory(self, name: str) -> Iterator[str]:
        """Makes a directory, and lists what is in it afterwards. Lends its path."""
        try:
            os.mkdir(name, dir_fd=self._top)
        except FileExistsError as fault:
            raise self._is_there(name) from fault
        self._note(name, DIRECTORY)
        try:
            yield f"{os.path.abspath(self.path)}/{name}"
        finally:
            for path, what in _below(self._top, f"{name}/", lambda path: True):
                if what:
                    self._note(path, what)

    def _create(self, name: str, data: bytes) -> None:
        try:
            fd = os.open(name, _CREATE, 0o666, dir_fd=self._top)
        except FileExistsError as fault:
            raise self._is_there(name) from fault
        with os.fdopen(fd, "wb") as file:
            file.write(data)

    def _is_there(self, name: str) -> Fault:
        return Fault(f"{self.path}/{name}: somebody made it during the search, and it is not replaced")

    def _note(self, path: str, what: str) -> None:
        fd = os.open(LIST, _APPEND, dir_fd=self._top)
        with os.fdopen(fd, "w", encoding="ascii") as file:
            file.write(f"{what} {quote_from_bytes(os.fsencode(path))}\n")

    def _earlier(self, top: int) -> Optional[Dict[str, str]]:
        """Returns what the list has: each path, and what it was. None if there is no list."""
        if LIST not in os.listdir(top):
            return None
        if _what(top, LIST) in (None, DIRECTORY):
            raise Fault(f"{self.path}/{LIST}: it is not a readable file: give another --out")
        with os.fdopen(os.open(LIST, _OPEN, dir_fd=top), encoding="ascii", errors="replace") as file:
            lines = file.read().split("\n")
        if lines[0] + "\n" != HEAD or lines[-1]:
            raise Fault(f"{self.path}/{LIST}: it is not a list of what a search left: give another --out")
        return dict(self._entry(number, line) for number, line in enumerate(lines[1:-1], 2))

    def _entry(self, number: int, line: str) -> Tuple[str, str]:
        what, _, word = line.partition(" ")
        path = os.fsdecode(unquote_to_bytes(word))
        is_inside = "\0" not in path and not any(it in ("", ".", "..") for it in path.split("/"))
        if not is_inside or not re.fullmatch(rf"{DIRECTORY}|[0-9a-f]{{64}}", what):
            raise Fault(f"{self.path}/{LIST}: line {number} is not one of a search: give another --out")
        return path, what


@contextmanager
def _above(top: int, path: str) -> Iterator[Tuple[int, str]]:
    """Opens the directory that has an entry. Lends its descriptor, and the name of the entry."""
    *directories, name = path.split("/")
    at = os.dup(top)
    try:
        for it in directories:
            below = os.open(it, _OPEN_FOLDER | os.O_NOFOLLOW, dir_fd=at)
            os.close(at)
            at = below
        yield at, name
    finally:
        os.close(at)


def _what(at: int, name: str) -> Optional[str]:
    """Returns what has a name: DIRECTORY, or the SHA-256 of a file. None if it is another kind, or cannot be read."""
    mode = os.stat(name, dir_fd=at, follow_symlinks=False).st_mode
    if stat.S_ISDIR(mode):
        return DIRECTORY
    if not stat.S_ISREG(mode):
        return None
    digest = hashlib.sha256()
    try:
        fd = os.open(name, _OPEN, dir_fd=at)
    except PermissionError:
        return None
    with os.fdopen(fd, "rb") as file:
        for piece in iter(lambda: file.read(_PIECE), b""):
            digest.update(piece)
    return digest.hexdigest()


def _below(top: int, directory: str, is_known: Callable[[str], bool]) -> Iterator[Tuple[str, Optional[str]]]:
    """Yields each path below a directory, whose own ends with a slash, and what it is: None if it is not known. Known
    directories are entered."""
    waiting = [directory]
    while waiting:
        above = waiting.pop()
        with _above(top, above) as (at, _):
            for name in sorted(os.listdir(at)):
                path = above + name
                what = _what(at, name) if is_known(path) else None
                yield path, what
                if what == DIRECTORY:
                    waiting.append(f"{path}/")


def _strangers(top: int, earlier: Dict[str, str]) -> Iterator[str]:
    """Yields the path of each entry that is not as an earlier search left it."""
    for path, what in _below(top, "", earlier.__contains__):
        if path != LIST and (what is None or what != earlier[path]):
            yield path


def _remove(top: int, path: str, what: str) -> None:
    """Removes a file that is what it was, or a directory that is empty."""
    try:
        with _above(top, path) as (at, name):
            if what == DIRECTORY:
                os.rmdir(name, dir_fd=at)
            elif _what(at, name) == what:
                os.unlink(name, dir_fd=at)
    except OSError as fault:
        if fault.errno not in _KEPT:
            raise
