"""An observer for handlers of the watchdog package, over a tree.

A program that uses watchdog changes how it makes its observer, and nothing else:

    from watchtree.watchdog import TreeObserver

    observer = TreeObserver(tree)       # instead of watchdog.observers.Observer()
    observer.schedule(handler, "/d", recursive=True)
    observer.start()

Paths are those of the tree. A handler gets the events that watchdog 2.2 makes of the same records on Linux. Both records
of a rename are in the queue at once, so that there is no delay of half a second for the first of them. When the queue
overflows the events are lost, as with watchdog; here the logger `watchtree` has a warning.
"""

import errno
import functools
import logging
import os
import posixpath
from typing import Any, Dict, Iterator, List, NamedTuple, Optional, Tuple, Type

from watchdog import events
from watchdog.observers.api import DEFAULT_OBSERVER_TIMEOUT, BaseObserver, EventEmitter

from ._events import Event, Mask
from ._instance import Instance
from ._tree import Tree

_LOGGER = logging.getLogger("watchtree")
_WATCHED = (
    Mask.MODIFY | Mask.ATTRIB | Mask.MOVE | Mask.CREATE | Mask.DELETE | Mask.DELETE_SELF | Mask.DONT_FOLLOW
    | Mask.CLOSE_WRITE
)  # fmt: skip
# The class of each kind of event for a file and for a directory.
_CREATED = events.FileCreatedEvent, events.DirCreatedEvent
_DELETED = events.FileDeletedEvent, events.DirDeletedEvent
_MODIFIED = events.FileModifiedEvent, events.DirModifiedEvent
_MOVED = events.FileMovedEvent, events.DirMovedEvent


def walk(tree: Tree, top: str) -> Iterator[Tuple[str, bool]]:
    """Yields each path below a directory, and whether it is a directory, in the order of os.walk().

    What cannot be read is skipped: another thread may have removed it.
    """
    found: List[Tuple[str, bool]] = []
    try:
        for name in tree.listdir(top):
            path = posixpath.join(top, name)
            found.append((path, tree.stat(path).is_directory))
    except (FileNotFoundError, NotADirectoryError):
        return
    found.sort(key=lambda it: not it[1])
    yield from found
    for path, is_directory in found:
        if is_directory:
            yield from walk(tree, path)


class Change(NamedTuple):
    """A record with its path, and the path it came from if both records of a rename were read."""

    mask: int
    path: str
    cookie: int
    source: Optional[str] = None

    @property
    def is_directory(self) -> bool:
        # (the records of the watched directory itself do not say so)
        return bool(self.mask & (Mask.ISDIR | Mask.DELETE_SELF | Mask.MOVE_SELF))


class Watches:
    """The watches of a directory, and of its descendants if that is asked for: each with the path that it has now."""

    def __init__(self, tree: Tree, instance: Instance, root: str, is_recursive: bool) -> None:
        self._tree, self._instance, self._is_recursive = tree, instance, is_recursive
        self._paths: Dict[int, str] = {}
        self._sources: Dict[int, str] = {}
        self._add(root)
        if is_recursive:
            for path, is_directory in walk(tree, root):
                if is_directory:
                    self._add(path)

    def _add(self, path: str) -> None:
        self._paths[self._instance.add_watch(path, _WATCHED)] = path

    def follow(self, event: Event) -> List[Change]:
        """Returns the changes that an event reports, with their paths, and updates the paths of the watches."""
        if event.mask & Mask.Q_OVERFLOW:
            _LOGGER.warning("the queue of instance %d overflowed: events are lost", self._instance.number)
        folder = self._paths.get(event.wd)
        if folder is None:
            return []
        if event.mask & Mask.IGNORED:
            del self._paths[event.wd]
            return []
        path = posixpath.join(folder, event.name) if event.name else folder
        if event.mask & Mask.MOVED_FROM:
            self._sources[event.cookie] = path
        source = self._sources.pop(event.cookie, None) if event.mask & Mask.MOVED_TO else None
        if source is not None:
            self._move(source, path)
        found = [Change(event.mask, path, event.cookie, source)]
        if self._is_recursive and event.mask & Mask.CREATE and event.mask & Mask.ISDIR:
            found += self._discover(path)
        return found

    def _move(self, source: str, path: str) -> None:
        for wd, it in self._paths.items():
            if it == source or it.startswith(f"{source}/"):
                self._paths[wd] = path + it[len(source) :]

    def _discover(self, path: str) -> List[Change]:
        """Watches a new directory. Returns what is in it already."""
        found = []
        try:
            self._add(path)
            for it, is_directory in walk(self._tree, path):
                if is_directory:
                    self._add(it)
                found.append(Change(Mask.CREATE | (Mask.ISDIR if is_directory else 0), it, 0))
        except (FileNotFoundError, NotADirectoryError):
            pass  # (another thread removed it)
        return found


class TreeEmitter(EventEmitter):
    """Puts the events of one path into the queue of an observer."""

    def __init__(self, tree: Tree, *words: Any, **more: Any) -> None:
        super().__init__(*words, **more)
        self._tree = tree
        self._instance: Optional[Instance] = None

    def on_thread_start(self) -> None:
        self._instance = self._tree.inotify()
        root = os.fsdecode(self.watch.path)
        try:
            self._watches = Watches(self._tree, self._instance, root, self.watch.is_recursive)
        except OSError:
            self._instance.close()
            raise
        self._root = root

    def on_thread_stop(self) -> None:
        if self._instance:
            with self._instance:
                pass

    def queue_events(self, timeout: Optional[float]) -> None:
        assert self._instance
        try:
            changes = self._read(self._instance, timeout)
            for change in changes:
                self._queue_change(change)
        except OSError as fault:
            if fault.errno != errno.EBADF:
                raise
            self.stop()  # (the observer, or another thread, closed the instance or the tree)

    def _read(self, instance: Instance, timeout: Optional[float]) -> List[Change]:
        """Returns what happened. A rename is one change, at the position of its first record."""
        records = instance.read(timeout=timeout)
        while records and records[-1].mask & Mask.MOVED_FROM:
            # The other record is in the queue if this instance gets it.
            more = instance.read()
            records += more
            if not more:
                break
        found: List[Change] = []
        for change in (it for record in records for it in self._watches.follow(record)):
            if change.source is None:
                found.append(change)
                continue
            at = next(i for i, it in enumerate(found) if it.cookie == change.cookie and it.mask & Mask.MOVED_FROM)
            found[at] = change
        return found

    def _queue(self, classes: Tuple[Type[Any], Type[Any]], is_directory: bool, *paths: str, guessed: bool = False) -> None:
        if isinstance(self.watch.path, bytes):
            event = classes[is_directory](*(os.fsencode(it) for it in paths))
        else:
            event = classes[is_directory](*paths)
        event.is_synthetic = guessed
        self.queue_event(event)

    def _queue_change(self, change: Change) -> None:
        """Queues the events of a change."""
        path, mask = change.path, change.mask
        if change.source is not None:
            self._queue_move(change, change.source)
        elif mask & (Mask.MOVED_TO | Mask.CREATE):
            self._queue(_CREATED, change.is_directory, path)
            self._queue(_MODIFIED, True, posixpath.dirname(path))
            if mask & Mask.MOVED_TO and change.is_directory and self.watch.is_recursive:
                for it, is_directory in walk(self._tree, path):
                    self._queue(_CREATED, is_directory, it, guessed=True)
        elif mask & (Mask.ATTRIB | Mask.MODIFY):
            self._queue(_MODIFIED, change.is_directory, path)
        elif mask & (Mask.DELETE | Mask.MOVED_FROM):
            self._queue(_DELETED, change.is_directory, path)
            self._queue(_MODIFIED, True, posixpath.dirname(path))
        elif mask & Mask.CLOSE_WRITE:
            self._queue((events.FileClosedEvent, events.FileClosedEvent), False, path)
            self._queue(_MODIFIED, True, posixpath.dirname(path))
        elif mask & Mask.DELETE_SELF and path == self._root:
            self._queue(_DELETED, True, path)
            self.stop()

    def _queue_move(self, change: Change, source: str) -> None:
        self._queue(_MOVED, change.is_directory, source, change.path)
        self._queue(_MODIFIED, True, posixpath.dirname(source))
        self._queue(_MODIFIED, True, posixpath.dirname(change.path))
        if change.is_directory and self.watch.is_recursive:
            for it, is_directory in walk(self._tree, change.path):
                self._queue(_MOVED, is_directory, source + it[len(change.path) :], it, guessed=True)


class TreeObserver(BaseObserver):
    """Like watchdog.observers.Observer, for the files of a tree."""

    def __init__(self, tree: Tree, timeout: float = DEFAULT_OBSERVER_TIMEOUT) -> None:
        super().__init__(functools.partial(TreeEmitter, tree), timeout=timeout)
