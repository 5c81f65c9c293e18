"""The observer of a tree beside watchdog's own on a directory: the same changes give a handler the same events.

usage: test_watchdog.py [--any]. With --any it only says, by its status, whether watchdog is installed.
"""

import importlib.util
import itertools
import os
import queue
import sys
import tempfile
import unittest

# Debian's package, also if another python3 comes first.
sys.path.append("/usr/lib/python3/dist-packages")
if not importlib.util.find_spec("watchdog"):
    sys.exit("watchdog is not installed")

from watchdog.events import FileSystemEventHandler  # noqa: E402
from watchdog.observers import Observer  # noqa: E402

from watchtree import Tree  # noqa: E402
from watchtree.watchdog import TreeObserver  # noqa: E402

# Seconds after which a test that hangs fails.
PATIENCE = int(os.environ.get("PATIENCE", 60))
MARK = "mark"


class Disk:
    """The calls of a tree on a directory of the disk."""

    def create(self, path):
        os.close(os.open(path, os.O_CREAT | os.O_EXCL | os.O_WRONLY, 0o644))

    def write(self, path, data):
        file = os.open(path, os.O_WRONLY)
        os.pwrite(file, data, 0)
        os.close(file)

    def rename2(self, old, to, flags):
        assert flags == 2
        import ctypes

        assert ctypes.CDLL(None).renameat2(-100, os.fsencode(old), -100, os.fsencode(to), flags) == 0

    mkdir, rmdir, unlink, rename, link = os.mkdir, os.rmdir, os.unlink, os.rename, os.link
    truncate, chmod = os.truncate, os.chmod

    def __getattribute__(self, name):
        found = getattr(type(self), name)
        return found if name in ("mkdir", "rmdir", "unlink", "rename", "link", "truncate", "chmod") else found.__get__(self)


class Handler(FileSystemEventHandler):
    """Keeps what a user's handler gets."""

    def __init__(self):
        self.events = queue.Queue()

    def on_created(self, event):
        self.keep("created", event)

    def on_deleted(self, event):
        self.keep("deleted", event)

    def on_modified(self, event):
        self.keep("modified", event)

    def on_moved(self, event):
        self.keep("moved", event, event.dest_path)

    def on_closed(self, event):
        self.keep("closed", event)

    def keep(self, kind, event, *more):
        self.events.put((kind, type(event).__name__, event.is_synthetic, event.src_path, *more))


def events_of(files, observer, top, steps, is_recursive, encode=str):
    """Makes changes below a directory, and returns the events of each."""
    handler = Handler()
    mark = f"{top}/d/{MARK}"
    files.create(mark)
    observer.schedule(handler, encode(f"{top}/d"), recursive=is_recursive)
    observer.start()
    found = []
    for step in steps:
        for name, *words in step:
            paths = [f"{top}{it}" if isinstance(it, str) else it for it in words]
            getattr(files, name)(*paths)
        files.chmod(mark, 0o600)
        # (watchdog drops an event that equals the one before it, unless that was taken in between)
        found.append([it for it, _ in itertools.groupby(events_until(handler.events, encode(mark), encode, top))])
    return found


def events_until(events, mark, encode, top):
    """Yields the events until one of the mark, with paths below the top."""
    while True:
        kind, name, is_synthetic, *paths = events.get(timeout=PATIENCE)
        if paths == [mark]:
            return
        yield (kind, name, is_synthetic, *(it.replace(encode(top), encode(""), 1) for it in paths))


STEPS = [
    [("create", "/d/f")],
    [("write", "/d/f", b"hello")],
    [("truncate", "/d/f", 2)],
    [("chmod", "/d/f", 0o600)],
    [("rename", "/d/f", "/d/g")],
    [("create", "/d/h"), ("rename", "/d/h", "/d/g")],
    [("link", "/d/g", "/d/h")],
    [("unlink", "/d/h")],
    [("rename", "/d/g", "/out")],
    [("rename", "/out", "/d/g")],
    [("mkdir", "/d/sub")],
    [("create", "/d/sub/f")],
    [("mkdir", "/d/sub/deep")],
    [("create", "/d/sub/deep/f")],
    [("write", "/d/sub/deep/f", b"x")],
    [("rename", "/d/sub", "/d/moved")],
    [("write", "/d/moved/deep/f", b"y")],
    [("rename", "/d/moved/deep", "/d/deep")],
    [("chmod", "/d/deep/f", 0o600)],
    [("chmod", "/d/deep", 0o700)],
    [("rename2", "/d/deep", "/d/g", 2)],
    [("unlink", "/d/g/f")],
    [("rmdir", "/d/g")],
    [("rename", "/d/moved", "/away")],
    [("create", "/away/g")],
    [("rename", "/away", "/d/back")],
]


class Beside(unittest.TestCase):
    def both(self, is_recursive, encode=str):
        with tempfile.TemporaryDirectory() as top, Tree() as tree:
            os.mkdir(f"{top}/d")
            tree.mkdir("/d")
            observers = Observer(), TreeObserver(tree)
            try:
                wanted = events_of(Disk(), observers[0], top, STEPS, is_recursive, encode)
                found = events_of(tree, observers[1], "", STEPS, is_recursive, encode)
            finally:
                for it in observers:
                    it.stop()
                    it.join(PATIENCE)
            for step, ours, theirs in zip(STEPS, found, wanted):
                self.assertEqual(ours, theirs, step)
            self.assertFalse(any(it.is_alive() for it in observers))
            return sum(len(it) for it in found)

    def test_a_directory_and_its_descendants(self):
        self.assertGreater(self.both(True), 50)

    def test_a_directory(self):
        self.assertGreater(self.both(False), 20)

    def test_paths_of_bytes(self):
        self.assertGreater(self.both(True, os.fsencode), 50)


class Observing(unittest.TestCase):
    def setUp(self):
        self.tree = Tree()
        self.tree.mkdir("/d")
        self.observer, self.handler = TreeObserver(self.tree), Handler()
        self.addCleanup(self.tree.close)

    def test_what_is_in_a_new_directory(self):
        watch = self.observer.schedule(self.handler, "/d", recursive=True)
        (emitter,) = self.observer.emitters
        emitter.on_thread_start()
        # All of it happens before the emitter reads.
        self.tree.mkdir("/d/a")
        self.tree.mkdir("/d/a/b")
        self.tree.create("/d/a/b/f")
        emitter.queue_events(0)
        self.tree.write("/d/a/b/f", b"x")
        emitter.queue_events(0)
        found = []
        while not self.observer.event_queue.empty():
            event, of = self.observer.event_queue.get()
            self.assertEqual(of, watch)
            if type(event).__name__ != "DirModifiedEvent":
                found.append((type(event).__name__, event.src_path))
        made = [("DirCreatedEvent", "/d/a"), ("DirCreatedEvent", "/d/a/b"), ("FileCreatedEvent", "/d/a/b/f")]
        self.assertEqual(found, [*made, ("FileModifiedEvent", "/d/a/b/f"), ("FileClosedEvent", "/d/a/b/f")])

    def test_the_directory_is_removed(self):
        self.observer.schedule(self.handler, "/d")
        self.observer.start()
        (emitter,) = self.observer.emitters
        self.tree.rmdir("/d")
        self.assertEqual(self.handler.events.get(timeout=PATIENCE), ("deleted", "DirDeletedEvent", False, "/d"))
        emitter.join(PATIENCE)
        self.assertFalse(emitter.is_alive())
        self.observer.stop()
        self.observer.join(PATIENCE)

    def test_what_is_not_there_is_refused(self):
        self.observer.start()
        with self.assertRaises(FileNotFoundError):
            self.observer.schedule(self.handler, "/none", recursive=True)
        self.observer.stop()
        self.observer.join(PATIENCE)

    def test_the_tree_is_closed_first(self):
        self.observer.schedule(self.handler, "/d", recursive=True)
        self.observer.start()
        (emitter,) = self.observer.emitters
        self.tree.close()
        emitter.join(PATIENCE)
        self.assertFalse(emitter.is_alive())
        self.observer.stop()
        self.observer.join(PATIENCE)
        self.assertFalse(self.observer.is_alive())

    def test_a_queue_that_overflows_is_logged(self):
        self.tree.inotify = lambda: Tree.inotify(self.tree, 1)
        self.observer.schedule(self.handler, "/d")
        (emitter,) = self.observer.emitters
        emitter.on_thread_start()
        self.tree.create("/d/f")
        with self.assertLogs("watchtree", "WARNING"):
            emitter.queue_events(0)
        emitter.on_thread_stop()


if __name__ == "__main__":
    if sys.argv[1:] == ["--any"]:
        sys.exit(0)
    unittest.main()
