"""Tests of copies, of parameters that are given another type or value, and of the paths that an OSError has."""

import array
import copy
import errno
import functools
import gc
import inspect
import os
import pathlib
import pickle
import unittest

import watchtree
from watchtree import Instance, Mask, Tree, explore

PROTOCOLS = range(pickle.HIGHEST_PROTOCOL + 1)
WAYS = [copy.copy, copy.deepcopy, *(functools.partial(pickle.dumps, protocol=it) for it in PROTOCOLS)]
# A value that each parameter accepts. None is a value only for a timeout.
VALID = {
    "count": 1, "data": b"", "flags": 0, "length": 0, "limit": 1, "line": "stat /", "mask": 1, "mode": 0o755,
    "number": 1, "offset": 0, "old": "/d", "path": "/d", "queue": 1, "size": 64, "timeout": 0, "to": "/e", "wd": 1,
}  # fmt: skip
TEXTS, BYTES = {"old", "path", "to"}, {"data"}
NO_TEXTS, NO_BYTES, NO_NUMBERS = [5, 2.5, None, ["/d"]], [5, "text", None, [1, 2]], ["256", b"1", 256.9, None]


def wrong_values(name):
    """Returns what a parameter may not be given."""
    if name in TEXTS:
        return NO_TEXTS
    if name in BYTES:
        return NO_BYTES
    return {"line": NO_TEXTS, "timeout": ["1", b"1", [1]]}.get(name, NO_NUMBERS)


def methods(one):
    """Returns the public methods of an object with the names of their parameters."""
    names = [it for it in dir(type(one)) if not it.startswith("_") and callable(getattr(type(one), it))]
    return {it: (getattr(one, it), [*inspect.signature(getattr(one, it)).parameters]) for it in names}


class Number:
    """An integer of another type, such as numpy has."""

    def __index__(self):
        return 256


class Copies(unittest.TestCase):
    def refuse(self, one, why):
        for way in WAYS:
            with self.subTest(way=way), self.assertRaisesRegex(TypeError, f"can't be copied or pickled: .*{why}"):
                way(one)
        gc.collect()

    def test_a_tree(self):
        with Tree() as tree:
            self.refuse(tree, r"fork\(\)")
            self.assertEqual(tree.mkdir("/d"), 2)

    def test_an_instance(self):
        with Tree() as tree, tree.inotify() as instance:
            self.refuse(instance, r"it owns a descriptor.*tree\.instance\(number\)")
            fd = instance.fileno()
            self.refuse(instance, "it owns a descriptor")
            self.assertEqual(instance.fileno(), fd)
            os.fstat(fd)

    def test_those_of_a_consumer(self):
        def consumer(tree):
            instance = tree.inotify()
            self.refuse(tree, r"fork\(\)")
            self.refuse(instance, "it owns a descriptor")
            instance.add_watch("/", Mask.CREATE)
            return [event.name for event in instance]

        def check(tree, believed):
            self.assertEqual(believed, ["d"])

        explore.run("--\nmkdir /d 755", consumer, check, moves=0).check()


class Arguments(unittest.TestCase):
    def setUp(self):
        self.tree = Tree()
        self.addCleanup(self.tree.close)

    def test_every_parameter(self):
        instance = self.tree.inotify()
        before = self.tree.script()
        count = 0
        for one in (self.tree, instance):
            for method, (call, names) in methods(one).items():
                for name in names:
                    for wrong in wrong_values(name):
                        words = {**{it: VALID[it] for it in names}, name: wrong}
                        wanted = f"^{name} must be .*, not {type(wrong).__name__}$"
                        with self.subTest(method=method, **words), self.assertRaisesRegex(TypeError, wanted):
                            call(**words)
                        count += 1
        self.assertGreater(count, 100)
        self.assertEqual(self.tree.script(), before)

    def test_what_is_no_method(self):
        for call, name in (
            (lambda: Tree("libwatchtree.so"), "library"),
            (lambda: Instance(self.tree, "1"), "number"),
            (lambda: watchtree.error_text("2"), "number"),
            (lambda: watchtree.load(5), "path"),
            (lambda: watchtree.parse("text"), "data"),
        ):
            with self.subTest(name=name), self.assertRaisesRegex(TypeError, f"^{name} must be .*, not (str|int)$"):
                call()

    def test_data(self):
        self.tree.create("/f")
        with self.assertRaisesRegex(TypeError, "^data must be a bytes-like object, not int$"):
            self.tree.write("/f", 5)
        self.assertEqual(self.tree.stat("/f").size, 0)
        given = [b"ab", bytearray(b"ab"), memoryview(b"ab"), memoryview(b"a-b-")[::2], array.array("B", b"ab")]
        for data in given:
            self.assertEqual((self.tree.write("/f", data), self.tree.read("/f", 9)), (2, b"ab"))
            self.tree.truncate("/f", 0)
        instance = self.tree.inotify()
        instance.add_watch("/", Mask.CREATE)
        self.tree.create("/g")
        records = instance.read_bytes()
        self.assertEqual(watchtree.parse(memoryview(records)), watchtree.parse(records))

    def test_numbers(self):
        instance = self.tree.inotify()
        for wrong in ("256", 256.9):
            with self.assertRaisesRegex(TypeError, f"^mask must be an integer, not {type(wrong).__name__}$"):
                instance.add_watch("/", wrong)
        for mask in (256, Mask.CREATE, Number()):
            self.assertEqual(instance.add_watch("/", mask), 1)
        for call, name in (
            (lambda: instance.add_watch("/", -1), "mask"),
            (lambda: instance.add_watch("/", 2**32), "mask"),
            (lambda: instance.rm_watch(2**31), "wd"),
            (lambda: instance.rm_watch(-(2**31) - 1), "wd"),
            (lambda: self.tree.truncate("/", 2**64), "length"),
            (lambda: Instance(self.tree, 2**32 + 1), "number"),
            (lambda: watchtree.error_text(-(2**64) - 2), "number"),
        ):
            wanted = f"^{name} must be between -?\\d+ and \\d+, not -?\\d+$"
            with self.subTest(name=name), self.assertRaisesRegex(OverflowError, wanted):
                call()

    def test_a_timeout(self):
        instance = self.tree.inotify()
        for timeout in (-1, float("nan")):
            with self.assertRaisesRegex(ValueError, "^timeout must be None or a non-negative number, not"):
                instance.read(timeout=timeout)
        self.assertEqual([instance.read(timeout=it) for it in (0, 0.0, False, 0.001)], [[], [], [], []])


def fault_of(call, *words):
    """Returns all of the OSError that a call raises."""
    try:
        call(*words)
    except OSError as fault:
        return type(fault), fault.args, fault.filename, fault.filename2, str(fault)
    raise AssertionError(f"{call} is not refused")


class Paths(unittest.TestCase):
    NONE = "/there-is-no-such-directory/f"

    def setUp(self):
        self.tree = Tree()
        self.addCleanup(self.tree.close)

    def test_as_the_module_os_has_them(self):
        tree, paths = self.tree, [self.NONE, self.NONE.encode(), pathlib.PurePosixPath(self.NONE)]
        pairs = [
            (tree.mkdir, os.mkdir), (tree.unlink, os.unlink), (tree.rmdir, os.rmdir), (tree.stat, os.stat),
            (tree.peek_stat, os.stat), (tree.listdir, os.listdir), (tree.peek_listdir, os.listdir),
            (lambda it: tree.truncate(it, 1), lambda it: os.truncate(it, 1)),
            (lambda it: tree.chmod(it, 0o600), lambda it: os.chmod(it, 0o600)),
            (lambda it: tree.write(it, b"data"), lambda it: os.open(it, os.O_WRONLY)),
            (lambda it: tree.read(it, 9), lambda it: os.open(it, os.O_RDONLY)),
            (lambda it: tree.peek_read(it, 9), lambda it: os.open(it, os.O_RDONLY)),
            (tree.create, lambda it: os.open(it, os.O_CREAT | os.O_EXCL | os.O_WRONLY)),
        ]  # fmt: skip
        for path in paths:
            for ours, theirs in pairs:
                self.assertEqual(fault_of(ours, path), fault_of(theirs, path))
            for other in (paths[1], "/other"):
                for ours, theirs in ((tree.rename, os.rename), (tree.link, os.link)):
                    self.assertEqual(fault_of(ours, path, other), fault_of(theirs, path, other))
                    self.assertEqual(fault_of(ours, other, path)[2:4], (other, os.fspath(path)))
                self.assertEqual(fault_of(tree.rename2, path, other, 1), fault_of(os.rename, path, other))
        _, args, filename, filename2, text = fault_of(tree.stat, paths[0])
        self.assertEqual((args, filename, filename2), ((errno.ENOENT, os.strerror(errno.ENOENT)), self.NONE, None))
        self.assertTrue(text.endswith(f"No such file or directory: '{self.NONE}'"), text)

    def test_a_watch(self):
        with self.tree.inotify() as instance:
            for path in (self.NONE, self.NONE.encode(), pathlib.PurePosixPath(self.NONE)):
                self.assertEqual(fault_of(instance.add_watch, path), fault_of(os.stat, path))
            self.assertEqual(fault_of(instance.rm_watch, 9)[2:4], (None, None))

    def test_what_is_closed_and_what_has_no_path(self):
        self.assertEqual(fault_of(self.tree.path_of, 99)[2:4], (None, None))
        self.assertEqual(fault_of(self.tree.instance, 9)[2:4], (None, None))
        self.tree.close()
        self.assertEqual(fault_of(self.tree.mkdir, "/d")[1:4], ((errno.EBADF, os.strerror(errno.EBADF)), "/d", None))
        self.assertEqual(fault_of(self.tree.cut)[2:4], (None, None))

    def test_the_paths_are_pickled(self):
        with self.assertRaises(OSError) as found:
            self.tree.rename("/a", b"/b")
        fault = pickle.loads(pickle.dumps(found.exception))
        self.assertEqual((fault.errno, fault.filename, fault.filename2), (errno.ENOENT, "/a", b"/b"))

    def test_those_of_a_consumer(self):
        def consumer(tree):
            instance = tree.inotify()
            instance.add_watch("/", Mask.CREATE)
            calls = [(tree.stat, "/a"), (tree.listdir, "/b"), (instance.add_watch, b"/c"), (tree.rename, "/e", "/f")]
            return [fault_of(*it)[2:4] for it in calls] + [event.name for event in instance]

        def check(tree, believed):
            self.assertEqual(believed, [("/a", None), ("/b", None), (b"/c", None), ("/e", "/f"), "d"])

        explore.run("--\nmkdir /d 755", consumer, check, moves=0).check()


if __name__ == "__main__":
    unittest.main()
