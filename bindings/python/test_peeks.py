"""Tests of what looks at a tree without an entry in its journal, and of the library's texts."""

import errno
import re
import unittest

import watchtree
from watchtree import Mask, Stat, Tree


class Peeks(unittest.TestCase):
    def test_the_journal_has_no_entry(self):
        with Tree() as tree, tree.inotify() as instance:
            tree.mkdir("/d")
            tree.create("/d/f")
            tree.write("/d/f", b"hello")
            instance.add_watch("/d")
            before = tree.cut()
            self.assertEqual(tree.peek_stat("/d/f"), Stat(3, False, 0o644, 1, 5))
            self.assertEqual(tree.peek_read("/d/f", 9, 1), b"ello")
            self.assertEqual(tree.peek_listdir("/d"), ["f"])
            with self.assertRaises(FileNotFoundError):
                tree.peek_stat("/none")
            self.assertEqual((tree.cut(), instance.waiting), (before, 0))
            self.assertEqual(tree.stat("/d/f"), tree.peek_stat("/d/f"))
            self.assertEqual(tree.cut(), before + 1)

    def test_the_path_of_a_number(self):
        with Tree() as tree:
            number = tree.mkdir("/d"), tree.create("/d/f")
            before = tree.cut()
            self.assertEqual([tree.path_of(it) for it in (1, *number)], ["/", "/d", "/d/f"])
            for missing in (0, 99, 2**32 + 1, 2**64 - 1):
                with self.assertRaises(FileNotFoundError):
                    tree.path_of(missing)
            self.assertEqual(tree.cut(), before)

    def test_the_instances_that_are_ready(self):
        with Tree() as tree:
            instances = [tree.inotify() for _ in range(128)]
            for instance in instances[1:]:
                instance.add_watch("/", Mask.CREATE)
            before = tree.cut()
            self.assertEqual(tree.ready(), [])
            tree.create("/f")
            self.assertEqual(tree.ready(), list(range(2, 129)))
            instances[3].read()
            instances[9].close()
            self.assertEqual(tree.ready(), [it for it in range(2, 129) if it not in (4, 10)])
            self.assertGreater(tree.cut(), before)
            before = tree.cut()
            tree.ready()
            self.assertEqual(tree.cut(), before)
        with self.assertRaises(OSError) as caught:
            tree.ready()
        self.assertEqual(caught.exception.errno, errno.EBADF)

    def test_the_bytes_that_wait(self):
        with Tree() as tree, tree.inotify() as instance:
            instance.add_watch("/", Mask.CREATE)
            for name in ("a", "b" * 20, "c"):
                tree.create(f"/{name}")
            sizes = [32, 48, 32]
            self.assertEqual(instance.bytes_waiting, sum(sizes))
            self.assertEqual(next(iter(instance)).name, "a")
            self.assertEqual(instance.bytes_waiting, sum(sizes[1:]))
            self.assertEqual(len(instance.read_bytes()), sum(sizes[1:]))
            self.assertEqual(instance.bytes_waiting, 0)

    def test_the_texts(self):
        self.assertTrue(re.fullmatch(r"\d+\.\d+\.\d+", watchtree.__version__))
        self.assertEqual(watchtree.error_text(-errno.EEXIST), "EEXIST: File exists")
        self.assertTrue(watchtree.error_text(-watchtree.JOURNAL_FULL).startswith("JournalFull"))
        with self.assertRaises(ValueError):
            watchtree.error_text(-99999)


if __name__ == "__main__":
    unittest.main()
