"""Tests of forks and of journals: a fork answers as a replay of its tree would, and a journal is a script.

usage: test_fork.py [--seed SEED] [NAME..]: the tests to run, all unless named. The random calls are made from the seed,
which is printed; if they fail the command that runs them again is too.
"""

import argparse
import errno
import io
import os
import random
import select
import shlex
import sys
import threading
import unittest

from watchtree import Entry, Event, Mask, Tree, explore

CALLS, JOURNALS = 3_000, 1_000
SEED = 20_240_229
NAMES = ["a", "b", "cc", "d" * 40, "%ff", "e%20f", "%25"]
MASKS = ["0xfff", "0xfff", "0x3c0", "0x80000fff", "0x1000fff", "0x20000002", "0x10000fff", "0x0"]


def random_line(rng):
    """Returns a line of a script, which a tree may refuse."""
    path, to = ("/" + "/".join(rng.choices(NAMES, k=rng.randint(1, 3))) for _ in range(2))
    mode, offset, count = rng.choice(["755", "644", "7777", "0"]), rng.randint(0, 9), rng.randint(0, 9)
    number, size = rng.randint(1, 4), rng.choice([0, 15, 16, 32, 100, 4096])
    lines = {
        f"mkdir {path} {mode}": 8,
        f"create {path} {mode}": 8,
        f"write {path} {offset} {rng.randbytes(rng.randint(0, 6)).hex() or '-'}": 4,
        f"cat {path} {offset} {count}": 2,
        f"truncate {path} {count}": 2,
        f"chmod {path} {mode}": 2,
        f"link {path} {to}": 3,
        f"unlink {path}": 4,
        f"rmdir {path}": 2,
        f"rename {path} {to}": 6,
        f"rename2 {path} {to} {rng.randint(0, 3)}": 4,
        f"stat {path}": 2,
        f"list {path}": 2,
        "init": 0.5,
        f"init {rng.choice([0, 1, 3, 50])}": 1,
        f"watch {number} {path} {rng.choice(MASKS)}": 8,
        f"watch {number} / {rng.choice(MASKS)}": 4,
        f"unwatch {number} {rng.randint(1, 5)}": 1,
        f"read {number} {size}": 4,
        f"hex {number} {size}": 2,
        f"close {number}": 0.1,
    }
    return rng.choices([*lines], [*lines.values()])[0]


class Told:
    """A tree, the lines that it and the trees it is a fork of were given, and their replies."""

    def __init__(self, tree, lines=(), replies=()):
        self.tree, self.lines, self.replies = tree, [*lines], [*replies]

    def fork(self):
        return Told(self.tree.fork(), self.lines, self.replies)

    def give(self, line):
        self.lines.append(line)
        self.replies.append(self.tree.line(line, 9))


def text_of(entries):
    """Returns the script that has the entries of a journal."""
    lines = [line for it in entries for line in (it.line, *(f"# {reply}" for reply in it.reply.splitlines()))]
    return "".join(f"{it}\n" for it in lines)


class Random(unittest.TestCase):
    seed = SEED

    def test_forks_answer_as_replays(self):
        rng, accepted, forks = random.Random(self.seed), 0, 0
        trees = [Told(Tree())]
        for turn in range(CALLS):
            # All trees get the same line, or one of them does.
            line = "cut" if rng.random() < 0.01 else random_line(rng)
            for it in trees if rng.random() < 0.5 else [rng.choice(trees)]:
                it.give(line)
            if turn % 50 == 25:
                forks += 1
                trees.append(rng.choice(trees).fork())
                if len(trees) > 4:
                    trees.pop(rng.randrange(len(trees))).tree.close()
        for it in trees:
            with Tree() as replay:
                for at, line in enumerate(it.lines):
                    self.assertEqual(replay.line(line, 9), it.replies[at], f"line {at}: {line}")
                self.assertEqual(replay.cut(), it.tree.cut())
                self.assertEqual(replay.ready(), it.tree.ready())
                accepted += sum(reply.startswith("ok") for reply in it.replies)
        self.assertGreater(accepted, CALLS / 4)
        print(f"{CALLS} calls and {forks} forks of seed {self.seed}, {accepted} replies accepted in replays")

    def test_journals_are_scripts(self):
        rng, calls = random.Random(self.seed), 0
        for _ in range(JOURNALS):
            with Tree() as tree, Tree() as replay:
                told = Told(tree)
                for _ in range(rng.randint(0, 60)):
                    told.give(random_line(rng))
                entries, text = [*tree.entries()], tree.script()
                self.assertEqual([it.place for it in entries], [*range(1, len(told.lines) + 1)])
                self.assertEqual(text_of(entries), text)
                for line, reply, entry in zip(told.lines, told.replies, entries):
                    self.assertEqual(replay.line(entry.line), entry.reply)
                    if not line.startswith("hex"):
                        self.assertEqual(entry.reply, reply, line)
                self.assertEqual(replay.script(), text)
                with Tree() as again:
                    printed = [again.line(it) for it in text.splitlines()]
                    self.assertEqual(printed.count(""), sum(it.startswith("# ") for it in text.splitlines()))
                    self.assertEqual(again.script(), text)
                calls += len(entries)
        print(f"{JOURNALS} journals of seed {self.seed}, {calls} entries")


def made():
    """Returns a tree with a directory, a file, and an instance that watches the directory."""
    tree = Tree()
    tree.mkdir("/d")
    instance = tree.inotify()
    instance.add_watch("/d", Mask.CREATE | Mask.MOVE)
    tree.create("/d/f")
    return tree, instance


class Forks(unittest.TestCase):
    def assert_closed(self, call, *words):
        with self.assertRaises(OSError) as caught:
            call(*words)
        self.assertEqual(caught.exception.errno, errno.EBADF)

    def test_neither_sees_what_the_other_does(self):
        tree, instance = made()
        fork = tree.fork()
        other = fork.instance(instance.number)
        fork.unlink("/d/f")
        self.assertEqual((tree.listdir("/d"), fork.listdir("/d")), (["f"], []))
        tree.rename("/d/f", "/d/g")
        self.assertEqual(other.read(), [Event(1, Mask.CREATE, 0, "f")])
        self.assertEqual([it.name for it in instance.read()], ["f", "f", "g"])
        self.assertEqual((tree.create("/d/a"), fork.create("/d/a")), (4, 4))
        tree.close()
        self.assertEqual([it.name for it in other.read()], ["a"])
        last = fork.fork()
        fork.close()
        self.assertEqual((last.listdir("/d"), last.instance(1).read()), (["a"], []))
        self.assert_closed(tree.fork)
        self.assert_closed(fork.fork)

    def test_an_instance_is_reached_by_its_number(self):
        tree, instance = made()
        self.assertEqual(tree.line("init"), "ok 2\n")
        self.assertEqual([tree.instance(it).waiting for it in (1, 2)], [1, 0])
        self.assert_closed(tree.instance, 3)
        fork = tree.fork()
        instance.close()
        self.assert_closed(tree.instance, 1)
        self.assertEqual(fork.instance(1).waiting, 1)
        with self.assertRaises(OverflowError):
            tree.instance(-1)

    def test_the_rest_of_a_batch(self):
        tree, instance = made()
        tree.create("/d/g")
        tree.create("/d/h")
        self.assertEqual(next(iter(instance)).name, "f")
        fork = tree.fork()
        other = fork.instance(1)
        self.assertEqual((other.waiting, other.bytes_waiting), (2, 64))
        self.assertEqual([it.name for it in other.read()], ["g", "h"])
        # Objects for one instance share the rest.
        self.assertEqual(next(iter(tree.instance(1))).name, "g")
        self.assertEqual([it.name for it in instance.read()], ["h"])
        self.assertEqual((instance.waiting, other.waiting, tree.fork().instance(1).waiting), (0, 0, 0))
        instance.close()
        self.assertEqual(tree._batches, {})

    def test_a_descriptor_and_a_wait_of_its_own(self):
        tree, instance = made()
        instance.read()
        fd = instance.fileno()
        fork = tree.fork()
        other = fork.instance(1)
        threading.Timer(0.05, fork.create, ("/d/a",)).start()
        self.assertEqual([it.name for it in other.read(timeout=60)], ["a"])
        fork.create("/d/b")
        self.assertNotEqual(other.fileno(), fd)
        self.assertEqual(select.select([fd, other], [], [], 0)[0], [other])
        self.assertEqual(instance.read(), [])

    def test_a_fork_during_calls(self):
        tree = Tree()
        tree.create("/a")
        is_over = threading.Event()

        def move():
            while not is_over.is_set():
                tree.rename("/a", "/b")
                tree.rename("/b", "/a")

        mover = threading.Thread(target=move)
        mover.start()
        found = set()
        try:
            for _ in range(300):
                with tree.fork() as fork:
                    names = fork.listdir()
                    found.add(*names)
                    fork.create("/c")
                if found == {"a", "b"}:
                    break
        finally:
            is_over.set()
            mover.join()
        self.assertEqual(tree.listdir(), ["a"])

    def test_a_child_of_fork_has_no_tree(self):
        tree, _ = made()
        child = os.fork()
        if child == 0:
            try:
                self.assert_closed(tree.fork)
                self.assert_closed(tree.script)
                self.assert_closed(tree.instance, 1)
                os._exit(7)
            finally:
                os._exit(1)
        self.assertEqual(os.waitstatus_to_exitcode(os.waitpid(child, 0)[1]), 7)


class Journals(unittest.TestCase):
    def test_the_entries(self):
        tree, instance = made()
        tree.write("/d/f", b"\x00a")
        with self.assertRaises(FileExistsError):
            tree.mkdir("/d")
        instance.read_bytes(4096)
        tree.peek_listdir("/d")
        entries = [*tree.entries()]
        self.assertEqual(entries[0], Entry(1, "mkdir /d 755", "ok 2\n"))
        self.assertEqual(entries[3:6:2], [Entry(4, "create /d/f 644", "ok 3\n"), Entry(6, "mkdir /d 755", "err EEXIST 17\n")])
        self.assertEqual(len(entries), 7)
        self.assertEqual(entries[6].reply.splitlines()[0], "ok 32")
        self.assertEqual(tree.script(), text_of(entries))

    def test_a_call_that_no_line_makes(self):
        with Tree() as tree, Tree() as replay:
            for mode in (0o1000000, 0o777777):
                with self.assertRaises(OSError):
                    tree.mkdir("/d", mode)
            comment, entry = tree.entries()
            self.assertTrue(comment.line.startswith("# mkdir /d 1000000"), comment)
            self.assertEqual((comment.reply, entry), ("err EINVAL 22\n", Entry(2, "mkdir /d 777777", "err EINVAL 22\n")))
            self.assertEqual([replay.line(it) for it in tree.script().splitlines()], ["", "", entry.reply, ""])

    def test_a_fork_and_a_cut_begin_an_empty_journal(self):
        tree, _ = made()
        fork = tree.fork()
        self.assertEqual((fork.script(), [*fork.entries()]), ("", []))
        fork.chmod("/d", 0o700)
        self.assertEqual([*fork.entries()], [Entry(5, "chmod /d 700", "ok\n")])
        self.assertEqual(tree.cut(), 4)
        self.assertEqual(tree.script(), "")
        tree.chmod("/d", 0o711)
        self.assertEqual([*tree.entries()], [Entry(5, "chmod /d 711", "ok\n")])
        self.assertEqual(tree.line("rmdir /d"), "err ENOTEMPTY 39\n")
        begins = "# The journal begins with call 5: this is no script of an empty tree.\n"
        self.assertEqual(tree.script(), f"{begins}chmod /d 711\n# ok\nrmdir /d\n# err ENOTEMPTY 39\n")
        self.assertEqual(fork.script(), f"{begins}chmod /d 700\n# ok\n")

    def test_a_script_of_a_fork_is_for_a_tree_like_it(self):
        def run(tree, script):
            return [reply for reply in map(tree.line, script.splitlines()) if reply]

        tree, _ = made()
        before, like = tree.script(), tree.fork()
        fork = tree.fork()
        tree.cut()
        for it in (tree, fork):
            it.unlink("/d/f")
            it.mkdir("/e")
            entries, script = [*it.entries()], it.script()
            self.assertEqual(script.partition("\n")[2], "unlink /d/f\n# ok\nmkdir /e 755\n# ok 4\n")
            # On an empty tree it is another run; behind what was cut off, or on a fork of that moment, the same.
            with Tree() as empty, Tree() as whole, like.fork() as again:
                self.assertEqual(run(empty, script), ["err ENOENT 2\n", "ok 2\n"])
                run(whole, before)
                for other in (whole, again):
                    self.assertEqual(run(other, script), [entry.reply for entry in entries])
                    self.assertEqual(other.line("cut"), "ok 6\n")

    def test_a_journal_that_changes_meanwhile(self):
        tree, _ = made()
        before, found = tree.entries(), []
        tree.chmod("/d", 0o700)
        for entry in before:
            found.append(entry.place)
            tree.chmod("/d", 0o755)
        self.assertEqual(found, [1, 2, 3, 4])
        entries = tree.entries()
        self.assertEqual(next(entries).place, 1)
        tree.cut()
        tree.chmod("/d", 0o700)
        self.assertEqual([*entries], [])
        self.assertEqual([it.place for it in tree.entries()], [10])
        tree.close()
        with self.assertRaises(OSError):
            tree.entries()

    def test_a_run_of_threads_is_a_script(self):
        with Tree() as tree, Tree() as replay:
            instance = tree.inotify(20)
            instance.add_watch("/")

            def call(name):
                for _ in range(200):
                    tree.create(f"/{name}")
                    instance.read(64)
                    tree.rename(f"/{name}", f"/{name}{name}")
                    tree.unlink(f"/{name}{name}")

            threads = [threading.Thread(target=call, args=(name,)) for name in "abc"]
            for thread in threads:
                thread.start()
            for thread in threads:
                thread.join()
            entries = [*tree.entries()]
            self.assertEqual([replay.line(it.line) for it in entries], [it.reply for it in entries])
            self.assertEqual(replay.script(), tree.script())
            self.assertGreater(len(entries), 1800)

    def test_a_long_entry(self):
        with Tree() as tree:
            names = [f"{i:03}" + "n" * 200 for i in range(100)]
            for name in names:
                tree.create(f"/{name}")
            tree.listdir()
            tree.write(f"/{names[0]}", b"x" * 9000)
            *_, listed, written = tree.entries()
            self.assertEqual(listed.reply, "ok 100\n" + "".join(f"  {it}\n" for it in names))
            self.assertEqual(written.line, f"write /{names[0]} 0 {'78' * 9000}")


class Explored(unittest.TestCase):
    SCRIPT = "mkdir /d 755\n--\ncreate /d/a 644\ncreate /d/b 644\n"

    @staticmethod
    def consumer(tree):
        instance = tree.inotify()
        instance.add_watch("/d", Mask.CREATE)
        return [event.name for event in tree.instance(instance.number)]

    @staticmethod
    def check(tree, names):
        with tree.fork() as fork:
            fork.create("/d/own")
        assert names == tree.listdir("/d"), f"believes {names}"

    def test_a_failure_has_a_script(self):
        failure = explore.run(self.SCRIPT, self.consumer, self.check).failure
        again = explore.replay(failure.schedule, self.consumer, self.check)
        self.assertEqual(again.script, failure.script)
        lines = [it for it in failure.script.splitlines() if not it.startswith("#")]
        # The script has what the consumer asked and what happened, and no call of the check.
        self.assertEqual(lines[0], "mkdir /d 755")
        self.assertEqual(sum(it.startswith("create") for it in lines), 1)
        self.assertFalse([it for it in lines if it.startswith("list")])
        with Tree() as tree:
            for line in lines:
                tree.line(line)
            self.assertEqual(tree.script(), failure.script)

    def test_what_a_consumer_has_not(self):
        refused = []

        def consumer(tree):
            instance = tree.inotify()
            instance.add_watch("/d", Mask.CREATE)
            for call in (tree.fork, tree.entries, tree.script):
                try:
                    call()
                except io.UnsupportedOperation:
                    refused.append(call.__name__)
            tree.close()
            try:
                tree.instance(instance.number)
            except OSError as fault:
                refused.append(fault.errno)

        self.assertIsNone(explore.replay(self.SCRIPT, consumer, lambda tree, _: None))
        self.assertEqual(refused, ["fork", "entries", "script", errno.EBADF])


def again(seed, names):
    """The command that makes the same random calls again."""
    library = os.environ.get("LIBWATCHTREE")
    words = ["env", f"LIBWATCHTREE={library}"] if library else []
    return shlex.join([*words, "python3", os.path.abspath(__file__), "--seed", str(seed), *names])


def main():
    parser = argparse.ArgumentParser(usage=__doc__, add_help=False, allow_abbrev=False)
    parser.add_argument("--seed", type=int, default=SEED)
    parser.add_argument("names", nargs="*")
    asked = parser.parse_args()
    Random.seed = asked.seed
    ran = unittest.main(argv=[sys.argv[0], *asked.names], exit=False).result
    if not ran.wasSuccessful():
        sys.exit(f"again: {again(asked.seed, asked.names)}")


if __name__ == "__main__":
    main()
