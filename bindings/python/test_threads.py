"""Tests of a tree that threads share: calls, reads that wait, iteration, closing, signals and fork."""

import errno
import gc
import os
import selectors
import signal
import subprocess
import sys
import threading
import time
import unittest
from unittest import mock

from watchtree import Event, Instance, Mask, Tree

THREADS = 8
CALLS = 12_500
# Seconds after which a test that hangs fails.
PATIENCE = int(os.environ.get("PATIENCE", 60))


class Thread(threading.Thread):
    """A thread whose result or exception the test gets."""

    def __init__(self, run, *words):
        super().__init__(daemon=True)
        self._run, self._words, self.value, self.fault = run, words, None, None
        self.start()

    def run(self):
        try:
            self.value = self._run(*self._words)
        except BaseException as fault:
            self.fault = fault

    def result(self):
        self.join(PATIENCE)
        assert not self.is_alive(), "the thread does not end"
        if self.fault:
            raise self.fault
        return self.value


def wait_until_it_sleeps(process, thread):
    """Waits until a thread waits for something in the kernel."""
    end = time.monotonic() + PATIENCE
    while time.monotonic() < end:
        with open(f"/proc/{process}/task/{thread}/stat") as stat:
            if stat.read().rpartition(")")[2].split()[0] == "S":
                return
        os.sched_yield()
    raise AssertionError("the thread does not wait")


def wait_in_read(instance, read):
    """Returns a thread that waits in a read of an instance."""
    thread = Thread(read)
    while instance._fd < 0:
        assert thread.is_alive() or thread.result() is None
        os.sched_yield()
    wait_until_it_sleeps(os.getpid(), thread.native_id)
    return thread


class Calls(unittest.TestCase):
    def churn(self, tree, number):
        for at in range(0, CALLS, 5):
            tree.create(f"/{number}/{at}")
            tree.write(f"/{number}/{at}", b"x" * number)
            assert tree.stat(f"/{number}/{at}").size == number
            tree.rename(f"/{number}/{at}", f"/{number}/last")
            assert tree.read(f"/{number}/last", 99) == b"x" * number

    def test_eight_threads(self):
        with Tree() as tree, tree.inotify(65535) as instance:
            for number in range(THREADS):
                tree.mkdir(f"/{number}")
                self.assertEqual(instance.add_watch(f"/{number}", Mask.CREATE), number + 1)
            reader = Thread(lambda: list(instance))
            writers = [Thread(self.churn, tree, number) for number in range(THREADS)]
            for it in writers:
                it.result()
            self.assertEqual(tree.line("stat /7/last").split()[-1], "7")
            while instance.waiting:
                os.sched_yield()
            instance.close()
            names_by_wd = {wd: [] for wd in range(1, THREADS + 1)}
            for event in reader.result():
                names_by_wd[event.wd].append(event.name)
            for names in names_by_wd.values():
                self.assertEqual(names, [str(at) for at in range(0, CALLS, 5)])

    def test_a_thread_gets_the_text_of_its_own_line(self):
        with Tree() as tree:
            for number in range(4):
                tree.mkdir(f"/{number}")
                for at in range(40):
                    tree.create(f"/{number}/{number}{at:03}" + "n" * 200)

            def list_often(number):
                return {tree.line(f"list /{number}") for _ in range(300)}

            threads = [Thread(list_often, number) for number in range(4)]
            for number, thread in enumerate(threads):
                (text,) = thread.result()
                lines = text.splitlines()
                self.assertEqual((lines[0], len(lines), lines[1][2]), ("ok 40", 41, str(number)))

    def test_a_tree_is_closed_during_calls(self):
        for _ in range(30):
            tree = Tree()
            instance = tree.inotify()
            instance.add_watch("/")

            def call_until_closed():
                while True:
                    try:
                        tree.chmod("/", 0o755)
                        instance.read()
                    except OSError as fault:
                        return fault.errno

            threads = [Thread(call_until_closed) for _ in range(4)]
            tree.chmod("/", 0o700)
            tree.close()
            self.assertEqual([it.result() for it in threads], [errno.EBADF] * 4)
            del tree, instance, threads
            gc.collect()

    def test_the_methods_of_what_is_closed(self):
        tree = Tree()
        instance, other = tree.inotify(), tree.inotify()
        instance.close()
        for call in (instance.read, instance.read_bytes, instance.fileno, instance.close, lambda: instance.waiting):
            with self.assertRaises(OSError) as found:
                call()
            self.assertEqual(found.exception.errno, errno.EBADF)
        self.assertEqual(list(instance), [])
        tree.close()
        for call in (tree.listdir, tree.cut, tree.inotify, lambda: tree.line("list /"), lambda: other.read(timeout=9)):
            with self.assertRaises(OSError) as found:
                call()
            self.assertEqual(found.exception.errno, errno.EBADF)
        with instance, tree:
            pass

    def test_a_child_of_fork_has_no_tree(self):
        with Tree() as tree, tree.inotify() as instance:
            instance.add_watch("/")
            holds, may_end = threading.Event(), threading.Event()

            def hold():
                # (as another thread does that is in line() at the time)
                with tree._lock():
                    holds.set()
                    may_end.wait(PATIENCE)

            thread = Thread(hold)
            holds.wait(PATIENCE)
            child = os.fork()
            if not child:
                signal.alarm(PATIENCE)
                found = []
                for call in (tree.listdir, lambda: tree.line("list /"), lambda: instance.read(timeout=None)):
                    try:
                        call()
                    except OSError as fault:
                        found.append(fault.errno)
                tree.close()
                tree.__del__()
                os._exit(found != [errno.EBADF] * 3)
            self.assertEqual(os.waitpid(child, 0)[1], 0)
            may_end.set()
            thread.result()
            tree.create("/f")
            self.assertEqual(instance.read()[0].name, "f")


class Waits(unittest.TestCase):
    def setUp(self):
        self.tree = Tree()
        self.instance = self.tree.inotify()
        self.instance.add_watch("/", Mask.CREATE)

    def test_the_time_of_a_read_is_over(self):
        for timeout in (0.05, 0.0, 0.2):
            begin = time.monotonic()
            self.assertEqual(self.instance.read(timeout=timeout), [])
            passed = time.monotonic() - begin
            self.assertGreaterEqual(passed, timeout)
            self.assertLess(passed, PATIENCE)
        with self.assertRaises(TimeoutError):
            self.instance.read_bytes(timeout=0.01)
        with self.assertRaises(BlockingIOError):
            self.instance.read_bytes()
        for timeout in (-1, float("nan")):
            with self.assertRaises(ValueError):
                self.instance.read(timeout=timeout)

    def test_a_read_waits_for_an_event(self):
        for timeout in (None, PATIENCE, float("inf")):
            thread = wait_in_read(self.instance, lambda: self.instance.read(timeout=timeout))
            self.tree.create(f"/{timeout}")
            self.assertEqual(thread.result(), [Event(1, Mask.CREATE, 0, str(timeout))])

    def test_a_close_wakes_those_who_wait(self):
        def number_of(read):
            try:
                read()
            except OSError as fault:
                return fault.errno

        for closes in ("instance", "tree"):
            instance = self.tree.inotify()
            readers = [wait_in_read(instance, lambda: number_of(lambda: instance.read(timeout=None))) for _ in range(3)]
            loop = wait_in_read(instance, lambda: list(instance))
            (instance if closes == "instance" else self.tree).close()
            self.assertEqual([it.result() for it in readers], [errno.EBADF] * 3)
            self.assertEqual(loop.result(), [])

    def test_a_record_joins_during_a_read(self):
        call, names = self.tree._call, ["a", "b" * 200, "c"]
        joining = iter(names)

        def call_and_create(name, *words):
            number = call(name, *words)
            path = f"/{next(joining, '')}".encode() if name == "wtt_waiting" else b"/"
            if path != b"/":
                call("wtt_create", path, len(path), 0o644)
            return number

        with mock.patch.object(self.tree, "_call", call_and_create):
            found = [[it.name for it in self.instance.read()] for _ in range(4)]
        self.assertEqual(found[0], [])
        self.assertEqual([name for part in found for name in part], names)

    def test_a_loop_gives_each_event(self):
        thread = Thread(lambda: [event.name for event in self.instance])
        names = [f"{number}" for number in range(2000)]
        for name in names:
            self.tree.create(f"/{name}")
        while self.instance.waiting:
            os.sched_yield()
        self.tree.close()
        self.assertEqual(thread.result(), names)

    def test_a_loop_that_is_left_loses_nothing(self):
        for name in "abcde":
            self.tree.create(f"/{name}")
        for event in self.instance:
            self.assertEqual(event.name, "a")
            break
        self.assertEqual(self.instance.waiting, 4)
        with self.assertRaises(OSError) as found:
            self.instance.read_bytes(31)
        self.assertEqual(found.exception.errno, errno.EINVAL)
        self.assertEqual([it.name for it in self.instance.read(95, timeout=None)], ["b", "c"])
        self.assertEqual(next(iter(self.instance)).name, "d")
        self.tree.create("/f")
        self.assertEqual([[it.name for it in self.instance.read()] for _ in range(3)], [["e"], ["f"], []])
        self.tree.create("/g")
        self.tree.create("/h")
        self.assertEqual(next(iter(self.instance)).name, "g")
        Instance(self.tree, self.instance.number).close()
        self.assertEqual(list(self.instance), [])
        with self.assertRaises(OSError):
            self.instance.read()

    def test_each_record_goes_to_one_thread(self):
        def read_until_closed():
            found = []
            while True:
                try:
                    found += [it.name for it in self.instance.read(64, timeout=None)]
                except OSError:
                    return found

        threads = [Thread(read_until_closed) for _ in range(3)]
        threads += [Thread(lambda: [it.name for it in self.instance]) for _ in range(2)]
        names = [f"{number:05}" for number in range(3000)]
        for name in names:
            self.tree.create(f"/{name}")
        while self.instance.waiting:
            os.sched_yield()
        self.instance.close()
        parts = [it.result() for it in threads]
        self.assertEqual(sorted(name for part in parts for name in part), names)
        for part in parts:
            self.assertEqual(part, sorted(part))

    def test_a_descriptor_for_loops(self):
        with selectors.DefaultSelector() as selector:
            fd = selector.register(self.instance, selectors.EVENT_READ).fd
            self.assertEqual(self.instance.fileno(), fd)
            self.assertEqual(selector.select(0), [])
            self.tree.create("/f")
            self.assertEqual(len(selector.select(PATIENCE)), 1)
            self.assertEqual(len(self.instance.read()), 1)
            self.assertEqual(selector.select(0), [])
            thread = Thread(lambda: selector.select(PATIENCE))
            wait_until_it_sleeps(os.getpid(), thread.native_id)
            self.instance.close()
            self.assertEqual(len(thread.result()), 1)
            self.assertEqual(len(selector.select(0)), 1)
            selector.unregister(fd)
        del self.instance, thread
        gc.collect()
        with self.assertRaises(OSError):
            os.fstat(fd)

    def test_a_wait_sleeps(self):
        with mock.patch.object(time, "monotonic", wraps=time.monotonic) as clock:
            self.instance.read(timeout=0.3)
        self.assertLess(clock.call_count, 10)

    def test_ctrl_c_ends_a_wait(self):
        program = "from watchtree import *; t = Tree(); i = t.inotify(); print(1, flush=True); i.read(timeout=None)"
        for lines in (program, program.replace("i.read(timeout=None)", "list(i)")):
            with subprocess.Popen([sys.executable, "-c", lines], stdout=subprocess.PIPE, stderr=subprocess.PIPE) as ran:
                ran.stdout.readline()
                wait_until_it_sleeps(ran.pid, ran.pid)
                ran.send_signal(signal.SIGINT)
                try:
                    said = ran.communicate(timeout=PATIENCE)[1]
                finally:
                    ran.kill()
                self.assertIn(b"KeyboardInterrupt", said)
                self.assertEqual(ran.returncode, -signal.SIGINT)


if __name__ == "__main__":
    unittest.main()
