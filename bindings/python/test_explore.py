"""Tests of watchtree.explore: the examples are found and shrunk, their corrected twins survive, schedules replay."""

import errno
import importlib
import io
import itertools
import os
import sys
import tempfile
import unittest
from unittest import mock

from watchtree import Mask, Tree, explore
from watchtree._library import QUEUE, default_library
from watchtree.explore._moves import moved
from watchtree.explore._once import Program
from watchtree.explore._plans import Draws, Fixed, Moved, Seeded

sys.path.insert(0, os.path.join(os.path.dirname(os.path.realpath(__file__)), "examples"))

SEEDS, TWIN_SEEDS, REPLAYS, LINES = 200, int(os.environ.get("TWIN_SEEDS", "5000")), 20, 6
NO_OVERFLOW = (QUEUE,)


class Bugs(unittest.TestCase):
    """Each known bug is found, its schedule is short and fails again, and the corrected twin survives."""

    def is_found(self, name):
        module = importlib.import_module(name)
        queues = getattr(module, "QUEUES", explore.QUEUES)
        result = explore.run(module.SCRIPT, module.naive, module.check, seeds=range(SEEDS), queues=queues)
        failure = result.failure
        self.assertIsNotNone(failure, f"{name} is not found by {SEEDS} seeds")
        schedule = failure.schedule
        self.assertLessEqual(len(schedule.setup) + len(schedule.changes), LINES, str(failure))
        for _ in range(REPLAYS):
            again = explore.replay(str(schedule), module.naive, module.check)
            self.assertEqual((again and again.timeline, again and again.schedule), (failure.timeline, schedule))
        self.assertIsNone(explore.replay(schedule, module.corrected, module.check))
        twin = explore.run(module.SCRIPT, module.corrected, module.check, seeds=range(TWIN_SEEDS), queues=queues)
        self.assertEqual((twin.check().runs, twin.failures), (TWIN_SEEDS, []))
        self.assertGreater(twin.reads, TWIN_SEEDS)
        return failure

    def test_a_naive_recursive_watcher(self):
        failure = self.is_found("naive_recursive")
        self.assertEqual(len(failure.schedule.changes), 2)
        self.assertIn("missed ['/d/", failure.timeline)

    def test_the_halves_of_a_rename(self):
        failure = self.is_found("rename_halves")
        self.assertEqual([it[1] for it in failure.schedule.reads], [1])

    def test_no_scan_after_an_overflow(self):
        failure = self.is_found("no_rescan")
        self.assertIn("Q_OVERFLOW", failure.timeline)

    def test_a_scan_while_records_wait_behind_the_mark(self):
        text = "#@ queue 2\nmkdir /d 755\n--\ncreate /d/b 644\n#@ before 4\ncreate /d/c 644\ncreate /d/e 644\n#@ read 4 2\n"
        text += "#@ before 5\ncreate /d/a 644\nunlink /d/a\n#@ read 5 1\n"
        module = importlib.import_module("no_rescan")
        self.assertIsNone(explore.replay(text, module.corrected, module.check))
        with mock.patch.object(module, "drain", lambda instance: None):
            failure = explore.replay(text, module.corrected, module.check)
        self.assertEqual((str(failure.schedule), failure.where), (text, "check"))

    def test_one_event_for_two_changes(self):
        failure = self.is_found("equal_changes")
        self.assertEqual(failure.timeline.count("> write /d/log"), 2)
        self.assertEqual(failure.timeline.count("MODIFY\n"), 1)

    def test_a_dead_descriptor(self):
        failure = self.is_found("dead_descriptor")
        self.assertIn("> rmdir /d/a", failure.timeline)

    def test_all_schedules_with_two_moved_lines(self):
        module = importlib.import_module("naive_recursive")
        for moves, is_found in ((0, False), (1, True), (2, True)):
            result = explore.run(module.SCRIPT, module.naive, module.check, moves=moves)
            self.assertEqual(result.failure is not None, is_found)
            twin = explore.run(module.SCRIPT, module.corrected, module.check, moves=moves)
            self.assertFalse(twin.failures)
        self.assertGreater(twin.runs, 100)


SMALL = "mkdir /d 755\n--\ncreate /d/a 644\ncreate /d/b 644\n"


def small(tree):
    instance = tree.inotify()
    instance.add_watch("/d", Mask.CREATE)
    return [event.name for event in instance]


def fine(tree, believed):
    return True


def program(script=SMALL, consumer=small, check=fine):
    setup, changes = explore._schedule.parse_script(script)
    return Program(setup, changes, consumer, check, 1000)


def scheduled(changes, consumer, reads=(), queue=QUEUE, setup=("mkdir /d 755",)):
    """Runs a consumer under one schedule, and returns what it believes, and the outcome."""
    believed = []
    schedule = explore.Schedule(setup, tuple(explore.Change(*it) for it in changes), reads, queue)
    outcome = Program((), (), consumer, lambda tree, it: believed.append(it), 1000).replay(schedule)
    if outcome.error:
        raise outcome.error
    return believed[0], outcome


class Schedules(unittest.TestCase):
    def test_the_text_of_a_schedule(self):
        text = "#@ queue 8\nmkdir /d 755\n--\n#@ before 3\ncreate /d/a 644\ncreate /d/b 644\n#@ read 4 1\n#@ before 5\n"
        text += "unlink /d/a\n#@ at rest\nunlink /d/b\n#@ read 9 2\n"
        schedule = explore.parse_schedule(text)
        changes = [("create /d/a 644", 3), ("create /d/b 644", 3), ("unlink /d/a", 5), ("unlink /d/b", None)]
        self.assertEqual(schedule.changes, tuple(changes))
        self.assertEqual((schedule.setup, schedule.reads, schedule.queue), (("mkdir /d 755",), ((4, 1), (9, 2)), 8))
        self.assertEqual(str(schedule), text)
        self.assertEqual(explore.parse_schedule("# a comment\n\n" + SMALL).changes[1], ("create /d/b 644", None))
        self.assertEqual(str(explore.parse_schedule(SMALL)), SMALL)

    def test_the_faults_of_a_text(self):
        for wrong in ("#@ queue 0", "#@ queue", "#@ queue x", "#@ before 1", "#@ at rest", "#@ read 1", "#@ later"):
            with self.assertRaisesRegex(ValueError, "^line 2: "):
                explore.parse_schedule(f"#\n{wrong}\nmkdir /d 755\n--\n")
        for wrong in ("#@ before 0", "#@ before", "#@ before -1", "#@ queue 3", "#@ read 1 2 3", "#@ at peace"):
            with self.assertRaisesRegex(ValueError, "^line 3: "):
                explore.parse_schedule(f"mkdir /d 755\n--\n{wrong}\n")

    def test_a_seed_and_its_schedule_make_one_run(self):
        for name in ("rename_halves", "dead_descriptor"):
            module = importlib.import_module(name)
            it = program(module.SCRIPT, module.naive, module.check)
            for seed in range(150):
                found = it.run(Seeded(seed, explore.QUEUES, explore.BATCHES), True)
                again = it.run(Seeded(seed, explore.QUEUES, explore.BATCHES), True)
                self.assertEqual((found.timeline, found.schedule), (again.timeline, again.schedule))
                replayed = it.replay(explore.parse_schedule(str(found.schedule)), True)
                self.assertEqual((replayed.timeline, replayed.schedule), (found.timeline, found.schedule))

    def test_what_seeds_draw(self):
        draws = Draws(1)
        self.assertEqual([draws.below(1000) for _ in range(4)], [465, 519, 590, 235])
        # (the test of the Rust crate compares what its seeds draw with the same file)
        it = program(SMALL + "create /d/c 644\ncreate /d/e 644\n")
        texts = [f"# seed {n}\n{it.run(Seeded(n, explore.QUEUES, explore.BATCHES)).schedule}" for n in range(12)]
        with open(os.path.join(os.path.dirname(os.path.realpath(__file__)), "seeds.expected")) as file:
            self.assertEqual("".join(texts), file.read())
        module = importlib.import_module("no_rescan")
        it = program(module.SCRIPT, module.naive, module.check)
        schedules = [it.run(Seeded(seed, explore.QUEUES, explore.BATCHES)).schedule for seed in range(300)]
        self.assertEqual({it.queue for it in schedules}, set(explore.QUEUES))
        self.assertEqual({n for it in schedules for _, n in it.reads}, {1, 2, 3})
        self.assertGreater(len(set(schedules)), 150)
        moves = [sum(line.before is not None for line in it.changes) for it in schedules]
        self.assertEqual(set(moves), set(range(7)))

    def test_each_schedule_with_few_moves_once(self):
        found = [it.schedule for it in moved(program(), 2, QUEUE)]
        places = [tuple(it.before for it in schedule.changes) for schedule in found]
        # The requests are inotify (1), add_watch (2), and reads, each of which waits until a line has happened at rest.
        wanted = {(None, None), (1, None), (2, None), (None, 3), (1, 1), (1, 2), (2, 2)}
        self.assertEqual(set(places), wanted)
        self.assertEqual(len(places), len(set(places)))
        self.assertEqual([len(list(moved(program(), moves, QUEUE))) for moves in (0, 1)], [1, 4])
        self.assertEqual(places[0], (None, None))

    def test_moves_agree_with_brute_force(self):
        module = importlib.import_module("equal_changes")
        it = program(module.SCRIPT, module.naive, module.check)
        found = {outcome.schedule for outcome in moved(it, 2, QUEUE)}
        wanted = set()
        for one, two in itertools.product(range(40), repeat=2):
            for counts in ({}, {one: 1}, {one: 1, two: 1}, {one: 2}):
                wanted.add(it.run(Moved(counts, QUEUE)).schedule)
        self.assertEqual(found, wanted)

    def test_a_schedule_is_kept_in_a_file(self):
        module = importlib.import_module("no_rescan")
        failure = explore.run(module.SCRIPT, module.naive, module.check).failure
        with tempfile.TemporaryDirectory() as folder:
            path = os.path.join(folder, "schedule")
            failure.save(path)
            with open(path) as file:
                text = file.read()
        again = explore.replay(text, module.naive, module.check)
        self.assertEqual((again.schedule, again.timeline), (failure.schedule, failure.timeline))


class Runs(unittest.TestCase):
    """What the consumer reads, request by request."""

    def test_lines_happen_before_a_request_and_at_rest(self):
        def consumer(tree):
            seen = [tree.listdir("/d")]
            instance = tree.inotify()
            instance.add_watch("/d", Mask.CREATE)
            seen.append(tree.listdir("/d"))
            return seen + [event.name for event in instance]

        lines = [("create /d/a 644", 2), ("create /d/b 644", 4), ("create /d/c 644", None), ("create /d/e 644", 6)]
        believed, outcome = scheduled(lines, consumer)
        self.assertEqual(believed, [[], ["a", "b"], "b", "c", "e"])
        self.assertEqual((outcome.requests, outcome.reads), (6, 2))

    def test_a_change_whose_request_has_passed_or_does_not_come(self):
        lines = [("create /d/a 644", None), ("create /d/b 644", 1), ("create /d/c 644", 900)]
        believed, outcome = scheduled(lines, small)
        self.assertEqual(believed, ["a", "b", "c"])
        self.assertEqual([it.before for it in outcome.schedule.changes], [None, 3, None])

    def test_a_read_returns_so_many_records(self):
        def consumer(tree):
            instance = tree.inotify()
            instance.add_watch("/d", Mask.CREATE)
            reads = []
            while True:
                yield reads
                reads.append([len(event.name) for event in instance.read(timeout=None)])

        names = ["a", "b" * 15, "c" * 16, "d" * 255, "e"]
        lines = [(f"create /d/{name} 644", 3) for name in names]
        self.assertEqual(scheduled(lines, consumer)[0], [[1, 15, 16, 255, 1]])
        self.assertEqual(scheduled(lines, consumer, ((3, 3),))[0], [[1, 15, 16], [255, 1]])
        self.assertEqual(scheduled(lines, consumer, ((3, 1), (4, 2), (5, 9)))[0], [[1], [15, 16], [255, 1]])

    def test_what_a_short_read_leaves_is_in_the_queue(self):
        def consumer(tree):
            instance = tree.inotify()
            instance.add_watch("/d", Mask.ATTRIB)
            return [len(instance.read(timeout=None)), instance.waiting, len(instance.read(timeout=None))]

        lines = [("chmod /d 700", 3), ("create /d/f 644", 3), ("chmod /d/f 600", 3), ("chmod /d 755", 3), ("chmod /d 711", 4)]
        self.assertEqual(scheduled(lines, consumer, ((3, 1),))[0], [1, 2, 2])

    def test_a_buffer_that_is_too_short(self):
        def consumer(tree):
            instance = tree.inotify()
            instance.add_watch("/d", Mask.CREATE)
            answers = []
            for size in (31, 32, 64):
                try:
                    answers.append(len(instance.read_bytes(size, timeout=None)))
                except OSError as fault:
                    answers.append(fault.errno)
            return answers

        lines = [(f"create /d/{name} 644", 3) for name in "abc"]
        for reads in ((), ((3, 2), (4, 2), (5, 2))):
            self.assertEqual(scheduled(lines, consumer, reads)[0], [errno.EINVAL, 32, 64])

    def test_queues_are_short(self):
        def consumer(tree):
            instances = [tree.inotify(), tree.inotify(1), tree.inotify(9)]
            for instance in instances:
                instance.add_watch("/d", Mask.CREATE)
            return [len(instance.read(timeout=None)) for instance in instances]

        lines = [(f"create /d/{name} 644", 7) for name in "abcdef"]
        self.assertEqual(scheduled(lines, consumer, queue=3)[0], [4, 2, 4])
        self.assertEqual(scheduled(lines, consumer)[0], [6, 2, 6])

    def test_a_read_that_does_not_wait(self):
        def consumer(tree):
            instance = tree.inotify()
            instance.add_watch("/d", Mask.CREATE)
            found = []
            while True:
                yield found
                batch = instance.read(timeout=None)
                while True:
                    more = instance.read()
                    batch += more
                    if not more:
                        break
                found.append([it.name for it in batch])

        lines = [("create /d/a 644", None), ("create /d/b 644", 3), ("create /d/c 644", None)]
        self.assertEqual(scheduled(lines, consumer, ((3, 1),))[0], [["a", "b"], ["c"]])

    def test_a_consumer_that_polls(self):
        def consumer(tree):
            instances = [tree.inotify(), tree.inotify()]
            for instance, path in zip(instances, ("/d", "/e")):
                instance.add_watch(path, Mask.CREATE)
            found = []
            while True:
                yield found
                for instance in instances:
                    if instance.waiting:
                        found += [it.name for it in instance.read()]

        lines = [("create /d/a 644",), ("create /e/b 644",), ("create /d/c 644",), ("create /e/f 644",)]
        believed, outcome = scheduled(lines, consumer, setup=("mkdir /d 755", "mkdir /e 755"))
        self.assertEqual((believed, outcome.reads), (["a", "b", "c", "f"], 4))

    def test_a_timeout_is_over_at_a_pause_and_at_the_end(self):
        def consumer(tree):
            instance = tree.inotify()
            instance.add_watch("/d", Mask.CREATE)
            found = []
            while True:
                yield found
                found.append([it.name for it in instance.read(timeout=0.5)])

        lines = [("create /d/a 644",), ("create /d/b 644",), ("--",), ("create /d/c 644",)]
        self.assertEqual(scheduled(lines, consumer)[0], [["a"], ["b"], [], ["c"], []])
        believed, _ = scheduled([("create /d/a 644",), ("--",), ("create /d/c 644",)], small)
        self.assertEqual(believed, ["a", "c"])

    def test_the_bytes_that_wait_and_a_loop_that_is_left(self):
        def consumer(tree):
            instance = tree.inotify()
            instance.add_watch("/d", Mask.CREATE)
            sizes = [instance.waiting, instance.bytes_waiting, len(instance.read_bytes(32))]
            for event in instance:
                break
            return [*sizes, instance.waiting, instance.bytes_waiting, [it.name for it in instance.read()], event.name]

        lines = [(f"create /d/{name} 644", 3) for name in "abcd"]
        self.assertEqual(scheduled(lines, consumer)[0], [0, 128, 32, 2, 64, ["c", "d"], "b"])

    def test_what_is_not_there(self):
        def consumer(tree):
            instance = tree.inotify()
            for call in (instance.fileno, instance.__aiter__, lambda: tree.line("mkdir /e 755")):
                with self.assertRaises(io.UnsupportedOperation):
                    call()
            with self.assertRaises(ValueError):
                instance.read(timeout=-1)
            with tree, instance:
                tree.create("/d/own")
            for call in (instance.close, lambda: tree.stat("/d"), lambda: tree.listdir("/d")):
                with self.assertRaises(OSError) as caught:
                    call()
                self.assertEqual(caught.exception.errno, errno.EBADF)
            return True

        self.assertTrue(scheduled([], consumer)[0])

    def test_every_call_is_a_request(self):
        def consumer(tree):
            tree.mkdir("/e")
            tree.create("/e/f")
            tree.write("/e/f", b"hello")
            believed = [tree.read("/e/f", 9), tree.stat("/e/f").size, tree.listdir("/e"), tree.peek_listdir("/e")]
            tree.truncate("/e/f", 1)
            tree.chmod("/e/f", 0o600)
            tree.link("/e/f", "/e/g")
            tree.unlink("/e/g")
            tree.rename("/e/f", "/e/h")
            tree.rename2("/e/h", "/e/f", 0)
            tree.unlink("/e/f")
            tree.rmdir("/e")
            instance = tree.inotify()
            instance.rm_watch(instance.add_watch("/d"))
            instance.close()
            return believed + ["x" in tree.listdir("/d")]

        # Before the last of the requests.
        believed, outcome = scheduled([("create /d/x 644", 20)], consumer)
        self.assertEqual(believed, [b"hello", 5, ["f"], ["f"], True])
        self.assertEqual((outcome.requests, outcome.schedule.changes[0].before), (20, 20))


class Results(unittest.TestCase):
    """What run() returns and raises."""

    def test_a_result(self):
        module = importlib.import_module("naive_recursive")
        words = module.SCRIPT, module.naive, module.check
        one = explore.run(*words)
        self.assertEqual((len(one.failures), one.runs), (1, one.failure.seed + 1))
        some = explore.run(*words, seeds=range(30), keep_going=True)
        self.assertEqual((some.runs, some.failure), (30, one.failure._replace(error=some.failure.error)))
        self.assertGreater(len(some.failures), 5)
        with self.assertRaises(explore.FoundFailure) as caught:
            one.check()
        self.assertIs(caught.exception.__cause__, one.failure.error)
        for part in ("under a schedule of 3 lines (seed", "> mkdir /d/", "check failed: AssertionError: missed", "#@ before "):
            self.assertIn(part, str(caught.exception))

    def test_a_check_that_returns_false(self):
        failure = explore.run(SMALL, small, lambda tree, believed: len(believed) != 2).failure
        self.assertEqual((failure.where, str(failure.error)), ("check", "the check returned False"))

    def test_a_shrunk_failure_is_of_the_same_kind(self):
        def consumer(tree):
            instance = tree.inotify()
            instance.add_watch("/d", Mask.CREATE)
            for event in instance:
                if event.name == "b":
                    tree.stat(f"/d/{event.name}")

        script = "mkdir /d 755\nmkdir /e 755\n--\ncreate /d/a 644\ncreate /d/b 644\ncreate /d/c 644\nunlink /d/b\n"
        failure = explore.run(script, consumer, fine, queues=NO_OVERFLOW).failure
        self.assertEqual((failure.where, type(failure.error)), ("consumer", FileNotFoundError))
        lines = [it.line for it in failure.schedule.changes]
        self.assertEqual((failure.schedule.setup, lines), (("mkdir /d 755",), ["create /d/b 644", "unlink /d/b"]))
        self.assertEqual((failure.schedule.reads, failure.schedule.queue), ((), QUEUE))
        self.assertGreater(len(failure.found.changes), 2)

    def test_a_consumer_that_does_not_end(self):
        def consumer(tree):
            while True:
                try:
                    tree.stat("/d")
                except Exception:
                    pass

        def polls(tree):
            instance = tree.inotify()
            while True:
                try:
                    instance.read()
                except OSError:
                    pass

        for endless in (consumer, polls):
            failure = explore.run(SMALL, endless, fine, max_requests=50).failure
            self.assertEqual((failure.where, type(failure.error)), ("consumer", explore.TooManyRequests))

    def test_a_consumer_that_is_not_deterministic(self):
        calls = itertools.count()

        def consumer(tree):
            if next(calls) == 3:
                raise RuntimeError("once")
            return small(tree)

        with self.assertRaises(explore.NotDeterministic):
            explore.run(SMALL, consumer, fine)

    def test_a_coroutine(self):
        async def consumer(tree):
            return None

        self.assertIsInstance(explore.run(SMALL, consumer, fine).failure.error, TypeError)

    def test_what_a_generator_believes(self):
        def consumer(tree):
            instance = tree.inotify()
            yield "first"
            instance.read(timeout=None)
            yield "second"

        self.assertEqual(scheduled([], consumer)[0], "first")

    def test_what_is_refused(self):
        for script, text in (
            ("mkdir /d 755\n", "a line `--`"),
            ("mkdir /d/e 755\n--\n", "is refused: err ENOENT"),
            ("--\nnothing\n", "'nothing' is not a line"),
            ("nothing\n--\n", "'nothing' is not a line"),
        ):
            with self.assertRaisesRegex(ValueError, text):
                explore.run(script, small, fine)
        # (a change may be refused)
        self.assertGreater(explore.run(f"{SMALL}mkdir /d 755\n", small, fine).reads, 0)
        with self.assertRaisesRegex(RuntimeError, "no read returned a record"):
            explore.run(SMALL, lambda tree: None, fine)

    def test_what_is_there(self):
        with Tree() as tree:
            for path in ("/d", "/d/e", "/d/e/f"):
                tree.mkdir(path)
            tree.create("/d/g")
            before = tree.cut()
            self.assertEqual(explore.paths(tree), {"/d", "/d/e", "/d/e/f", "/d/g"})
            self.assertEqual(explore.paths(tree, "/d/e"), {"/d/e/f"})
            self.assertEqual(tree.cut(), before)


try:
    import hypothesis
except ImportError:
    hypothesis = None


@unittest.skipIf(hypothesis is None, "Hypothesis is not installed")
class Machines(unittest.TestCase):
    def machine(self, name, base_script="mkdir /d 755"):
        from hypothesis import strategies as st
        from hypothesis.stateful import rule
        from watchtree.explore.hypothesis import ExploreMachine

        module = importlib.import_module("naive_recursive")

        class Machine(ExploreMachine):
            script = base_script
            consumer = staticmethod(getattr(module, name))
            check = staticmethod(module.check)

            @rule(name=st.sampled_from("ab"))
            def make(self, name):
                self.change(f"mkdir /d/{name} 755")

            @rule(folder=st.sampled_from("ab"), name=st.sampled_from("fg"))
            def create(self, folder, name):
                self.change(f"create /d/{folder}/{name} 644")

        return Machine

    def run_machine(self, machine, examples):
        from hypothesis import Phase, settings
        from hypothesis.stateful import run_state_machine_as_test

        phases = (Phase.generate, Phase.shrink)
        run_state_machine_as_test(
            machine,
            settings=settings(
                max_examples=examples, stateful_step_count=12, derandomize=True, deadline=None, database=None, phases=phases
            ),
        )

    def test_a_bug_is_found(self):
        with self.assertRaises(explore.FoundFailure) as caught:
            self.run_machine(self.machine("naive"), 200)
        text = str(caught.exception)
        self.assertIn("check failed: AssertionError: missed", text)
        module = importlib.import_module("naive_recursive")
        schedule = explore.parse_schedule(text.split("explore.replay():\n\n")[1])
        self.assertLessEqual(len(schedule.changes), 4)
        self.assertIsNotNone(explore.replay(schedule, module.naive, module.check))

    def test_the_twin_survives(self):
        self.run_machine(self.machine("corrected"), 40)

    def test_a_machine_that_fails(self):
        machine = self.machine("naive")()
        machine.come_to_rest()
        machine.change("mkdir /d/a 755")
        machine.go_on(1)
        machine.change("create /d/a/f 644")
        self.assertEqual([it.before for it in machine.schedule.changes], [None, 5])
        with self.assertRaises(explore.FoundFailure):
            machine.teardown()

    def test_the_steps_of_a_machine(self):
        machine = self.machine("naive")()
        machine.change("mkdir /d/x 755")
        machine.go_on(2)
        machine.change("mkdir /d/y 755")
        machine.come_to_rest()
        machine.read_at_most(1)
        machine.change("mkdir /d/a 755")
        machine.change("create /d/z 644")
        machine.come_to_rest()
        before = [it.before for it in machine.schedule.changes]
        self.assertEqual(before[:2], [1, 3])
        self.assertIsNone(before[2])
        self.assertEqual([it[1] for it in machine.schedule.reads], [1])
        machine.teardown()


if __name__ == "__main__":
    unittest.main()
