"""Tests of watchtree.explore: scripts in files and recordings, shards, and reports."""

import json
import os
import pathlib
import shutil
import subprocess
import sys
import tempfile
import unittest

from watchtree import Mask, explore
from watchtree._library import QUEUE

HERE = os.path.dirname(os.path.realpath(__file__))
sys.path.insert(0, os.path.join(HERE, "examples"))
import naive_recursive  # noqa: E402

RECORDING = pathlib.Path(HERE) / "save.recording"
SEEDS = range(60)


def names(tree):
    """Believes each name of which it got an event, and loses what was there before its watch."""
    instance = tree.inotify()
    instance.add_watch("/d", Mask.CREATE | Mask.MOVED_TO | Mask.DELETE | Mask.MOVED_FROM)
    known = set()
    for event in instance:
        if event.mask & (Mask.CREATE | Mask.MOVED_TO):
            known.add(event.name)
        else:
            known.discard(event.name)
    return known


def check_names(tree, known):
    there = set(tree.peek_listdir("/d")) if "d" in tree.peek_listdir("/") else set()
    assert known == there, f"missed {sorted(there - known)}"


class Files(unittest.TestCase):
    """The file of a script."""

    def setUp(self):
        folder = tempfile.TemporaryDirectory()
        self.addCleanup(folder.cleanup)
        self.folder = pathlib.Path(folder.name)

    def test_a_file_is_its_text(self):
        path = self.folder / "script"
        path.write_bytes(b"# \xff a comment of any bytes\x0c\n" + naive_recursive.SCRIPT.encode())
        words = naive_recursive.naive, naive_recursive.check
        by_text = explore.run(naive_recursive.SCRIPT, *words, seeds=SEEDS, keep_going=True)
        by_file = explore.run(path, *words, seeds=SEEDS, keep_going=True)
        self.assertEqual([it.schedule for it in by_file.failures], [it.schedule for it in by_text.failures])
        self.assertGreater(len(by_file.failures), 5)
        self.assertEqual((by_text.name, by_file.name), ("script", str(path)))

    def test_what_is_no_script(self):
        with self.assertRaises(FileNotFoundError):
            explore.run(self.folder / "none", names, check_names)
        (self.folder / "script").write_text("mkdir /d 755\n")
        with self.assertRaisesRegex(ValueError, "a line `--`"):
            explore.run(self.folder / "script", names, check_names)

    def test_a_recording(self):
        text = RECORDING.read_text()
        self.assertIn("rename", text)
        for moves in (None, 1):
            result = explore.run(RECORDING, names, check_names, moves=moves)
            self.assertLessEqual(len(result.failure.schedule.changes), 3, str(result))
        self.assertIsNone(explore.replay(text, names, check_names), "at rest nothing is lost")


class Shards(unittest.TestCase):
    """N shards make the runs of one search, each once."""

    def runs(self, **more):
        """Returns the schedules that ran, of a consumer that always fails, and their seeds."""
        result = explore.run(
            naive_recursive.SCRIPT, naive_recursive.naive, lambda tree, it: False, keep_going=True, queues=(QUEUE,), **more
        )
        self.assertEqual(result.runs, len(result.failures))
        return [(it.seed, it.found) for it in result.failures]

    def are_the_whole(self, count, **more):
        parts = [self.runs(shard=f"{number}/{count}", **more) for number in range(1, count + 1)]
        whole = self.runs(**more)
        self.assertEqual(sorted(map(repr, sum(parts, []))), sorted(map(repr, whole)))
        return parts

    def test_seeds(self):
        for count in (1, 3, 4):
            parts = self.are_the_whole(count, seeds=range(5, 21))
            self.assertEqual([it for it, _ in parts[-1]], list(range(5, 21))[count - 1 :: count])
        self.are_the_whole(2, seeds=[9, 4, 7])

    def test_moves(self):
        for count in (1, 2, 5):
            parts = self.are_the_whole(count, moves=1)
            self.assertLessEqual(max(map(len, parts)) - min(map(len, parts)), 2)
        self.assertEqual(sum(not any(change.before for change in it.changes) for _, it in parts[0]), 1)

    def test_two_moves(self):
        script = "mkdir /d 755\n--\ncreate /d/a 644\ncreate /d/b 644\ncreate /d/c 644\n"
        words = names, lambda tree, it: False
        whole = explore.run(script, *words, moves=2, keep_going=True)
        parts = [explore.run(script, *words, moves=2, keep_going=True, shard=explore.Shard(it, 3)) for it in (1, 2, 3)]
        found = [str(it.found) for part in parts for it in part.failures]
        self.assertEqual(sorted(found), sorted(str(it.found) for it in whole.failures))
        self.assertGreater(min(len(it.failures) for it in parts), 1)

    def test_a_shard_of_nothing(self):
        result = explore.run(naive_recursive.SCRIPT, naive_recursive.naive, naive_recursive.check, seeds=range(2), shard="3/3")
        self.assertEqual((result.runs, result.check().failures), (0, []))

    def test_what_is_no_shard(self):
        for wrong in ("0/4", "5/4", "4", "", "a/b", "1/2/3", "-1/2", explore.Shard(0, 1), explore.Shard(3, 2)):
            with self.assertRaisesRegex(ValueError, "a shard is K/N"):
                explore.run(naive_recursive.SCRIPT, naive_recursive.naive, naive_recursive.check, shard=wrong)


class Reports(unittest.TestCase):
    """JUnit's XML and JSON."""

    def setUp(self):
        folder = tempfile.TemporaryDirectory()
        self.addCleanup(folder.cleanup)
        self.folder = pathlib.Path(folder.name)
        self.junit, self.json = self.folder / "it.xml", self.folder / "it.json"

    def result(self, consumer=naive_recursive.naive, check=naive_recursive.check, **more):
        words = naive_recursive.SCRIPT, consumer, check
        result = explore.run(*words, seeds=SEEDS, keep_going=True, queues=(QUEUE,), **more)
        self.assertIs(result.report(junit=self.junit, json=str(self.json)), result)
        return result

    def xpath(self, path):
        """Returns what xmllint finds."""
        if not shutil.which("xmllint"):
            self.skipTest("there is no xmllint (libxml2-utils)")
        words = ["xmllint", "--nonet", "--xpath", path, str(self.junit)]
        return subprocess.run(words, capture_output=True, text=True, check=True).stdout.rstrip("\n")

    def test_json(self):
        result = self.result()
        said = json.loads(self.json.read_bytes())
        self.assertEqual((said["runs"], said["reads"], said["failed"]), (60, result.reads, len(result.failures)))
        self.assertEqual([it["seed"] for it in said["failures"]], [it.seed for it in result.failures])
        first = said["failures"][0]
        self.assertEqual((first["name"], first["where"]), (f"seed {result.failure.seed}", "check"))
        self.assertEqual(explore.parse_schedule(first["schedule"]), result.failure.schedule)
        self.assertEqual(explore.parse_schedule(first["found"]), result.failure.found)

    def test_junit(self):
        result = self.result()
        failed = len(result.failures)
        for path, wanted in (
            ("string(/testsuites/testsuite/@tests)", str(failed + 1)),
            ("string(/testsuites/testsuite/@failures)", str(failed)),
            ("count(//testcase[failure])", str(failed)),
            ("string(//testcase[not(failure)]/@name)", f"{60 - failed} schedules that pass"),
            ("string(//testcase[1]/@name)", f"seed {result.failure.seed}"),
        ):
            self.assertEqual(self.xpath(path), wanted, path)
        self.assertIn(str(result.failure.schedule).rstrip(), self.xpath("string(//failure[1])"))

    def test_texts_that_xml_cannot_have(self):
        def check(tree, known):
            raise ValueError("<&\"]]>\x00\x1b[1m\udcff\ufffe")

        self.result(naive_recursive.corrected, check)
        said = json.loads(self.json.read_bytes())["failures"][0]["message"]
        self.assertEqual(said, "ValueError: <&\"]]>\\x00\\x1b[1m\\xff\\xfffe")
        self.assertEqual(self.xpath("string(//failure[1]/@message)"), f"the check failed: {said}")

    def test_a_search_that_passes(self):
        self.result(naive_recursive.corrected)
        self.assertEqual(json.loads(self.json.read_bytes())["failures"], [])
        self.assertEqual((self.xpath("count(//testcase)"), self.xpath("count(//failure)")), ("1", "0"))

    def test_moves_have_numbers(self):
        result = explore.run(naive_recursive.SCRIPT, naive_recursive.naive, naive_recursive.check, moves=1, keep_going=True)
        result.report(json=self.json)
        said = json.loads(self.json.read_bytes())["failures"]
        self.assertEqual([it["name"] for it in said], [f"failure {number}" for number in range(1, len(said) + 1)])
        self.assertFalse(self.junit.exists())

    def test_a_file_is_replaced_as_a_whole(self):
        result = self.result()
        before = self.json.read_bytes()
        with self.assertRaises(OSError):
            result.report(json=self.folder / "none" / "it.json")
        self.assertEqual(self.json.read_bytes(), before)
        self.assertEqual(sorted(it.name for it in self.folder.iterdir()), ["it.json", "it.xml"])


try:
    import hypothesis
except ImportError:
    hypothesis = None


@unittest.skipIf(hypothesis is None, "Hypothesis is not installed")
class Recorded(unittest.TestCase):
    """State machines that draw from a recording."""

    def machine(self, the_consumer=names, **more):
        from watchtree.explore.hypothesis import RecordedMachine

        class Machine(RecordedMachine):
            recording = more.get("recording", RECORDING)
            consumer = staticmethod(the_consumer)
            check = staticmethod(more.get("check", check_names))

        return Machine

    def run_machine(self, machine, examples):
        from hypothesis import Phase, settings
        from hypothesis.stateful import run_state_machine_as_test

        how = settings(
            max_examples=examples,
            stateful_step_count=10,
            derandomize=True,
            deadline=None,
            database=None,
            phases=(Phase.generate, Phase.shrink),
        )
        run_state_machine_as_test(machine, settings=how)

    def test_a_loss_is_found(self):
        with self.assertRaises(explore.FoundFailure) as caught:
            self.run_machine(self.machine(), 100)
        schedule = explore.parse_schedule(str(caught.exception).split("explore.replay():\n\n")[1])
        self.assertLessEqual(len(schedule.changes), 8)
        self.assertIsNotNone(explore.replay(schedule, names, check_names))

    def test_a_machine_whose_check_passes(self):
        self.run_machine(self.machine(check=lambda tree, known: True), 30)

    def test_the_steps(self):
        calls = [it for it in RECORDING.read_text().split("\n") if it and not it.startswith("#")]
        calls = calls[calls.index("--") + 1 :]
        machine = self.machine(check=lambda tree, known: True)()
        self.assertEqual(machine.calls, calls)
        machine.make_calls(2)
        machine.skip_calls(1)
        machine.make_calls(1)
        self.assertEqual([it.line for it in machine.schedule.changes], [*calls[:2], calls[3]])

        class Drawn:
            def draw(self, strategy):
                return calls[0]

        machine.make_another_call(Drawn())
        self.assertEqual(machine.schedule.changes[-1].line, calls[0])
        machine.make_calls(len(calls))
        self.assertEqual([it.line for it in machine.schedule.changes][4:], calls[4:])
        self.assertFalse(machine._are_left())
        machine.teardown()

    def test_a_recording_without_a_call(self):
        with self.assertRaisesRegex(ValueError, "has no call"):
            self.machine(recording="mkdir /d 755\n--\n")()


if __name__ == "__main__":
    unittest.main()
