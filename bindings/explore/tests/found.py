"""Each known bug is found, shrunk and replayed, and its corrected twin passes."""

import os
import re
from typing import List

from runs import NOTHING_DELIVERED
from tool import EXAMPLES, ToolTest

# The least that has to hold of a known bug.
SEEDS, LINES, REPLAYS = "1..200", 6, 20
# How many seeds a corrected twin passes here.
TWIN_SEEDS = "1..60"


class Found(ToolTest):
    """By seeds."""

    def example(self, name: str, check: str, words: List[str], *options: str) -> None:
        script, program = f"{EXAMPLES}/{name}.script", [self.built(name), *words]
        said = self.explore(script, f"sh {EXAMPLES}/{check}", program, "--seeds", SEEDS, "--first", "--out", "wrong", *options)
        self.assertEqual(said.returncode, 1, said.stdout + said.stderr)
        self.assertIn("the check passes", said.stdout)
        self.assertIn(f"replayed {REPLAYS} times, failed {REPLAYS} times", said.stdout)
        lines = re.search(r"^shrunk by \d+ runs?: (\d+) lines?, (\d+) moves?$", said.stdout, re.M)
        self.assertTrue(lines, said.stdout)
        self.assertLessEqual(int(lines[1]), LINES, said.stdout)
        self.assertGreaterEqual(int(lines[2]), 1, said.stdout)
        self.replays_by_hand(program, check)
        twin = self.explore(script, f"sh {EXAMPLES}/{check}", [*program, "correct"], "--seeds", TWIN_SEEDS, *options)
        self.assertEqual(twin.returncode, 0, twin.stdout + twin.stderr)
        self.assertIn("60 runs, 0 failed", twin.stdout)

    def replays_by_hand(self, program: List[str], check: str) -> None:
        """The schedule that the search wrote fails under the runner alone."""
        said = self.under("again", ["--schedule", f"{self.room}/wrong/shrunk.schedule"], program)
        self.assertIn(said.returncode, (0, NOTHING_DELIVERED), said.stderr)
        checked = self.run_tool(["env", f"WT_OUT={self.room}/again", "sh", f"{EXAMPLES}/{check}"])
        self.assertEqual(checked.returncode, 1, checked.stderr)
        with open(f"{self.room}/wrong/shrunk.schedule", encoding="utf-8") as file:
            self.assertEqual(self.read("again/schedule"), file.read())

    def test_a_recursive_watcher_that_does_not_look_into_new_directories(self) -> None:
        self.example("recursive", "check-names", ["/wt/d"])

    def test_the_records_of_a_rename_taken_for_neighbours_in_one_read(self) -> None:
        self.example("renames", "check-names", ["/wt/d"])

    def test_no_scan_after_an_overflow(self) -> None:
        self.example("overflow", "check-names", ["/wt/d"], "--vary", "lines,reads,queue")

    def test_one_entry_for_each_of_two_equal_records(self) -> None:
        self.example("follow", "check-log", ["/wt/log"])

    def test_the_watch_descriptor_of_a_file_that_is_gone(self) -> None:
        self.example("reload", "check-conf", ["/wt/d", "conf"])


class Moves(ToolTest):
    """In full, by moves."""

    def test_one_move_finds_the_race_and_what_it_leaves_is_whole(self) -> None:
        program = [self.built("recursive"), "/wt/d"]
        said = self.explore(f"{EXAMPLES}/recursive.script", f"sh {EXAMPLES}/check-names", program, "--moves", "1")
        self.assertEqual(said.returncode, 1, said.stdout + said.stderr)
        left = f"{self.room}/recursive.script.failures"
        names = set(os.listdir(left))
        self.assertLessEqual({"shrunk.schedule", "timeline.txt", "run"}, names)
        with open(f"{left}/timeline.txt", encoding="utf-8") as file:
            timeline = file.read()
        self.assertRegex(timeline, r"tree     create /d/a/f 644   before request \d+\n")
        self.assertRegex(timeline, r"event    CREATE ISDIR a   watch 1, of /d\n")
        self.assertRegex(timeline, r"\d+  program  inotify_add_watch /d/a\n")
        self.assertIn("page.html", names, said.stdout)
        with open(f"{left}/page.html", encoding="utf-8") as file:
            page = file.read()
        self.assertIn("create /d/a/f 644", page)
        self.assertTrue(page.rstrip().endswith("</html>"))

    def test_one_move_is_every_place_of_every_line(self) -> None:
        # The program asks 7 times before it waits, and twice for each line: before any of these the next line may happen, but
        # it happens at rest before the one that comes next.
        script = self.write("script", "mkdir /d 755", "--", "create /d/a 644", "create /d/b 644")
        said = self.explore(script, "true", [self.built("renames"), "/wt/d", "correct"], "--moves", "1", "--vary", "lines")
        self.assertEqual(said.returncode, 0, said.stdout + said.stderr)
        requests = int(re.search(r"(\d+) requests", said.stdout)[1])
        after_last = 1
        self.assertIn(f"{requests - after_last} runs, 0 failed", said.stdout)

    def test_a_twin_passes_with_one_move(self) -> None:
        program = [self.built("recursive"), "/wt/d", "correct"]
        said = self.explore(f"{EXAMPLES}/recursive.script", f"sh {EXAMPLES}/check-names", program, "--moves", "1")
        self.assertEqual(said.returncode, 0, said.stdout + said.stderr)
