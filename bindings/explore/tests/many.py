"""A search in parts, as a user makes it: shards and their merge, --minutes and --resume, and the reports."""

import json
import os
import re
import signal
import subprocess
import sys
from typing import Any, Dict, List, Tuple

from state import STATE
from tool import EXAMPLES, MAIN, ToolTest

SEEDS = "1..16"


class Parts(ToolTest):
    """A search of a program with a known bug."""

    def setUp(self) -> None:
        super().setUp()
        self.script = f"{EXAMPLES}/recursive.script"
        self.check = f"sh {EXAMPLES}/check-names"
        self.program = [self.built("recursive"), "/wt/d"]

    def search(self, status: int, *options: str, check: str = "") -> "subprocess.CompletedProcess[str]":
        """Runs the search, which ends with this status."""
        said = self.tool(check or self.check, "--replays", "5", *options)
        self.assertEqual(said.returncode, status, said.stdout + said.stderr)
        return said

    def tool(self, check: str, *options: str) -> "subprocess.CompletedProcess[str]":
        """Runs watchtree explore. The options come last, as --merge takes all words that follow."""
        words = ["--runner", self.runner, self.script, "--check", check, *options]
        return self.run_tool([sys.executable, MAIN, *words, "--", *self.program])

    def schedules(self, folder: str) -> Dict[str, str]:
        """Returns the failing schedules of a folder, by seed, or by their text."""
        names = [it for it in os.listdir(f"{self.room}/{folder}") if re.fullmatch(r"(seed|failure)-\d+\.schedule", it)]
        texts = {name: self.read(f"{folder}/{name}") for name in names}
        return {name if name.startswith("seed") else text: text for name, text in texts.items()}

    def report(self, name: str) -> Dict[str, Any]:
        """Reads a report."""
        with open(f"{self.room}/{name}", encoding="utf-8") as file:
            said: Dict[str, Any] = json.load(file)
        return said

    def refused(self, why: str, *options: str, check: str = "") -> None:
        """The search is a fault."""
        self.assertIn(why, self.search(125, *options, check=check).stderr)


class Shards(Parts):
    """Four shards and their merge, beside one search."""

    def shards(self, *options: str, count: int = 4) -> Tuple[List[str], int]:
        """Makes all shards. Returns their folders, and how many runs they made."""
        folders, runs = [], 0
        for number in range(1, count + 1):
            said = self.tool(self.check, *options, "--shard", f"{number}/{count}", "--report", f"json={number}.json")
            folders.append(f"recursive.script.shard-{number}-of-{count}")
            it = self.report(f"{number}.json")
            self.assertEqual(said.returncode, 1 if it["failures"] else 0, said.stdout + said.stderr)
            self.assertEqual((it["shard"], it["complete"], it["fault"]), (f"{number}/{count}", True, None))
            self.assertEqual("not shrunk: --merge shrinks" in said.stdout, bool(it["failures"]))
            self.assertNotIn("shrunk.schedule", os.listdir(f"{self.room}/{folders[-1]}"))
            runs += it["runs"]
        return folders, runs

    def same_as_one(self, *options: str) -> None:
        """The shards find what one search finds, and so does their merge."""
        one = self.search(1, *options, "--out", "one", "--report", "json=one.json")
        folders, runs = self.shards(*options)
        found = [self.schedules(it) for it in folders]
        self.assertEqual(sum(map(len, found)), len(self.schedules("one")))
        self.assertEqual({name: text for it in found for name, text in it.items()}, self.schedules("one"))
        merged = self.search(1, *options, "--out", "merged", "--report", "json=merged.json", "--merge", *folders)
        self.assertEqual(self.schedules("merged"), self.schedules("one"))
        self.assertEqual(runs, self.report("one.json")["runs"])
        for name in ("runs", "failed", "complete", "nothing_delivered", "lines_left", "at_rest", "shard", "fault"):
            self.assertEqual(self.report("merged.json")[name], self.report("one.json")[name], name)
        self.assertIn(f"{runs} runs, {len(self.schedules('one'))} failed (of 4 shards)\n", merged.stdout)
        for said in (one, merged):
            self.assertIn("replayed 5 times, failed 5 times", said.stdout)
        self.assertLessEqual({"shrunk.schedule", "timeline.txt", "run", "page.html"}, set(os.listdir(f"{self.room}/merged")))
        names = {os.path.basename(it) for it in os.listdir(f"{self.room}/merged")}
        self.assertNotIn(STATE, names)

    def test_by_seeds(self) -> None:
        self.same_as_one("--seeds", SEEDS)
        self.assertEqual(self.read("merged/shrunk.schedule"), self.read("one/shrunk.schedule"))

    def test_by_moves(self) -> None:
        self.same_as_one("--moves", "1")

    def test_shards_without_a_failure(self) -> None:
        self.program.append("correct")
        folders, runs = self.shards("--seeds", "1..5", count=2)
        self.assertEqual(runs, 5)
        said = self.search(0, "--seeds", "1..5", "--merge", *folders)
        self.assertIn("5 runs, 0 failed (of 2 shards)", said.stdout)
        self.assertFalse(os.path.exists(f"{self.room}/recursive.script.failures"))

    def test_a_check_that_always_fails(self) -> None:
        self.check = "false"
        of_it = ["--seeds", "1..4", "--shrink-runs", "3"]
        self.search(1, *of_it, "--out", "one")
        folders, runs = self.shards("--seeds", "1..4", count=2)
        self.assertEqual(runs, 4)
        merged = self.search(1, *of_it, "--out", "merged", "--merge", *folders)
        self.assertEqual(self.schedules("merged"), self.schedules("one"))
        self.assertEqual(len(self.schedules("one")), 5)
        self.assertEqual(merged.stderr, "")

    def test_a_check_that_is_not_what_it_was(self) -> None:
        self.check = f"! test -e {self.room}/broken"
        folders, _ = self.shards("--seeds", "1..2", count=1)
        self.write("broken")
        said = self.search(1, "--seeds", "1..2", "--shrink-runs", "3", "--merge", *folders)
        self.assertIn("at rest the check fails here, unlike when the search began", said.stderr)

    def test_more_shards_than_seeds(self) -> None:
        self.program.append("correct")
        folders, runs = self.shards("--seeds", "1..2", count=3)
        self.assertEqual(runs, 2)
        self.search(0, "--seeds", "1..2", "--merge", *folders)

    def test_what_is_no_shard_of_the_search(self) -> None:
        folders, _ = self.shards("--seeds", "1..4", count=2)
        of_it = ["--seeds", "1..4", "--report", "json=said.json", "--report", "junit=said.xml"]
        self.refused("not all shards are there: 2/2 is missing", *of_it, "--merge", folders[0])
        self.assertEqual(self.report("said.json")["fault"], "not all shards are there: 2/2 is missing")
        self.assertIn('<error type="fault" message="not all shards are there: 2/2 is missing"', self.read("said.xml"))
        self.refused("with other check", *of_it, "--merge", *folders, check="true")
        self.refused("with other seeds: 1..4 there, 1..5 here", "--seeds", "1..5", "--merge", *folders)
        self.refused("with other options", *of_it, "--queue", "9", "--merge", *folders)
        self.refused("/nothing/search.json: there is none", *of_it, "--merge", *folders, f"{self.room}/nothing")
        self.refused("the merge would replace it", *of_it, "--out", folders[1], "--merge", *folders)
        with open(f"{self.room}/{folders[1]}/{STATE}", "r+", encoding="utf-8") as file:
            file.truncate(100)
        self.refused("it is not whole", *of_it, "--merge", *folders)


class Stops(Parts):
    """--minutes and --resume."""

    def ran(self) -> List[int]:
        """Returns the seeds whose check ran."""
        return [int(it) for it in self.read("ran").split()]

    def first_failure(self) -> int:
        """Returns the first seed that fails."""
        self.search(1, "--seeds", "1..99", "--first", "--jobs", "1", "--shrink-runs", "3", "--out", "first")
        return int(next(iter(self.schedules("first")))[len("seed-"):-len(".schedule")])

    def test_it_stops_and_goes_on(self) -> None:
        # The second run starts with the first; the third would start when the time is over.
        check = f'echo $WT_SEED >>{self.room}/ran; sleep 0.2; {self.check}'
        first = self.first_failure()
        seeds = f"{first}..{first + 11}"
        of_it = ["--seeds", seeds, "--jobs", "1", "--shrink-runs", "9", "--out", "out"]
        said = self.search(1, *of_it, "--minutes", "0.002", "--report", "json=1.json", check=check)
        self.assertIn("2 runs, ", said.stdout)
        self.assertIn("  stopped before its end, with 10 seeds left: --resume goes on\n", said.stdout)
        self.assertNotIn("shrunk", said.stdout)
        self.assertEqual(self.ran(), [first, first + 1])
        self.assertEqual((self.report("1.json")["complete"], self.report("1.json")["runs"]), (False, 2))
        self.refused("out: the search of shard 1/1 is not over", "--seeds", seeds, "--merge", "out", check=check)
        said = self.search(1, *of_it, "--minutes", "0.002", "--resume", check=check)
        self.assertIn("4 runs, ", said.stdout)
        self.assertEqual(sorted(self.ran()), list(range(first, first + 4)))
        self.assertEqual(self.schedules("out").keys() & {f"seed-{first}.schedule"}, {f"seed-{first}.schedule"})
        of_it[3] = "2"
        self.search(1, *of_it, "--resume", "--report", "json=all.json", check=check)
        # (what shrinking and replaying runs has a seed too, and came after all seeds)
        self.assertEqual(sorted(self.ran()[:12]), list(range(first, first + 12)))
        self.search(1, "--seeds", seeds, "--shrink-runs", "9", "--out", "one", "--report", "json=one.json")
        self.assertEqual(self.schedules("out"), self.schedules("one"))
        for name in ("runs", "failed", "complete", "failures"):
            self.assertEqual(self.report("all.json")[name], self.report("one.json")[name], name)

    def test_moves_go_on(self) -> None:
        check = f'grep -e "^#@" $WT_OUT/schedule | tr "\\n" , >$WT_OUT/now; echo >>$WT_OUT/now; cat $WT_OUT/now >>{self.room}/ran; ' \
                f"sleep 0.2; {self.check}"
        of_it = ["--moves", "1", "--vary", "lines", "--out", "out", "--shrink-runs", "1", "--jobs", "1"]
        runs, parts = 0, 0
        for minutes in ("0.002", "0.01", "100"):
            more = ["--resume"] if parts else []
            said = self.tool(check, *of_it, "--minutes", minutes, *more, "--report", "json=it.json")
            self.assertIn(said.returncode, (0, 1), said.stdout + said.stderr)
            it, parts = self.report("it.json"), parts + 1
            self.assertGreater(it["runs"], runs)
            self.assertEqual(it["complete"], minutes == "100")
            runs = it["runs"]
        self.search(1, *of_it[:4], "--out", "one", "--shrink-runs", "1", "--report", "json=one.json")
        self.assertEqual(runs, self.report("one.json")["runs"])
        self.assertEqual(self.schedules("out"), self.schedules("one"))
        moved = [it for it in self.read("ran").splitlines()[: runs + parts] if it]
        self.assertEqual(len(moved), runs)
        self.assertEqual(len(set(moved)), runs, "a schedule ran twice")

    def test_a_search_that_is_over(self) -> None:
        of_it = ["--seeds", "1..8", "--minutes", "100", "--shrink-runs", "3"]
        first = self.search(1, *of_it)
        again = self.search(1, *of_it, "--resume")
        self.assertRegex(again.stdout, r"\n8 runs, \d failed")
        self.assertEqual(first.stdout.count("seed-"), again.stdout.count("seed-"))

    def test_what_is_no_search_to_go_on_with(self) -> None:
        self.refused("/search.json: there is none", "--resume")
        of_it = ["--seeds", "1..16", "--out", "out"]
        self.search(1, *of_it, "--shard", "1/2")
        self.refused("out: it is shard 1/2 of this search, not 2/2", *of_it, "--shard", "2/2", "--resume")
        self.refused("with other seeds", "--seeds", "1..17", "--out", "out", "--shard", "1/2", "--resume")
        name = min(self.schedules("out"))
        self.write(f"out/{name}", "mine")
        self.refused(f"{name}: it was changed since", *of_it, "--shard", "1/2", "--resume")
        self.assertEqual(self.read(f"out/{name}"), "mine\n")

    def test_a_signal_keeps_what_ran(self) -> None:
        check = f'test ! -e {self.room}/armed || [ -z "$WT_SEED" ] || [ "$WT_SEED" -lt 6 ] || kill -TERM $TOOL; {self.check}'
        words = [sys.executable, MAIN, "--runner", self.runner, "--seeds", SEEDS, "--jobs", "1", "--minutes", "90", "--out", "out",
                 "--report", "json=out.json", self.script, "--check", check, "--", *self.program]
        self.write("armed")
        said = self.run_tool(["sh", "-c", 'TOOL=$$; export TOOL; exec env --default-signal "$@"', "sh", *words])
        self.assertEqual(said.returncode, 128 + signal.SIGTERM, said.stdout + said.stderr)
        stopped = self.report("out.json")
        self.assertEqual((stopped["fault"], stopped["complete"]), ("signal 15 ended the search", False))
        self.assertTrue(3 <= stopped["runs"] <= 6, stopped["runs"])
        os.unlink(f"{self.room}/armed")
        self.search(1, "--seeds", SEEDS, "--out", "out", "--report", "json=out.json", "--resume", check=check)
        self.search(1, "--seeds", SEEDS, "--out", "one", "--report", "json=one.json")
        self.assertEqual(self.schedules("out"), self.schedules("one"))
        self.assertEqual(self.report("out.json")["runs"], 16)


class Reports(Parts):
    """--report."""

    def test_a_search_that_fails_and_one_that_passes(self) -> None:
        both = ["--report", "json=it.json", "--report", "junit=it.xml"]
        self.search(1, "--seeds", "1..8", *both)
        said = self.report("it.json")
        self.assertEqual({it["file"]: it["schedule"] for it in said["failures"]}, self.schedules("recursive.script.failures"))
        self.assertEqual(said["shrunk"]["schedule"], self.read("recursive.script.failures/shrunk.schedule"))
        self.assertEqual((said["shrunk"]["replays"], said["shrunk"]["failed"]), (5, 5))
        self.assertEqual(self.read("it.xml").count("<testcase "), 9)
        self.assertEqual(self.read("it.xml").count("<failure "), said["failed"])
        self.program.append("correct")
        self.search(0, "--seeds", "1..3", *both)
        self.assertEqual((self.report("it.json")["failed"], self.report("it.json")["shrunk"]), (0, None))
        self.assertNotIn("<failure ", self.read("it.xml"))

    def test_a_search_that_cannot_run(self) -> None:
        both = ["--report", "json=it.json", "--report", "junit=it.xml"]
        for check, why in (("/nonexistent", "the check cannot be run: "), ("true", "No such file or directory")):
            if check == "true":
                self.script = f"{self.room}/nothing"
            self.refused(why, *both, check=check)
            self.assertIn(why, self.report("it.json")["fault"])
            self.assertIn("<error ", self.read("it.xml"))
        self.refused("--report json=none/it.json: No such file", "--report", "json=none/it.json")


    def test_a_search_that_is_killed(self) -> None:
        both = ["--report", "json=it.json", "--report", "junit=it.xml"]
        self.program.append("correct")
        self.search(0, "--seeds", "1..1", *both)
        words = ["--runner", self.runner, "--seeds", "1..3", *both, self.script, "--check", "kill -KILL $TOOL", "--", *self.program]
        said = self.run_tool(["sh", "-c", 'TOOL=$$; export TOOL; exec "$@"', "sh", sys.executable, MAIN, *words])
        self.assertEqual(said.returncode, -signal.SIGKILL, said.stderr)
        self.assertEqual(self.report("it.json")["fault"], "the search did not come to its end")
        self.assertIn('errors="1"', self.read("it.xml"))


class Words(Parts):
    """Wrong words."""

    def test_words_of_the_command_line(self) -> None:
        for words in (["--shard", "0/4"], ["--shard", "5/4"], ["--shard", "4"], ["--shard", "a/b"], ["--minutes", "0"],
                      ["--minutes", "-1"], ["--minutes", "x"], ["--report", "it.json"], ["--report", "tap=it"],
                      ["--report", "json="], ["--report", "json=a", "--report", "json=b"], ["--first", "--shard", "1/2"],
                      ["--shard", "1/2", "--merge", "a"], ["--resume", "--merge", "a"], ["--minutes", "1", "--merge", "a"]):
            self.refused("usage: ", *words)
