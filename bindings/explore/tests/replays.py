"""What a run took is a file, and the file makes the same run; and what each directive does."""

import shutil
import sys

import traces
from tool import EXAMPLES, HERE, ToolTest

CLIENT = f"{HERE}/edges.py"


class Replays(ToolTest):
    """A seed, and its file."""

    def same(self, script: str, program: list, seeds: range, *options: str) -> int:
        """Replays each seed. Returns how many lines and reads were not those of a run without a seed."""
        changes = 0
        for seed in seeds:
            first = self.under(f"seed-{seed}", [script], program, "--seed", str(seed), *options)
            again = self.under(f"again-{seed}", ["--schedule", f"{self.room}/seed-{seed}/schedule"], program)
            self.assertEqual(first.returncode, again.returncode, again.stderr)
            for name in ("trace", "schedule", "stdout", "listing"):
                self.assertEqual(self.read(f"seed-{seed}/{name}"), self.read(f"again-{seed}/{name}"), f"seed {seed}, {name}")
            changes += self.read(f"seed-{seed}/schedule").count("#@")
        return changes

    def test_a_seed_and_its_file_are_the_same_run(self) -> None:
        program = [self.built("overflow"), "/wt/d", "correct"]
        self.assertGreater(self.same(f"{EXAMPLES}/overflow.script", program, range(1, 26), "--vary", "lines,reads,queue"), 25)

    def test_so_it_is_of_a_program_that_polls(self) -> None:
        program = [sys.executable, CLIENT, "/wt/d"]
        self.assertGreater(self.same(f"{EXAMPLES}/recursive.script", program, range(1, 9)), 5)


class Live(ToolTest):
    """What a run of a live script took."""

    def live(self, out: str, program: list, *lines: str) -> str:
        """Runs lines that come by a pipe, of which one is bad. Returns the schedule that the run left."""
        command = [self.runner, "--quick", "--out", out, "-", "--", *program]
        said = self.run_tool(["sh", "-c", 'printf "%s\\n" "$0" | "$@"', "\n".join(lines), *command])
        self.assertEqual(said.returncode, 123, said.stderr)
        return self.read(f"{out}/schedule")

    def test_a_line_that_is_none_is_not_kept(self) -> None:
        program = [self.built("renames"), "/wt/d", "correct"]
        schedule = self.live("live", program, "mkdir /d 755", "--", "crate /d/a 644", "create /d/b 644", "stat \u00e9")
        self.assertEqual(schedule, "mkdir /d 755\n--\ncreate /d/b 644\n")
        said = self.under("again", ["--schedule", f"{self.room}/live/schedule"], program)
        self.assertEqual(said.returncode, 0, said.stderr)
        self.assertEqual(self.read("again/schedule"), schedule)
        self.assertEqual(self.read("again/stdout"), self.read("live/stdout"))

    def test_nor_one_that_was_left(self) -> None:
        lines = ("mkdir /d 755", "--", "create /d/a 644", "crate /d/b 644", "--", "create /d/c 644")
        schedule = self.live("live", ["true"], *lines)
        self.assertEqual(schedule.splitlines(), [it for it in lines if "crate " not in it])

    def test_a_run_that_is_ended_by_its_script(self) -> None:
        lines = 'printf "%s\\n" "mkdir /d 755" --; head -c 3000000 /dev/zero'
        command = [self.runner, "--quick", "--out", "live", "-", "--", self.built("renames"), "/wt/d", "correct"]
        said = self.run_tool(["sh", "-c", f'{{ {lines}; }} | "$@"', "sh", *command])
        self.assertEqual(said.returncode, 125, said.stderr)
        self.assertIn("a line is too long", said.stderr)
        self.assertEqual(self.read("live/schedule"), "mkdir /d 755\n--\n")


class Directives(ToolTest):
    """A schedule that is written by hand."""

    def replay(self, *lines: str) -> list:
        """Runs a schedule. Returns what happened from the start of the program on."""
        program = [self.built("renames"), "/wt/d", "correct"]
        shutil.rmtree(f"{self.room}/out", ignore_errors=True)
        said = self.under("out", ["--schedule", self.write("file", *lines)], program)
        self.assertIn(said.returncode, (0, 122), said.stderr)
        return traces.after_first_mark(traces.read_trace(self.read("out/trace").splitlines()))

    def order(self, *lines: str) -> list:
        """Returns the requests and the lines of a schedule as they came."""
        trace = self.replay(*lines)
        return [it.number if isinstance(it, traces.Asked) else it.text for it in trace
                if isinstance(it, (traces.Asked, traces.Happened))]

    def test_lines_happen_before_the_request_in_order(self) -> None:
        order = self.order("mkdir /d 755", "--", "#@ before 3", "create /d/a 644", "create /d/b 644", "#@ before 5",
                           "unlink /d/a", "#@ at rest", "create /d/c 644")
        self.assertEqual(order[:8], [1, 2, "create /d/a 644", "create /d/b 644", 3, 4, "unlink /d/a", 5])
        self.assertLess(order.index(7), order.index("create /d/c 644"))

    def test_a_relative_request_counts_from_the_line_above(self) -> None:
        order = self.order("mkdir /d 755", "--", "#@ before +2", "create /d/a 644", "#@ before +0", "create /d/b 644",
                           "#@ before +2", "unlink /d/a")
        self.assertEqual(order[:8], [1, 2, "create /d/a 644", "create /d/b 644", 3, 4, "unlink /d/a", 5])
        self.assertIn("#@ before 3\ncreate /d/a 644\ncreate /d/b 644\n#@ before 5\nunlink /d/a\n", self.read("out/schedule"))

    def test_a_read_that_waits_is_a_request_too(self) -> None:
        self.replay("mkdir /d 755", "--", "create /d/a 644", "#@ before +0", "create /d/b 644")
        self.assertIn("> create /d/a 644\nok 4\n@8 > create /d/b 644\nok 5\n? 8 read 1\n< 1 wd 1 CREATE name a\n"
                      "< 1 wd 1 CREATE name b\n", self.read("out/trace"))

    def test_a_request_that_does_not_come_leaves_the_line_at_rest(self) -> None:
        self.replay("mkdir /d 755", "--", "#@ before 1000", "create /d/a 644")
        self.assertEqual(self.read("out/schedule"), "mkdir /d 755\n--\ncreate /d/a 644\n")

    def test_after_its_request_a_line_happens_at_once(self) -> None:
        order = self.order("mkdir /d 755", "--", "#@ before 5", "create /d/a 644", "#@ before 3", "create /d/b 644")
        self.assertEqual(order[:7], [1, 2, 3, 4, "create /d/a 644", "create /d/b 644", 5])

    def test_a_short_read_hands_over_so_many_records(self) -> None:
        lines = ("mkdir /d 755", "--", "#@ before 7", "create /d/a 644", "create /d/bbbbbbbbbbbbbbbbb 644", "unlink /d/a")
        trace = self.replay(*lines)
        self.assertEqual(traces.records_by_read(trace), [[8, 3]])
        for most, counts in ((1, [1, 2]), (2, [2, 1]), (3, [3])):
            trace = self.replay(*lines, f"#@ read 8 {most}")
            self.assertEqual([count for _, count in traces.records_by_read(trace)], counts)
            self.assertEqual([it.name for it in trace if isinstance(it, traces.Told)], ["a", "bbbbbbbbbbbbbbbbb", "a"])
            self.assertEqual(f"#@ read 8 {most}" in self.read("out/schedule"), most < 3)

    def test_the_limit_of_the_queue(self) -> None:
        lines = ("mkdir /d 755", "--", "#@ before 7", "create /d/a 644", "create /d/b 644", "create /d/c 644")
        trace = self.replay("#@ queue 2", *lines)
        self.assertEqual([it.events[0] for it in trace if isinstance(it, traces.Told)], ["CREATE", "CREATE", "Q_OVERFLOW"])
        trace = self.replay("#@ queue 3", *lines)
        self.assertEqual([it.events[0] for it in trace if isinstance(it, traces.Told)], ["CREATE"] * 3)

    def test_without_schedule_they_are_comments(self) -> None:
        script = self.write("script", "mkdir /d 755", "--", "#@ before 1", "create /d/a 644")
        said = self.under("out", [script], [self.built("renames"), "/wt/d", "correct"])
        self.assertEqual(said.returncode, 0, said.stderr)
        self.assertNotIn("@", self.read("out/trace"))

    def test_what_is_no_directive_is_a_fault_with_its_line(self) -> None:
        for line in ("#@ before", "#@ before 0", "#@ before x", "#@ after 3", "#@ read 3", "#@ read 3 0", "#@ queue 0", "#@",
                     "#@ queue 65536", "#@ at rest now", "#@ before 3 4", "#@ read 0 1"):
            said = self.under("out", ["--schedule", self.write("file", "mkdir /d 755", "--", line)], ["true"])
            self.assertEqual(said.returncode, 125, line)
            self.assertIn("line 3: ", said.stderr)

    def test_the_limit_stands_first(self) -> None:
        said = self.under("out", ["--schedule", self.write("file", "mkdir /d 755", "#@ queue 3", "--")], ["true"])
        self.assertEqual(said.returncode, 125)
        self.assertIn("line 2: ", said.stderr)


class Edges(ToolTest):
    """A client that reads once for each edge."""

    def test_an_edge_follows_a_short_read(self) -> None:
        lines = ["mkdir /d 755", "--", "create /d/a 644", "#@ before +0", "create /d/b 644", "create /d/c 644"]
        lines += [f"#@ read {request} 1" for request in range(1, 60)]
        said = self.under("out", ["--schedule", self.write("file", *lines)], [sys.executable, CLIENT, "/wt/d"])
        self.assertEqual(said.returncode, 0, said.stderr)
        self.assertEqual(self.read("out/stdout").split(), ["a", "b", "c"])
        self.assertIn("#@ read ", self.read("out/schedule"))

    def test_what_fionread_told_is_there(self) -> None:
        lines = ["mkdir /d 755", "create /d/a 644", "--", "rename /d/a /d/b"]
        lines += [f"#@ read {request} 1" for request in range(1, 60)]
        said = self.under("out", ["--schedule", self.write("file", *lines)], [sys.executable, f"{HERE}/counts.py", "/wt/d"])
        self.assertEqual(said.returncode, 0, said.stderr)
        self.assertEqual(self.read("out/stdout"), "64 64\n")
