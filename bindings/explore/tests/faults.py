"""A search that could not run never looks like a success."""

import os
import sys

from tool import EXAMPLES, MAIN, ToolTest


class Faults(ToolTest):
    """Status 125, with a line."""

    def fails(self, why: str, script: str, check: str, program: list, *options: str) -> None:
        said = self.explore(script, check, program, *options)
        self.assertEqual(said.returncode, 125, said.stdout + said.stderr)
        self.assertIn(why, said.stderr)

    def setUp(self) -> None:
        super().setUp()
        self.script = f"{EXAMPLES}/recursive.script"
        self.program = [self.built("recursive"), "/wt/d"]

    def test_a_check_that_cannot_be_run(self) -> None:
        self.fails("the check cannot be run", self.script, "/nonexistent/check", self.program)
        self.fails("the check cannot be run", self.script, self.write("check", "exit 0"), self.program)

    def test_a_program_that_cannot_be_run(self) -> None:
        self.fails("status 127", self.script, "true", ["/nonexistent/program"])
        self.fails("status 126", self.script, "true", [self.write("program", "exit 0")])
        script = self.write("set_up", "mkdir /d 755")
        self.fails("/nonexistent/program: status 127", script, "true", [*self.program, "--and", "/nonexistent/program"])

    def test_a_program_that_takes_no_record(self) -> None:
        self.fails("nothing was delivered", self.script, "true", ["true"])
        self.fails("nothing was delivered", self.script, "true", ["sleep", "0.1"], "--moves", "1")

    def test_a_script_in_which_nothing_happens(self) -> None:
        self.fails("no line happens after --", self.write("script", "mkdir /d 755"), "true", self.program)
        self.fails("no line happens after --", self.write("script", "mkdir /d 755", "--", "# nothing"), "true", self.program)
        self.fails("No such file", f"{self.room}/nothing", "true", self.program)
        self.fails("must be a file", self.room, "true", self.program)

    def test_a_line_that_is_none(self) -> None:
        self.fails("line 3: unknown command", self.write("script", "mkdir /d 755", "--", "fly /d"), "true", self.program)

    def test_a_line_of_the_set_up_that_is_refused(self) -> None:
        script = self.write("script", "create /d/f 644", "mkdir /d 755", "--", "create /d/g 644")
        self.fails("line 1: 'create /d/f 644' before `--` is refused: err ENOENT 2", script, "true", self.program)
        script = self.write("script", "# a comment", "mkdir d 755", "--", "create /d/g 644")
        self.fails("line 2: 'mkdir d 755' before `--` is refused: err E", script, "true", self.program)

    def test_a_comment_of_any_bytes(self) -> None:
        for comment in (b"\xff", "\u2028fly /d".encode(), b"\x0cfly /d", b"\rfly /d"):
            with open(f"{self.room}/script", "wb") as file:
                file.write(b"mkdir /d 755\n# " + comment + b"\n--\n# " + comment + b"\ncreate /d/a 644\n")
            said = self.explore(f"{self.room}/script", "true", self.program, "--seeds", "1..2")
            self.assertEqual(said.returncode, 0, said.stdout + said.stderr)
            self.assertIn("at rest: 1 line,", said.stdout)

    def test_a_fault_of_the_tool_itself(self) -> None:
        main = f"import sys; sys.path.insert(0, {os.path.dirname(MAIN)!r}); import main; " \
               "main.check_script = lambda *_: 1 // 0; sys.exit(main.flushed(main.main(sys.argv[1:])))"
        words = ["--runner", self.runner, self.script, "--check", "true", "--", "true"]
        said = self.run_tool([sys.executable, "-c", main, *words])
        self.assertEqual(said.returncode, 125)
        self.assertIn("ZeroDivisionError", said.stderr)
        self.assertIn("watchtree explore: this is a fault of the tool\n", said.stderr)

    def test_output_that_cannot_be_written(self) -> None:
        words = ["--runner", self.runner, "--seeds", "1..1", self.script, "--check", "true", "--", *self.program]
        for buffered in (["env", "-u", "PYTHONUNBUFFERED"], ["env", "PYTHONUNBUFFERED=1"]):
            said = self.run_tool(["sh", "-c", '"$@" >/dev/full', "sh", *buffered, sys.executable, MAIN, *words])
            self.assertEqual(said.returncode, 125, said.stderr)
            self.assertIn("watchtree explore: No space left", said.stderr)

    def test_words_of_the_command_line(self) -> None:
        for words in (["--seeds", "3"], ["--seeds", "5..4"], ["--moves", "3"], ["--vary", "all"], ["--vary", ""],
                      ["--jobs", "0"], ["--no-such-option"], ["--moves", "1", "--seeds", "1..2"],
                      ["--moves", "1", "--vary", "lines,queue"]):
            self.fails("usage: ", self.script, "true", self.program, *words)
        said = self.run_tool(["python3", f"{EXAMPLES}/../main.py", "--runner", self.runner, self.script, "--check", "true"])
        self.assertEqual(said.returncode, 125)
        self.fails("--queue: bad value", self.script, "true", self.program, "--queue", "0")

    def test_the_environment_of_the_check(self) -> None:
        check = f'[ -s "$WT_OUT/trace" ] && [ -d "$WT_OUT/tree/d" ] && echo "$WT_SEED,$WT_STATUS" >>{self.room}/said'
        said = self.explore(self.script, check, self.program, "--seeds", "3..6")
        self.assertEqual(said.returncode, 0, said.stdout)
        seeds = sorted(line.split(",")[0] for line in self.read("said").split())
        self.assertEqual(seeds, ["", "3", "4", "5", "6"])
        self.assertLessEqual({line.split(",")[1] for line in self.read("said").split()}, {"0", "122"})

    def test_a_program_that_always_fails_is_no_race(self) -> None:
        said = self.explore(self.script, "false", self.program, "--seeds", "1..2", "--replays", "2")
        self.assertEqual(said.returncode, 1)
        self.assertIn("at rest: 5 lines, 14 requests, the check fails", said.stdout)
        self.assertIn("failure-1.schedule", said.stdout)


class Under(ToolTest):
    """Words of the runner."""

    def test_two_schedules(self) -> None:
        script = self.write("script", "mkdir /d 755", "--")
        for words, why in ((["--schedule", script, "--seed", "1"], "two schedules"), (["--schedule", script, script], "one more"),
                           (["--vary", "all", script], "bad value"), (["--vary", "", script], "bad value"),
                           (["--schedule", "/dev/null/none"], "Not a directory")):
            said = self.run_tool([self.runner, *words, "--", "true"])
            self.assertEqual(said.returncode, 125, words)
            self.assertIn(why, said.stderr)

    def test_a_pipe_is_no_schedule(self) -> None:
        said = self.run_tool(["sh", "-c", f"mkfifo pipe; exec 3<>pipe; {self.runner} --schedule pipe -- true"])
        self.assertEqual(said.returncode, 125)
        self.assertIn("is not a file", said.stderr)
