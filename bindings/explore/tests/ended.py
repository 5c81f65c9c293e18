"""A search that is killed, or ended by a signal: no run, check or folder of it stays behind."""

import os
import signal
import subprocess
import sys
import time
from typing import List

from tool import EXAMPLES, MAIN, PATIENCE, ToolTest

# Opens a pipe that ends with the last process, says where the files of the run are, and waits.
WAIT = 'exec 7>held; echo "$out" >folder; setsid sleep 84 & touch started; sleep 85 & wait'


class Ended(ToolTest):
    """What goes on when the signal comes: a run, or a check."""

    def start(self, check: str, program: List[str]) -> "subprocess.Popen[str]":
        """Starts a search, and waits until the run or the check has started."""
        os.mkfifo(f"{self.room}/held")
        self.held = os.open(f"{self.room}/held", os.O_RDONLY | os.O_NONBLOCK)
        self.addCleanup(os.close, self.held)
        script = self.write("script", "mkdir /d 755", "--", "create /d/a 644")
        # (a shell cannot trap a signal that was ignored before, as SIGINT is in the background of a script)
        words = ["env", "--default-signal", sys.executable, MAIN, "--runner", self.runner, "--stall", "80000", script,
                 "--check", check, "--", *program]
        tool = subprocess.Popen(words, stdin=subprocess.DEVNULL, stdout=subprocess.PIPE, stderr=subprocess.STDOUT, text=True,
                                cwd=self.room)
        self.addCleanup(tool.stdout.close)  # type: ignore[union-attr]
        self.wait_for(lambda: os.path.exists(f"{self.room}/started") or tool.poll() is not None)
        self.assertIsNone(tool.returncode)
        self.folder = os.path.dirname(os.path.dirname(self.read("folder").strip()))
        self.assertTrue(os.path.isdir(self.folder))
        return tool

    def wait_for(self, is_so: object) -> None:
        """Waits for what has no other sign."""
        end = time.monotonic() + PATIENCE
        while not is_so():  # type: ignore[operator]
            self.assertLess(time.monotonic(), end)
            time.sleep(0.01)

    def ends(self, tool: "subprocess.Popen[str]", number: int, status: int) -> None:
        """Sends a signal. The search ends with this status, and nothing of it stays behind."""
        tool.send_signal(number)
        said = tool.communicate(timeout=PATIENCE)[0]
        self.assertEqual(tool.returncode, status, said)
        os.set_blocking(self.held, True)
        start = time.monotonic()
        self.assertEqual(os.read(self.held, 1), b"")
        self.assertLess(time.monotonic() - start, 60, "processes stay behind")
        self.wait_for(lambda: not os.path.exists(self.folder))

    def in_run(self, before: str = "") -> "subprocess.Popen[str]":
        """Starts a search that waits for its first run."""
        return self.start("true", ["sh", "-c", f"{before}out=$(readlink /proc/$$/fd/1); {WAIT}"])

    def in_check(self, before: str = "") -> "subprocess.Popen[str]":
        """Starts a search that waits for its first check."""
        return self.start(f"{before}out=$WT_OUT/stdout; {WAIT}", ["inotifywait", "-q", "-m", "/wt/d"])

    def test_killed_in_a_run(self) -> None:
        self.ends(self.in_run(), signal.SIGKILL, -signal.SIGKILL)

    def test_killed_in_a_check(self) -> None:
        self.ends(self.in_check(), signal.SIGKILL, -signal.SIGKILL)

    def goes_to_the_program(self, number: int) -> None:
        """Sends a signal during a run. The program gets it."""
        tool = self.in_run(f"trap 'echo came >{self.room}/came; exit 1' {number}; ")
        self.ends(tool, number, 128 + number)
        self.assertEqual(self.read("came"), "came\n")

    def test_sigterm_goes_to_the_program(self) -> None:
        self.goes_to_the_program(signal.SIGTERM)

    def test_sigint_goes_to_the_program(self) -> None:
        self.goes_to_the_program(signal.SIGINT)

    def test_a_signal_goes_to_the_check(self) -> None:
        tool = self.in_check(f"trap 'echo came >{self.room}/came; exit 1' TERM; ")
        self.ends(tool, signal.SIGTERM, 128 + signal.SIGTERM)
        self.assertEqual(self.read("came"), "came\n")

    def test_a_check_that_takes_too_long(self) -> None:
        # (the first check alone is late: none fails again)
        os.mkfifo(f"{self.room}/held")
        self.held = os.open(f"{self.room}/held", os.O_RDONLY | os.O_NONBLOCK)
        self.addCleanup(os.close, self.held)
        check = f"cd {self.room}; [ -e late ] || {{ touch late; exec 7>held; sleep 84 & sleep 85; }}"
        said = self.explore(f"{EXAMPLES}/recursive.script", check, [self.built("recursive"), "/wt/d", "correct"],
                            "--limit", "6000", "--seeds", "1..1")
        self.assertEqual(said.returncode, 1, said.stdout + said.stderr)
        self.assertIn("watchtree explore: a check was not over after 6 seconds, and fails\n", said.stderr)
        self.assertIn("the check fails", said.stdout)
        self.assertEqual(os.read(self.held, 1), b"")

    def test_a_run_that_takes_too_long(self) -> None:
        said = self.explore(f"{EXAMPLES}/recursive.script", "true", ["sleep", "85"], "--limit", "500")
        self.assertEqual(said.returncode, 125, said.stdout)
        self.assertIn("nothing was delivered (status 124)", said.stderr)

    def test_a_signal_that_is_ignored(self) -> None:
        program = [f"{os.environ['ROOM']}/recursive", "/wt/d"]
        script = self.write("script", "mkdir /d 755", "--", "create /d/a 644")
        words = [sys.executable, MAIN, "--runner", self.runner, "--seeds", "1..4", script, "--check", "kill -HUP $TOOL", "--"]
        said = self.run_tool(["sh", "-c", 'trap "" HUP; TOOL=$$; export TOOL; exec "$@"', "sh", *words, *program])
        self.assertEqual(said.returncode, 0, said.stdout + said.stderr)
