"""One run of the program under the runner, and what the check says of it."""

import shutil
import subprocess
import sys
import tempfile
from dataclasses import dataclass, field
from typing import List, Optional

import traces
from children import Children, Late
from schedules import Fault, Refused, Schedule, read

# Exit statuses of the runner, and of a shell that cannot run a command.
NOTHING_DELIVERED, LINES_LEFT, STALLED, TOOL_FAULT = 122, 123, 124, 125
NOT_EXECUTABLE, NOT_FOUND = 126, 127
# How the runner reports a set-up that is refused.
REFUSED = "before `--` is refused: "
# Seconds that no run and no check takes without --limit. The runner ends a run that stalls.
LONGEST = 900


@dataclass
class Result:
    """A run: the status of the runner, whether the check failed, and what happened."""

    seed: Optional[int]
    status: int
    fails: bool
    delivered: bool
    schedule: Schedule
    trace: List[traces.Entry]
    """Empty if it is not known: of a run of another machine, or of an earlier search."""
    name: str = ""
    """The moves in words, of a search by moves."""

    def title(self) -> str:
        """Returns the name of the run for a reader."""
        return f"seed {self.seed}" if self.seed is not None else self.name or "at rest"

    def places(self) -> List[int]:
        """Returns, for each line after the first mark and each turn, the request that was next when it had happened."""
        return traces.places(self.trace)


@dataclass
class Bench:
    """What each run has in common: the runner and its options, the script, the check and the program."""

    runner: str
    options: List[str]
    script: str
    check: str
    program: List[str]
    room: str
    limit: Optional[int] = None
    children: Children = field(default_factory=Children)
    _is_late_said: bool = False

    def seed(self, number: int, vary: str) -> Result:
        """Runs the script by a seed."""
        return self._run(["--seed", str(number), "--vary", vary, self.script, "--"], number)

    def base(self, kept: Optional[str] = None) -> Result:
        """Runs the script with every line at rest."""
        with tempfile.NamedTemporaryFile(dir=self.room, suffix=".schedule") as file:
            with open(self.script, "rb") as script:
                shutil.copyfileobj(script, file)
            file.flush()
            return self._run(["--schedule", file.name, "--"], None, kept)

    def replay(self, schedule: Schedule, seed: Optional[int] = None, kept: Optional[str] = None) -> Result:
        """Runs a schedule. The files of the run are left in `kept`."""
        with tempfile.NamedTemporaryFile(dir=self.room, suffix=".schedule") as file:
            file.write(schedule.encoded())
            file.flush()
            return self._run(["--schedule", file.name, "--"], seed, kept)

    def _run(self, words: List[str], seed: Optional[int], kept: Optional[str] = None) -> Result:
        out = kept or tempfile.mkdtemp(dir=self.room, prefix="run-")
        try:
            said = self._program([self.runner, *self.options, "--out", out, *words, *self.program])
            return self._judge(out, said.returncode, seed)
        finally:
            if not kept:
                shutil.rmtree(out, ignore_errors=True)

    def _program(self, command: List[str]) -> "subprocess.CompletedProcess[bytes]":
        # (the runner ends a run at its limit, and the program 10 seconds later if it does not end by the signal)
        most = LONGEST + (self.limit or 0) / 1000
        try:
            said = self.children.run(command, most)
        except Late as late:
            raise Fault(f"a run was not over after {most:.0f} seconds") from late
        if said.returncode == TOOL_FAULT:
            why = _last_line(said.stderr, f"status {TOOL_FAULT}")
            raise (Refused if REFUSED in why else Fault)(f"the runner: {why}")
        return said

    def _judge(self, out: str, status: int, seed: Optional[int]) -> Result:
        fails = self._check(out, status, seed)
        with open(f"{out}/trace", encoding="utf-8", errors="surrogateescape") as file:
            trace = traces.read_trace(file)
        delivered = any(isinstance(it, traces.Told) for it in trace)
        return Result(seed, status, fails, delivered, read(f"{out}/schedule"), trace)

    def _check(self, out: str, status: int, seed: Optional[int]) -> bool:
        """Whether the check fails."""
        more = {"WT_OUT": out, "WT_STATUS": str(status), "WT_SEED": "" if seed is None else str(seed)}
        most = self.limit / 1000 if self.limit else LONGEST
        try:
            said = self.children.run(["/bin/sh", "-c", self.check], most, more)
        except Late:
            if not self._is_late_said:
                print(f"watchtree explore: a check was not over after {most:g} seconds, and fails", file=sys.stderr)
            self._is_late_said = True
            return True
        if said.returncode in (NOT_EXECUTABLE, NOT_FOUND):
            raise Fault("the check cannot be run: " + _last_line(said.stderr, f"status {said.returncode}"))
        return said.returncode != 0


def _last_line(text: bytes, otherwise: str) -> str:
    lines = text.decode(errors="replace").strip().splitlines()
    return lines[-1] if lines else otherwise
