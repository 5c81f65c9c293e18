"""A search from its start to its report: new, gone on with, or merged from the shards of several machines."""

import argparse
import os
import sys
from typing import List

import report
from children import Children, Ended
from deadline import Deadline
from folder import Folder
from merge import merged
from moves import by_moves
from options import SECOND, runner_options
from reports import Report, Reports
from runs import NOT_EXECUTABLE, NOT_FOUND, Bench, Result
from schedules import Fault
from search import Found, by_seeds
from shards import Shard
from state import STATE, State, identity_of, read

# The folder that the keeper made and removes.
ROOM = "WATCHTREE_ROOM"


class Explorer:
    """What a search has: its words, its folder and its reports."""

    def __init__(self, said: argparse.Namespace, program: List[str], children: Children) -> None:
        self.said, self.program, self.children, self.shard = said, program, children, said.shard or Shard()
        self.seeds = self.shard.seeds(said.seeds or range(0))
        # A state is kept for --resume and --merge.
        self.is_kept = bool(said.shard or said.minutes or said.resume)
        self.out = Folder(said.out, lambda name: report.is_left(name, None if said.moves else said.seeds))
        self.reports = Reports(said.report)
        self.report = Report(said.script, {}, str(said.shard) if said.shard else None)

    def explore(self) -> int:
        """Searches, and reports what was found. Returns the exit status."""
        said, options = self.said, runner_options(self.said)
        self.bench = Bench(said.runner, options, said.script, said.check, self.program, os.environ.pop(ROOM), said.limit,
                           self.children)
        self.report.identity = identity = identity_of(said, self.program, options)
        state = self.begin(identity)
        was_over = state.found.is_complete
        self.out.check(STATE if self.said.resume else "")
        base = self.base_run()
        state.unpack(base.schedule)
        if (self.said.resume or self.said.merge) and state.base_fails != base.fails:
            now = "fails" if base.fails else "passes"
            print(f"watchtree explore: at rest the check {now} here, unlike when the search began", file=sys.stderr)
        state.base_fails = base.fails
        # (from here on, so that each part of a search makes at least one run)
        deadline = Deadline(self.said.minutes, self.children)
        try:
            if not was_over:
                self.search(state.found, base, deadline)
        except (KeyboardInterrupt, Ended, Fault, OSError):
            self.leave(state, base, deadline, False)
            raise
        return self.finish(state, base, deadline, was_over)

    def begin(self, identity: "dict[str, object]") -> State:
        """Returns where the search in the folder stopped, what shards found, or a search that begins."""
        if self.said.merge:
            return merged(self.said.merge, identity, self.said.out)
        if not self.said.resume:
            return State(identity, self.shard, False, Found())
        earlier = read(self.said.out)
        earlier.check(self.said.out, identity)
        if earlier.shard != self.shard:
            raise Fault(f"{self.said.out}: it is shard {earlier.shard} of this search, not {self.shard}")
        return earlier

    def base_run(self) -> Result:
        """Runs the script with nothing moved, which shows that the program, the check and the script go together."""
        base = self.bench.base()
        if base.status in (NOT_EXECUTABLE, NOT_FOUND) and not base.delivered:
            program = self.bench.program
            second = program[program.index(SECOND) + 1 :][:1] if SECOND in program else []
            raise Fault(f"{' or '.join([program[0], *second])}: status {base.status}: it cannot be run")
        if not base.delivered:
            raise Fault(f"with every line at rest nothing was delivered (status {base.status}): the program takes no record")
        report.say_base(base)
        self.report.base = base
        return base

    def search(self, found: Found, base: Result, deadline: Deadline) -> None:
        """Searches what is left."""
        said = self.said
        if said.moves:
            by_moves(self.bench, base, said.moves, said.vary, said.jobs, said.first, found, deadline, self.shard)
        else:
            by_seeds(self.bench, self.seeds, said.vary, said.jobs, said.first, found, deadline)

    def leave(self, state: State, base: Result, deadline: Deadline, was_over: bool) -> None:
        """Leaves failing schedules, and what was searched if it is kept."""
        found = state.found
        failing = report.named([base, *found.failures] if base.fails else found.failures)
        self.report.found, self.report.failing = found, failing
        if not self.is_kept and not (failing and found.is_complete):
            return
        with deadline.whole():
            # What an earlier search left there is removed, unless this one goes on with it.
            self.out.go_on() if self.said.resume and not was_over else self.out.clear()
            report.keep(failing, self.out)
            if self.is_kept:
                self.out.replace(STATE, state.encoded(failing[base.fails:], base.schedule))

    def finish(self, state: State, base: Result, deadline: Deadline, was_over: bool) -> int:
        """Reports what was found."""
        found, said = state.found, self.said
        report.say_found(found, said, len(self.seeds))
        self.leave(state, base, deadline, was_over)
        failures = [it for _, it in self.report.failing]
        if failures and said.shard:
            print(f"not shrunk: --merge shrinks what all {self.shard.count} shards found")
        elif failures and found.is_complete:
            self.report.shrunk = report.shrink_one(self.bench, failures, not base.fails, self.out, said)
        self.report.fault = None
        self.reports.write(self.report)
        return 1 if failures else 0
