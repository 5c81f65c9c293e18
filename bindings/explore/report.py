"""What explore prints, and the files that it leaves."""

import argparse
import os
import re
import shlex
import sys
from dataclasses import dataclass
from typing import List, Optional

import traces
from folder import Folder
from runs import NOTHING_DELIVERED, Bench, Result
from schedules import Schedule
from search import Found, in_parallel
from shrink import Shrinker
from state import STATE, Failing
from timeline import timeline, write_page

# The most failures that are printed, and the most that are shrunk. All are kept.
SHOWN, SHRUNK = 10, 3
# What a search leaves beside a schedule for each failure.
OTHERS = ("shrunk.schedule", "timeline.txt", "run", "calls.script", "page.html", STATE)


@dataclass
class Shrunk:
    """The smallest failing schedule, how it was found, and how often it failed again."""

    schedule: Schedule
    runs: int
    replays: int
    failed: int
    timeline: str
    command: str


def many(count: int, what: str) -> str:
    """Returns a count and its word."""
    return f"{count} {what}" + ("" if count == 1 else "s")


def say_base(base: Result) -> None:
    """Says what a run without a schedule is."""
    lines, turns, requests = len(base.schedule.lines()), len(base.schedule.turns()), traces.requests(base.trace)
    what = f"{many(turns, 'turn')} of the second program" if turns else many(lines, "line")
    print(f"at rest: {what}, {many(requests, 'request')}, the check {'fails' if base.fails else 'passes'}")
    sys.stdout.flush()


def say_found(found: Found, said: argparse.Namespace, seeds: int) -> None:
    """Says how many runs failed, and what else a reader has to know of them."""
    how = f"of {many(len(said.merge), 'shard')}" if said.merge else f"{found.rate():.0f} a second, {said.jobs} at once"
    print(f"{many(found.runs, 'run')}, {len(found.failures)} failed ({how})")
    for count, what in ((found.undelivered, "delivered nothing: every line happened before the first watch"),
                        (found.unfinished, "ended before every line had happened"), (found.stalled, "stalled")):
        if count:
            print(f"  {many(count, 'run')} {what}")
    if not found.is_complete:
        left = len(found.left or ()) if said.moves else seeds - len(found.seeds)
        print(f"  stopped before its end, with {many(left, 'schedule' if said.moves else 'seed')} left: --resume goes on")
    sys.stdout.flush()


def is_left(name: str, seeds: Optional[range]) -> bool:
    """Whether a search of these seeds, or by moves, may leave a file of this name."""
    found = re.fullmatch(r"(seed|failure)-(0|[1-9][0-9]*)\.schedule", name)
    if not found:
        return name in OTHERS
    if found[1] == "seed":
        return seeds is not None and int(found[2]) in seeds
    return seeds is None or found[2] == "1"


def named(failures: List[Result]) -> List[Failing]:
    """Returns the name of the file of each failing schedule, and its run."""
    return [(f"seed-{it.seed}.schedule" if it.seed is not None else f"failure-{number}.schedule", it)
            for number, it in enumerate(failures, 1)]


def keep(failing: List[Failing], out: Folder) -> None:
    """Leaves the schedule of each failing run in a folder."""
    for number, (name, it) in enumerate(failing, 1):
        out.write(name, it.schedule.encoded())
        if number <= SHOWN:
            print(f"  {out.path}/{name}: {what_failed(it)}")
    if len(failing) > SHOWN:
        print(f"  and {len(failing) - SHOWN} more")


def what_failed(it: Result) -> str:
    """Returns a failing run in words."""
    what = "turn" if it.schedule.turns() else "line"
    return f"status {it.status}, {many(it.schedule.moved(), what)} moved, {many(it.schedule.short_reads(), 'short read')}"


def simplest(failures: List[Result]) -> List[Result]:
    """Returns a few failing runs from which shrinking has the shortest way. One that took no record is the last choice."""
    return sorted(failures, key=lambda it: (it.status == NOTHING_DELIVERED, it.schedule.changes()))[:SHRUNK]


def shrink_one(bench: Bench, failures: List[Result], is_race: bool, out: Folder, said: argparse.Namespace) -> Optional[Shrunk]:
    """Shrinks a few failing schedules, replays the smallest, and prints its timeline. None if none fails again."""
    shrinkers = [Shrinker(bench, it, is_race, said.jobs, said.shrink_runs // SHRUNK) for it in simplest(failures)]
    shrunk = [it for it in (one.shrink() for one in shrinkers) if it]
    if not shrunk:
        print("no failing schedule that was tried fails again: the program or the check does not do the same in each run")
        print("(several checks run at once: each has its own files in $WT_OUT)")
        return None
    best = min(shrunk, key=lambda it: it.schedule.size())
    lines, changes, _ = best.schedule.size()
    out.write("shrunk.schedule", best.schedule.encoded())
    runs = sum(it.runs for it in shrinkers)
    print(f"shrunk by {many(runs, 'run')}: {many(lines, 'line')}, {many(changes, 'move')}")
    failed = replay(bench, best, said.replays, said.jobs)
    print(f"replayed {many(said.replays, 'time')}, failed {many(failed, 'time')}")
    command = [said.command, "under", *bench.options, "--schedule", f"{out.path}/shrunk.schedule", "--", *bench.program]
    last = show(bench, best, out, said)
    print(f"again: {shlex.join(command)}")
    return Shrunk(best.schedule, runs, said.replays, failed, timeline(last.trace), shlex.join(command))


def show(bench: Bench, best: Result, out: Folder, said: argparse.Namespace) -> Result:
    """Leaves the files of one more run of a schedule, and prints its timeline. Returns the run."""
    with out.directory("run") as run:
        last = bench.replay(best.schedule, best.seed, run)
    out.write("timeline.txt", timeline(last.trace, is_whole=True).encode("utf-8", "surrogateescape"))
    why = write_page(out, said.library or os.path.dirname(os.path.abspath(said.runner)), last.trace, best.schedule.queue)
    print_schedule(best.schedule)
    print("\n" + timeline(last.trace), end="")
    page = f"no page: {why}" if why else f"{out.path}/page.html its records"
    print(f"\n{out.path}/timeline.txt has every request, {out.path}/run the files of the run; {page}")
    return last


def replay(bench: Bench, best: Result, times: int, jobs: int) -> int:
    """Replays a schedule. Returns how often it failed."""
    steps = ((lambda: bench.replay(best.schedule, best.seed)) for _ in range(times))
    return sum(it.fails for it in in_parallel(steps, jobs))


def print_schedule(schedule: Schedule) -> None:
    """Prints the file of a schedule."""
    print()
    for line in schedule.text().splitlines():
        print("    " + line)
