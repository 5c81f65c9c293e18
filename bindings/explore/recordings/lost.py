#!/usr/bin/python3
"""What the clients of ../explored lose while a real program works: its recording is the script of a search.

    lost.py [OPTIONS] search RESULTS CLIENT RECORDING..   runs seeds, replays and shrinks, and writes RESULTS/RECORDING.CLIENT.json
    lost.py [OPTIONS] replay CLIENT [RECORDING..]         replays lost/RECORDING.CLIENT.schedule, 20 times each
    lost.py table RESULTS                                 prints the tables of docs/RECORDED.md
    lost.py script RECORDING                              prints the script of the search

In the script a second line `--` stands before the calls of the recording: they begin when the client is quiet after its start, so
each run is judged. What RESULTS has already is not run again, so a search goes on where it ended. Each run is kept at once.
"""

import argparse
import json
import os
import sys
import tempfile
from typing import Any, Dict, List, Optional, Tuple

HERE = os.path.dirname(os.path.abspath(__file__))
EXPLORE = os.path.dirname(HERE)
LOST = f"{HERE}/lost"
sys.dont_write_bytecode = True
sys.path[:0] = [EXPLORE, f"{EXPLORE}/explored", HERE]
import run as explored  # noqa: E402
import runs  # noqa: E402
import schedules  # noqa: E402
import search  # noqa: E402
import shrink  # noqa: E402
from raised import read_lines  # noqa: E402

REPLAYS = 20
# The failing seeds whose schedules are replayed until one fails each time.
TRIED = 2
# Milliseconds without work after which a client has started, and those that a run takes at most.
START, LIMIT = 500, 180_000
AT_REST = "rest"


def script_of(recording: str) -> str:
    """Returns the script of the search."""
    setup, lines = read_lines(f"{HERE}/{recording}.script")
    return "\n".join([*setup, "--", "--", *lines]) + "\n"


class Pair:
    """A client and a recording: how they run, and what was found."""

    def __init__(self, words: argparse.Namespace, client: str, recording: str, room: str) -> None:
        self.client, self.recording, self.room, self.words = explored.ALL[client], recording, room, words
        self.name = f"{recording}.{client}"
        self.built = os.path.abspath(f"{words.built or room}/{client}")
        if not os.path.exists(self.built):
            os.makedirs(self.built)
            explored.build(self.client, self.built)

    def bench(self) -> runs.Bench:
        """Returns what its runs have in common. What a check prints is a file of the folder, by the seed."""
        script = f"{self.room}/{self.recording}.script"
        if self.words.action == "search":  # (a replay has its schedule)
            with open(script, "w", encoding="utf-8", errors="surrogateescape") as file:
                file.write(script_of(self.recording))
        options = ["--quick", "--settle", str(self.client.settle), "--debounce", str(START), "--limit", str(LIMIT)]
        check = f'{explored.check_of(self.client)} 2>"{self.room}/{self.name}.${{WT_SEED:-{AT_REST}}}"'
        return runs.Bench(self.words.runner, options, script, check, explored.words_of(self.client, self.built), self.room, LIMIT)

    def wrong(self, seed: object) -> List[str]:
        """Returns what the check said of the last run of a seed."""
        with open(f"{self.room}/{self.name}.{seed}", encoding="utf-8", errors="replace") as file:
            return file.read().splitlines()


# ---- what was found, in a file

def read_found(path: str) -> Dict[str, Any]:
    """Returns what a search has found so far."""
    if not os.path.exists(path):
        return {"seeds": [], "failed": {}, "replayed": {}}
    with open(path, encoding="utf-8") as file:
        return json.load(file)


def keep(path: str, found: Dict[str, Any]) -> None:
    """Writes it, as a whole."""
    with open(f"{path}.new", "w", encoding="utf-8") as file:
        json.dump(found, file, indent=1)
    os.replace(f"{path}.new", path)


# ---- the search

def search_seeds(pair: Pair, bench: runs.Bench, found: Dict[str, Any], path: str) -> None:
    """Runs the script at rest and by seeds, and keeps the schedules that fail."""
    if "at_rest" not in found:
        base = bench.base()
        found["at_rest"] = pair.wrong(AT_REST) if base.fails else []
        found["at_rest_failed"] = replay(pair, bench, base.schedule) if base.fails else 0
        keep(path, found)
    left = [it for it in pair.words.seeds if it not in found["seeds"]]
    steps = ((lambda seed=seed: bench.seed(seed, "lines,reads")) for seed in left)
    for result in search.in_parallel(steps, pair.words.jobs):
        found["seeds"].append(result.seed)
        if result.fails:
            found["failed"][str(result.seed)] = pair.wrong(result.seed)
            with open(f"{path[:-5]}.seed-{result.seed}.schedule", "wb") as file:
                file.write(result.schedule.encoded())
        keep(path, found)


def replay(pair: Pair, bench: runs.Bench, schedule: schedules.Schedule) -> int:
    """Returns how often a schedule fails."""
    steps = ((lambda: bench.replay(schedule)) for _ in range(REPLAYS))
    return sum(it.fails for it in search.in_parallel(steps, pair.words.jobs))


def replay_failed(pair: Pair, bench: runs.Bench, found: Dict[str, Any], path: str) -> None:
    """Replays the schedules of a few failing seeds, until one fails each time."""
    for seed in sorted(found["failed"], key=int)[:TRIED]:
        if REPLAYS in found["replayed"].values():
            return
        if seed not in found["replayed"]:
            found["replayed"][seed] = replay(pair, bench, schedules.read(f"{path[:-5]}.seed-{seed}.schedule"))
            keep(path, found)


def shrink_best(pair: Pair, bench: runs.Bench, found: Dict[str, Any], path: str) -> None:
    """Shrinks the schedule that failed most often, replays the result, and leaves it in lost/."""
    if "shrunk" in found or not found["replayed"] or not pair.words.shrink:
        return
    seed = max(found["replayed"], key=lambda it: found["replayed"][it])
    first = bench.replay(schedules.read(f"{path[:-5]}.seed-{seed}.schedule"))
    best = shrink.Shrinker(bench, first, not found["at_rest"], pair.words.jobs, pair.words.shrink).shrink() if first.fails else None
    if not best:
        return
    failed = replay(pair, bench, best.schedule)
    wrong = pair.wrong(AT_REST) if bench.replay(best.schedule).fails else []
    lines, moves, _ = best.schedule.size()
    found["shrunk"] = {"seed": seed, "lines": lines, "moves": moves, "failed": failed, "wrong": wrong}
    os.makedirs(LOST, exist_ok=True)
    with open(f"{LOST}/{pair.name}.schedule", "wb") as file:
        file.write(best.schedule.encoded())
    keep(path, found)


def search_all(words: argparse.Namespace) -> int:
    """Searches each recording with a client."""
    os.makedirs(words.results, exist_ok=True)
    words.built = words.built or f"{words.results}/built"
    with tempfile.TemporaryDirectory(prefix="watchtree-lost-") as room:
        for recording in words.recordings:
            pair = Pair(words, words.client, recording, room)
            bench, path = pair.bench(), f"{words.results}/{pair.name}.json"
            found = read_found(path)
            search_seeds(pair, bench, found, path)
            replay_failed(pair, bench, found, path)
            shrink_best(pair, bench, found, path)
            print(f"{pair.name}: {summary(found)}", flush=True)
    return 0


def summary(found: Dict[str, Any]) -> str:
    """Returns what was found, in a line."""
    at_rest = f"at rest {len(found['at_rest'])} wrong, " if found["at_rest"] else ""
    text = f"{at_rest}{len(found['failed'])} of {len(found['seeds'])} seeds failed, replays {found['replayed']}"
    return text + (f", shrunk {found['shrunk']}" if "shrunk" in found else "")


# ---- replays of what is stored

def replay_all(words: argparse.Namespace) -> int:
    """Replays stored schedules. Fails if one of them does not fail each time."""
    stored = sorted(it[:-len(f".{words.client}.schedule")] for it in os.listdir(LOST) if it.endswith(f".{words.client}.schedule"))
    is_each = True
    with tempfile.TemporaryDirectory(prefix="watchtree-lost-") as room:
        for recording in words.recordings or stored:
            pair = Pair(words, words.client, recording, room)
            failed = replay(pair, pair.bench(), schedules.read(f"{LOST}/{pair.name}.schedule"))
            print(f"{pair.name}.schedule: replayed {REPLAYS} times, failed {failed} times", flush=True)
            is_each = is_each and failed == REPLAYS
    return 0 if is_each else 1


# ---- the tables

def cell(found: Optional[Dict[str, Any]]) -> str:
    """Returns the seeds that failed, and how many of all replays of a schedule did."""
    if not found or not found["seeds"]:
        return ""
    failed, seeds = len(found["failed"]), len(found["seeds"])
    at_rest = f"; at rest {found['at_rest_failed']}" if found.get("at_rest_failed") else ""
    return f"{failed} of {seeds}" + (f", {best_replays(found)}" if failed else "") + at_rest


def best_replays(found: Dict[str, Any]) -> str:
    """Returns how many of 20 replays failed of the schedule that fails most often."""
    counts = [*found["replayed"].values(), *([found["shrunk"]["failed"]] if "shrunk" in found else [])]
    return str(max(counts)) if counts else "?"


def print_tables(words: argparse.Namespace) -> int:
    """Prints the seeds of each pair, and each shrunk schedule."""
    names = sorted(it[:-7] for it in os.listdir(HERE) if it.endswith(".script"))
    results: Dict[Tuple[str, str], Dict[str, Any]] = {}
    for recording in names:
        for client in explored.ALL:
            path = f"{words.results}/{recording}.{client}.json"
            if os.path.exists(path):
                results[recording, client] = read_found(path)
    print("| Recording | " + " | ".join(f"`{it}`" for it in explored.ALL) + " |")
    print("|---" * (len(explored.ALL) + 1) + "|")
    for recording in names:
        print(f"| `{recording}` | " + " | ".join(cell(results.get((recording, it))) for it in explored.ALL) + " |")
    print("\n| Schedule | Lines | Moves | Replays that failed | Wrong at the end |\n|---|---|---|---|---|")
    for (recording, client), found in results.items():
        if "shrunk" in found:
            it = found["shrunk"]
            wrong = "; ".join(it["wrong"][:2]).replace("/wt", "")
            print(f"| `{recording}.{client}` | {it['lines']} | {it['moves']} | {it['failed']} of {REPLAYS} | {wrong} |")
    return 0


def main() -> int:
    """Does what the words say."""
    parser = argparse.ArgumentParser(usage=__doc__, allow_abbrev=False)
    parser.add_argument("--runner", default=os.path.normpath(f"{HERE}/../../../out/under"))
    parser.add_argument("--seeds", type=lambda word: range(int(word.split("..")[0]), int(word.split("..")[1]) + 1), default=range(1, 21))
    parser.add_argument("--jobs", type=int, default=2)
    parser.add_argument("--shrink", type=int, default=150, help="the most runs that shrinking takes; 0: none")
    parser.add_argument("--built", help="a folder for the clients that are built (RESULTS/built)")
    actions = parser.add_subparsers(dest="action", required=True)
    it = actions.add_parser("search")
    it.add_argument("results")
    it.add_argument("client", choices=list(explored.ALL))
    it.add_argument("recordings", nargs="+")
    it = actions.add_parser("replay")
    it.add_argument("client", choices=list(explored.ALL))
    it.add_argument("recordings", nargs="*")
    actions.add_parser("table").add_argument("results")
    actions.add_parser("script").add_argument("recording")
    words = parser.parse_args()
    if words.action == "script":
        print(script_of(words.recording), end="")
        return 0
    return {"search": search_all, "replay": replay_all, "table": print_tables}[words.action](words)


if __name__ == "__main__":
    sys.exit(main())
