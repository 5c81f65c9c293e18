"""The command line of watchtree explore."""

import argparse
import os
import sys
from typing import List, NoReturn, Tuple

from runs import TOOL_FAULT
from shards import Shard

USAGE = """watchtree explore [OPTIONS] SCRIPT --check COMMAND -- PROGRAM [ARGUMENT..]
       watchtree explore [OPTIONS] SCRIPT --check COMMAND -- CLIENT [ARGUMENT..] --and PROGRAM [ARGUMENT..]"""
VARIED = ("lines", "reads", "queue")
REPORTS = ("junit", "json")
# The word before a second program.
SECOND = "--and"


class Words(argparse.ArgumentParser):
    """A command line whose faults are those of the tool."""

    def error(self, message: str) -> NoReturn:
        self.print_usage(sys.stderr)
        self.exit(TOOL_FAULT, f"watchtree explore: {message}\n")


def _range(word: str) -> range:
    first, dots, last = word.partition("..")
    if not dots or not first.isdecimal() or not last.isdecimal() or int(last) < int(first):
        raise argparse.ArgumentTypeError(f"expected A..B, the first seed and the last, such as 1..200, not '{word}'")
    return range(int(first), int(last) + 1)


def _vary(word: str) -> str:
    if not word or any(it not in VARIED for it in word.split(",")):
        raise argparse.ArgumentTypeError(f"expected words of lines, reads and queue, such as lines,reads, not '{word}'")
    return word


def _count(word: str) -> int:
    if not word.isdecimal() or int(word) < 1:
        raise argparse.ArgumentTypeError(f"expected a number from 1 on, not '{word}'")
    return int(word)


def _shard(word: str) -> Shard:
    number, slash, count = word.partition("/")
    if not slash or not number.isdecimal() or not count.isdecimal() or not 1 <= int(number) <= int(count):
        raise argparse.ArgumentTypeError(f"expected K/N, a shard and how many there are, such as 1/4 to 4/4, not '{word}'")
    return Shard(int(number), int(count))


def _minutes(word: str) -> float:
    whole, _, part = word.partition(".")
    if not (whole + part).isdecimal() or float(word) <= 0:
        raise argparse.ArgumentTypeError(f"expected minutes, such as 30 or 0.5, not '{word}'")
    return float(word)


def _report(word: str) -> Tuple[str, str]:
    kind, equals, path = word.partition("=")
    if kind not in REPORTS or not path:
        raise argparse.ArgumentTypeError(f"expected junit=FILE or json=FILE, not '{word}'")
    return kind, path


def _add_search(parser: argparse.ArgumentParser) -> None:
    how = parser.add_mutually_exclusive_group()
    how.add_argument("--seeds", type=_range, metavar="A..B", help="a run for each seed (1..200)")
    how.add_argument("--moves", type=int, choices=(1, 2), help="every schedule with at most 1 or 2 moves")
    parser.add_argument("--vary", type=_vary, default="lines,reads", metavar="WORDS", help="lines, reads, queue (lines,reads)")
    parser.add_argument("--first", action="store_true", help="stop at the first failure")
    parser.add_argument("--shard", type=_shard, metavar="K/N", help="search part K of N: no other part has its runs")
    parser.add_argument("--merge", nargs="+", metavar="DIR", help="behind SCRIPT: shrink and report what all N parts found")
    parser.add_argument("--minutes", type=_minutes, metavar="M", help="stop after M minutes; --resume goes on")
    parser.add_argument("--resume", action="store_true", help="go on with the search that stopped in --out")


def _add_results(parser: argparse.ArgumentParser) -> None:
    parser.add_argument("--out", metavar="DIR", help="where failing schedules are left (SCRIPT.failures)")
    parser.add_argument("--report", type=_report, action="append", default=[], metavar="KIND=FILE",
                        help="write a report: junit=FILE or json=FILE")
    parser.add_argument("--jobs", type=_count, default=len(os.sched_getaffinity(0)), help="runs at once (one a CPU)")
    parser.add_argument("--shrink-runs", type=int, default=1000, metavar="N", help="the most runs that shrinking takes (1000)")
    parser.add_argument("--replays", type=_count, default=20, metavar="N", help="how often the shrunk one is replayed (20)")


def _parser() -> argparse.ArgumentParser:
    parser = Words(prog="watchtree explore", usage=USAGE, allow_abbrev=False)
    parser.add_argument("script", metavar="SCRIPT")
    parser.add_argument("--check", required=True, metavar="COMMAND", help="command that judges a run: 0 if it is right")
    _add_search(parser)
    _add_results(parser)
    parser.add_argument("--timers", action="store_true", help="always wait for --debounce and --settle")
    parser.add_argument("--limit", type=_count, metavar="MS", help="the most that a run takes, and a check (none)")
    for name, what in (("queue", "N"), ("settle", "MS"), ("debounce", "MS"), ("stall", "MS"), ("dir", "DIR"),
                       ("end", "SIGNAL"), ("outside", "HOW")):
        parser.add_argument(f"--{name}", metavar=what, help="see watchtree under --help")
    parser.add_argument("--runner", required=True, help=argparse.SUPPRESS)
    parser.add_argument("--command", default="watchtree", help=argparse.SUPPRESS)  # what the user called
    parser.add_argument("--library", help=argparse.SUPPRESS)  # where Python finds watchtree_trace, if not beside the runner
    return parser


def read_words(words: List[str]) -> Tuple[argparse.Namespace, List[str]]:
    """Reads the command line: the options, and the program."""
    parser = _parser()
    if "--" not in words:
        parser.error("there is no -- and program") if not {"-h", "--help"} & set(words) else parser.parse_args(words)
    at = words.index("--")
    said = parser.parse_args(words[:at])
    if not words[at + 1 :]:
        parser.error("there is no program")
    wrong = _conflict(said)
    if wrong:
        parser.error(wrong)
    if not said.moves:
        said.seeds = said.seeds or range(1, 201)
    said.out = said.out or _folder(said)
    return said, words[at + 1 :]


def _conflict(said: argparse.Namespace) -> str:
    """Returns what is wrong with options that do not go together, or nothing."""
    if said.moves and "queue" in said.vary:
        return "--moves does not vary the queue: give --queue N"
    if said.first and said.shard:
        return "--first ends one search: it does not go with --shard"
    for name in ("shard", "minutes", "resume", "first"):
        if said.merge and getattr(said, name):
            return f"--merge searches nothing: it does not go with --{name}"
    kinds = [kind for kind, _ in said.report]
    if len(set(kinds)) < len(kinds):
        return "one --report of each kind"
    return ""


def _folder(said: argparse.Namespace) -> str:
    """Returns where failing schedules are left without --out."""
    name = os.path.basename(said.script)
    return f"{name}.shard-{said.shard.number}-of-{said.shard.count}" if said.shard else f"{name}.failures"


def runner_options(said: argparse.Namespace) -> List[str]:
    """Returns the options of the runner."""
    out = [] if said.timers else ["--quick"]
    for name in ("queue", "settle", "debounce", "stall", "limit", "dir", "end", "outside"):
        value = getattr(said, name)
        if value is not None:
            out.append(f"--{name}={value}")
    return out
