#!/usr/bin/python3
"""watchtree explore: runs a program under many schedules, says which break it, and shrinks one. docs/EXPLORE.md says how."""

import os
import signal
import stat
import sys
import traceback
from typing import List

sys.dont_write_bytecode = True
sys.path.insert(0, os.path.dirname(os.path.abspath(__file__)))
import schedules  # noqa: E402
from children import Children, Ended  # noqa: E402
from explorer import Explorer  # noqa: E402
from options import SECOND, read_words  # noqa: E402
from runs import TOOL_FAULT  # noqa: E402
from schedules import Fault  # noqa: E402

# The first word below the keeper.
KEPT = "--kept"


def check_script(path: str, has_second: bool) -> None:
    """Looks at the script before anything runs. Without lines to move there has to be a second program."""
    try:
        mode = os.stat(path).st_mode
        if not stat.S_ISREG(mode):
            raise Fault(f"{path}: the script must be a file, since each run reads it")
        schedule = schedules.read(path)
    except OSError as fault:
        raise Fault(f"{path}: {fault.strerror}") from fault
    if not schedule.lines() and not has_second:
        raise Fault(f"{path}: no line happens after --")


def explore(explorer: Explorer) -> int:
    """Explores, and has each fault in the reports, which are there from the start on."""
    explorer.reports.write(explorer.report)
    try:
        check_script(explorer.said.script, SECOND in explorer.program)
        return explorer.explore()
    except (Fault, OSError) as fault:
        explorer.report.fault = text_of(fault)
        explorer.reports.write(explorer.report)
        raise
    except (KeyboardInterrupt, Ended):
        explorer.report.fault = f"signal {explorer.children.ended_by} ended the search"
        explorer.reports.write(explorer.report)
        raise


def text_of(fault: Exception) -> str:
    """Returns what is wrong."""
    if not isinstance(fault, OSError):
        return str(fault)
    return (f"{fault.filename}: " if fault.filename else "") + str(fault.strerror)


def main(words: List[str]) -> int:
    """Runs the tool."""
    signal.signal(signal.SIGPIPE, signal.SIG_DFL)
    children = Children()
    children.take_signals()
    # Words of the command line may have any bytes, and are printed as they were.
    sys.stdout.reconfigure(errors="surrogateescape")  # type: ignore[union-attr]
    said, program = read_words(words)
    try:
        return explore(Explorer(said, program, children))
    except (Fault, OSError) as fault:
        print(f"watchtree explore: {text_of(fault)}", file=sys.stderr)
        return TOOL_FAULT
    except (KeyboardInterrupt, Ended):
        return 128 + children.ended_by
    except Exception:  # pylint: disable=broad-except
        # The status of an exception that nobody takes is 1, which means that a schedule fails.
        traceback.print_exc()
        print("watchtree explore: this is a fault of the tool", file=sys.stderr)
        return TOOL_FAULT


def start_kept(words: List[str]) -> int:
    """Starts this program again below a keeper of the runner: if it is killed, no run, check or folder stays behind."""
    runner = read_words(words)[0].runner
    try:
        os.execv(runner, [runner, "--explore", sys.executable, os.path.abspath(__file__), KEPT, *words])
    except OSError as fault:
        print(f"watchtree explore: {runner}: {fault.strerror}", file=sys.stderr)
    return TOOL_FAULT


def flushed(status: int) -> int:
    """Returns the exit status after all is written: that of a fault if it cannot be."""
    try:
        sys.stdout.flush()
    except OSError as fault:
        print(f"watchtree explore: standard output: {fault.strerror}", file=sys.stderr)
        # (Python would write it again at its end, and exit with a status of its own)
        os.dup2(os.open(os.devnull, os.O_WRONLY), sys.stdout.fileno())
        return TOOL_FAULT
    return status


if __name__ == "__main__":
    sys.exit(flushed(main(sys.argv[2:]) if sys.argv[1:2] == [KEPT] else start_kept(sys.argv[1:])))
