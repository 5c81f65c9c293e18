#!/usr/bin/python3
"""Runs each of ten programs again and again with its script. All traces and outputs must be the same.

    determinism.py [--count N] [--busy N] [--jobs N] UNDER BIN

BIN has `waits` and `recursive`. --busy N starts N processes that never rest beside the runs. It prints `ok NAME: ..`,
`FAILED NAME: WHY` or `left out NAME: WHY` for each.
"""
import argparse
import concurrent.futures
import difflib
import os
import shutil
import subprocess
import sys
import tempfile

TESTS = os.path.dirname(os.path.abspath(__file__))
CLIENTS = os.path.join(TESTS, "clients")
LIMIT = 300
# A name, the script, options, the program, and what it needs.
RUNS = (
    ("inotifywait", "clients/scripts/basic", [], "inotifywait -q -m /wt/d"),
    ("inotifywait -r, a seed", "clients/scripts/basic", ["--seed", "5"], "inotifywait -q -m -r /wt/d"),
    ("a static program", "race.script", [], "{bin}/recursive /wt/d correct"),
    ("a static program, a seed", "race.script", ["--seed", "7"], "{bin}/recursive /wt/d correct"),
    ("four readers", "waits.script", [], "{bin}/waits readers /wt/d"),
    ("four threads on one epoll", "waits.script", [], "{bin}/waits epoll-threads /wt/d"),
    ("four on an edge, a seed", "waits.script", ["--seed", "3"], "{bin}/waits epoll-edge-threads /wt/d"),
    ("a child with the descriptor", "waits.script", [], "{bin}/waits message /wt/d"),
    ("Python, a seed", "clients/scripts/basic", ["--seed", "11"], f"/usr/bin/python3 {TESTS}/list_watch.py /wt/d"),
    ("Node", "clients/scripts/basic", [], f"node {CLIENTS}/fs_watch.js /wt/d"),
)


def once(under, words, script, options, room):
    """The trace and the output of a run."""
    out = tempfile.mkdtemp(dir=room)
    try:
        ran = subprocess.run([under, *options, "--debounce", "30", "--settle", "60", "--out", f"{out}/o", f"{TESTS}/{script}", "--", *words],
                             stdin=subprocess.DEVNULL, capture_output=True, timeout=LIMIT, text=True)
        with open(f"{out}/o/trace") as trace, open(f"{out}/o/stdout") as printed:
            return trace.read(), printed.read() + f"status {ran.returncode}\n{ran.stderr}"
    finally:
        shutil.rmtree(out)


def main():
    words = argparse.ArgumentParser()
    words.add_argument("--count", type=int, default=20)
    words.add_argument("--busy", type=int, default=0)
    words.add_argument("--jobs", type=int, default=2)
    words.add_argument("under")
    words.add_argument("bin")
    said = words.parse_args()
    busy = [subprocess.Popen(["sh", "-c", "while :; do :; done"]) for _ in range(said.busy)]
    failed = 0
    try:
        with tempfile.TemporaryDirectory(prefix="watchtree-determinism-") as room, \
                concurrent.futures.ThreadPoolExecutor(said.jobs) as pool:
            for name, script, options, program in RUNS:
                program = program.format(bin=said.bin).split()
                if not shutil.which(program[0]):
                    print(f"left out {name}: there is no {program[0]}")
                    continue
                runs = [pool.submit(once, said.under, program, script, options, room) for _ in range(said.count)]
                told = [run.result() for run in runs]
                traces, outputs = ({it[at] for it in told} for at in (0, 1))
                if len(traces) == len(outputs) == 1:
                    print(f"ok {name}: one trace in {said.count} runs", flush=True)
                    continue
                failed += 1
                print(f"FAILED {name}: {len(traces)} traces, {len(outputs)} outputs in {said.count} runs")
                first, second = sorted(traces if len(traces) > 1 else outputs)[:2]
                print("\n".join(difflib.unified_diff(first.splitlines(), second.splitlines(), lineterm="", n=2)), flush=True)
    finally:
        for it in busy:
            it.kill()
            it.wait()
    return failed != 0


sys.exit(main())
