#!/usr/bin/python3
"""How much longer `make` takes if it is recorded: overhead.py [--runner RUNNER] [--files N] [--times N]

It builds a project of N files in C on a tree, by turns under `watchtree under` and under `watchtree record`, and prints the time of
each, the medians, their ratio, and the load of the machine before and after.
"""

import argparse
import os
import resource
import statistics
import subprocess
import sys
import tempfile
import time
from typing import List, Tuple

HERE = os.path.dirname(os.path.abspath(__file__))
MAKEFILE = "objects = $(patsubst %.c,%.o,$(wildcard *.c))\nprogram: $(objects)\n\tgcc -o $@ $^\n%.o: %.c\n\tgcc -O1 -c -o $@ $<\n"


def project(count: int) -> List[str]:
    """Returns the lines of a script that make a project in /d."""
    names = [f"part{it}" for it in range(count)]
    files = {f"{it}.c": f"#include <stdio.h>\nvoid {it}(void) {{ puts(\"{it}\"); }}\n" for it in names}
    calls = "".join(f"void {it}(void);\n" for it in names), "".join(f"    {it}();\n" for it in names)
    files["main.c"] = f"{calls[0]}int main(void) {{\n{calls[1]}}}\n"
    files["Makefile"] = MAKEFILE
    lines = ["mkdir /d 755"]
    for name, text in files.items():
        lines += [f"create /d/{name} 644", f"write /d/{name} 0 {text.encode().hex()}"]
    return lines


def timed(command: List[str]) -> Tuple[float, float]:
    """Runs a command. Returns its time and its CPU time."""
    before, start = resource.getrusage(resource.RUSAGE_CHILDREN), time.monotonic()
    subprocess.run(command, stdin=subprocess.DEVNULL, check=True)
    end, after = time.monotonic(), resource.getrusage(resource.RUSAGE_CHILDREN)
    return end - start, after.ru_utime + after.ru_stime - before.ru_utime - before.ru_stime


def main() -> int:
    """Measures."""
    parser = argparse.ArgumentParser(usage=__doc__, allow_abbrev=False)
    parser.add_argument("--runner", default=os.path.normpath(f"{HERE}/../../../out/under"))
    parser.add_argument("--files", type=int, default=20)
    parser.add_argument("--times", type=int, default=5)
    words = parser.parse_args()
    print(f"load before: {os.getloadavg()[0]:.1f}")
    with tempfile.TemporaryDirectory(prefix="watchtree-overhead-") as room:
        with open(f"{room}/script", "w", encoding="utf-8") as file:
            file.writelines(f"{it}\n" for it in project(words.files))
        make = [f"{room}/script", "--", "make", "-s", "-C", "/wt/d"]
        commands = {"under": [words.runner, *make], "record": [words.runner, "--record", "--out", f"{room}/recording", *make]}
        times = {name: [] for name in commands}  # type: dict[str, list[tuple[float, float]]]
        for _ in range(words.times):
            for name, command in commands.items():
                times[name].append(timed(command))
                print(f"{name:6} {times[name][-1][0]:.2f} s, {times[name][-1][1]:.2f} s of CPU time", flush=True)
    for at, what in ((0, "time"), (1, "CPU time")):
        under, record = (statistics.median(it[at] for it in times[name]) for name in ("under", "record"))
        print(f"medians of the {what}: under {under:.2f} s, record {record:.2f} s, ratio {record / under:.3f}")
    print(f"load after: {os.getloadavg()[0]:.1f}")
    return 0


if __name__ == "__main__":
    sys.exit(main())
