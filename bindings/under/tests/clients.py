#!/usr/bin/python3
"""Clients of inotify under `watchtree under`, each beside the same on a disk.

    clients.py [--only NAME] [--jobs N] [--rows] UNDER

A client passes if it reports on the tree what it reports on the disk, except for classes of docs/LINUX.md, and what its
case says that it must report. It prints `ok NAME: HOW`, `FAILED NAME: WHY` or `left out NAME: WHY` for each; with --rows, the rows
of the table in docs/UNDER-CLIENTS.md.
"""
import argparse
import collections
import concurrent.futures
import difflib
import os
import re
import subprocess
import sys
import tempfile

sys.dont_write_bytecode = True
from cases import CASES  # noqa: E402

TESTS = os.path.dirname(os.path.abspath(__file__))
HERE = os.path.join(TESTS, "clients")
TABLE = os.path.join(TESTS, "../../../docs/UNDER-CLIENTS.md")
# What a class of docs/LINUX.md makes of a line: what a disk prints besides.
CLASSES = {
    "list-events": re.compile(r"(?i)(open|access|close(_nowrite|_write)?)\S*[, |]+(in_)?is_?dir|is_?dir\S*[, |]+(open|access|close)"),
}
# Seconds that a client may take. It may be given several goes: the timers of many go by the clock of a machine that may be
# busy, on a disk too.
LIMIT, BUILD_LIMIT, GOES = 200, 900, 3
Told = collections.namedtuple("Told", "status text")


def version(case):
    """Debian's version of the client; nothing where it is not installed."""
    for package in case.packages:
        found = subprocess.run(["dpkg-query", "-W", "-f", "${Status} ${Version}", package], capture_output=True, text=True)
        if not found.stdout.startswith("install ok installed "):
            return None
    first = subprocess.run(["dpkg-query", "-W", "-f", "${Version}", case.packages[0]], capture_output=True, text=True)
    return first.stdout


class Bench:
    """The folder of a run: what was built, and a folder for each side of each client."""

    def __init__(self, under, room):
        self.under, self.room, self.bin = under, room, os.path.join(room, "bin")
        os.mkdir(self.bin)

    def shell(self, text, **more):
        """A shell's text, with the folders that it names."""
        return text.format(here=HERE, bin=self.bin, **more)

    def build(self, case):
        """Builds the client. What failed, or nothing."""
        if not case.build:
            return None
        try:
            ran = subprocess.run(["sh", "-c", self.shell(case.build)], capture_output=True, text=True, timeout=BUILD_LIMIT)
        except subprocess.TimeoutExpired:
            return f"not built after {BUILD_LIMIT} s"
        return f"not built: {ran.stdout} {ran.stderr}" if ran.returncode else None

    def side(self, case, name, words, root):
        """What the client prints when some words start it, and its status."""
        room = tempfile.mkdtemp(prefix=f"{case.name.replace('/', '-')} {name} ".replace(" ", "-"), dir=self.room)
        said = self.shell(case.start, d=root + "/d", root=root, room=room)
        try:
            ran = subprocess.run([*words, "sh", "-c", said], stdin=subprocess.DEVNULL, capture_output=True,
                                 timeout=LIMIT, start_new_session=True)
        except subprocess.TimeoutExpired as late:
            return Told(None, f"not over after {LIMIT} s\n{late.stdout}\n{late.stderr}")
        text = ran.stdout.decode(errors="replace").replace(room, "ROOM").replace(root + "/", "/wt/")
        if case.varies:
            text = re.sub("(?m)" + case.varies, "", text)
        return Told(ran.returncode, text if ran.returncode == 0 else text + ran.stderr.decode(errors="replace"))

    def both(self, case):
        """What the client reports on the tree, and on a disk."""
        script = os.path.join(HERE, "scripts", case.script)
        waits = ["--settle", str(case.settle), "--debounce", str(case.debounce)]
        disk = tempfile.mkdtemp(prefix="disk-", dir=self.room)
        there = self.side(case, "disk", ["/usr/bin/python3", os.path.join(TESTS, "disk.py"), *waits, script, disk, "--"], disk)
        here = self.side(case, "tree", [self.under, *waits, *case.options, script, "--"], "/wt")
        return here, there


def verdict(case, here, there):
    """How the tree differs from the disk, and whether it may."""
    if here.status != 0 or there.status != 0:
        return False, f"status {here.status}, on a disk {there.status}\n{here.text}\non a disk\n{there.text}"
    for word in case.tells:
        for side, told in ("the tree", here), ("the disk", there):
            if word not in re.split(r"[^\w]+", told.text):
                return False, f"not reported on {side}: {word}\n{told.text}"
    left, right = here.text.splitlines(), there.text.splitlines()
    kept = [line for line in right if not any(CLASSES[name].search(line) for name in case.but)]
    how = "same"
    if case.any_order:
        how, left, right, kept = "same, in any order", sorted(left), sorted(right), sorted(kept)
    if left == right:
        return True, how
    if left == kept:
        return True, f"{how} but for " + ", ".join(f"`{name}`" for name in case.but)
    return False, "\n".join(difflib.unified_diff(kept, left, "disk", "tree", lineterm=""))


def is_in_table(case, how):
    """Whether docs/UNDER-CLIENTS.md says so of the client."""
    with open(TABLE) as it:
        return any(line.startswith(f"| {case.name} | ") and line.endswith(f" | {how} |\n") for line in it)


def run(bench, case):
    """The client, its version, whether it reports the same (None if it is skipped), and how or why."""
    found = version(case)
    if found is None:
        return case, None, None, "wants " + " ".join(case.packages)
    if case.root and os.geteuid() != 0:
        return case, found, None, "it wants root"
    failed = bench.build(case)
    if failed:
        return case, found, False, failed
    for _ in range(GOES):
        is_same, how = verdict(case, *bench.both(case))
        if is_same:
            break
    if is_same and case.options:
        how += f" (with `{' '.join(case.options)}`)"
    return case, found, is_same, how


def row(case, found, is_same, how):
    """The row of the table."""
    return f"| {case.name} | {case.packages[0]} {found} | {how if is_same else 'fails'} |"


def main():
    words = argparse.ArgumentParser()
    words.add_argument("--only", default="")
    words.add_argument("--jobs", type=int, default=2)
    words.add_argument("--rows", action="store_true")
    words.add_argument("under")
    said = words.parse_args()
    failed = 0
    with tempfile.TemporaryDirectory(prefix="watchtree-clients-") as room:
        bench = Bench(said.under, room)
        chosen = [it for it in CASES if said.only in it.name]
        with concurrent.futures.ThreadPoolExecutor(said.jobs) as pool:
            for case, found, is_same, how in pool.map(lambda it: run(bench, it), chosen):
                if is_same and not said.rows and not is_in_table(case, how):
                    is_same, how = False, f"docs/UNDER-CLIENTS.md does not say of it: {how}"
                failed += is_same is False
                word = {True: "ok", False: "FAILED", None: "left out"}[is_same]
                print(row(case, found, is_same, how) if said.rows else f"{word} {case.name}: {how}", flush=True)
    return failed != 0


sys.exit(main())
