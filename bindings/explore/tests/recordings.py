"""The recordings of real programs: each runs by `run`, `under` and `explore`, and is what its program does when it is made again."""

import argparse
import os
import re
import shutil
import subprocess
import sys
import unittest
from typing import List

from tool import HERE, ToolTest

FOLDER = os.path.normpath(f"{HERE}/../recordings")
UNDER_TESTS = os.path.normpath(f"{HERE}/../../under/tests")
TOP = os.path.normpath(f"{HERE}/../../..")
PROGRAM = os.environ.get("WATCHTREE_PROGRAM", f"{TOP}/crates/watchtree/out/watchtree")
NAMES = sorted(it[:-7] for it in os.listdir(FOLDER) if it.endswith(".script"))
LEFT_OUT = 3


def lines_of(path: str) -> List[str]:
    """Returns the lines of a recording, without comments."""
    with open(path, encoding="utf-8") as file:
        return [line for line in file.read().splitlines() if not line.startswith("#")]


class Recordings(ToolTest):
    """The recordings."""

    def test_each_program_has_one(self) -> None:
        self.assertEqual(NAMES, sorted(os.listdir(f"{FOLDER}/programs")))
        for name in NAMES:
            with open(f"{FOLDER}/{name}.script", encoding="utf-8") as file:
                self.assertRegex(file.read(), rf"^# (.*\n# )*Made by `make-recordings {name}` with [^,\n]+.*\.\n[^#]", name)

    def test_what_was_lost_can_be_replayed(self) -> None:
        sys.path.insert(0, FOLDER)
        import lost
        schedules = sorted(os.listdir(lost.LOST))
        self.assertIn("git-checkout-error.node.schedule", schedules)
        for name in schedules:
            recording, client, _ = name.split(".")
            built = f"{self.room}/built"
            os.makedirs(f"{built}/{client}", exist_ok=True)
            words = argparse.Namespace(action="replay", runner="under", built=built)
            bench = lost.Pair(words, client, recording, self.room).bench()
            self.assertIn(f"{recording}.{client}", bench.check)

    def set_up_of(self, name: str) -> str:
        """Writes a recording as lines that all run before a program starts."""
        return self.write(f"{name}.set-up", *(it for it in lines_of(f"{FOLDER}/{name}.script") if it != "--"))

    def test_each_runs_by_run_and_makes_the_same_tree(self) -> None:
        if not os.access(PROGRAM, os.X_OK):
            self.skipTest("the program is not built")
        for name in NAMES:
            set_up, listing = self.set_up_of(name), self.write(f"{name}.listing")
            with open(listing, "wb") as file:
                subprocess.run([self.runner, set_up, "--", "sh", f"{UNDER_TESTS}/inside/listing", "/wt"], stdin=subprocess.DEVNULL,
                               stdout=file, check=True)
            script = self.write(f"{name}.script", *lines_of(f"{FOLDER}/{name}.script"))
            made = self.run_tool([sys.executable, f"{UNDER_TESTS}/run_listing.py", PROGRAM, script, listing])
            self.assertEqual((made.returncode, made.stdout), (0, self.read(f"{name}.listing")), name)

    def test_each_runs_by_under(self) -> None:
        for name in NAMES:
            self.under(f"{name}.before", [self.set_up_of(name)], ["true"])
            said = self.under(name, [f"{FOLDER}/{name}.script"], [self.built("recursive"), "/wt/d", "correct"])
            self.assertEqual(said.returncode, 0, said.stderr)
            self.assertEqual(self.read(f"{name}/listing"), self.read(f"{name}.before/listing"), name)

    def test_each_runs_by_explore(self) -> None:
        for name in NAMES:
            said = self.explore(f"{FOLDER}/{name}.script", "true", [self.built("recursive"), "/wt/d", "correct"], "--seeds", "1..2")
            self.assertEqual(said.returncode, 0, said.stderr)
            self.assertIn("2 runs, 0 failed", said.stdout, name)
            self.assertNotIn("ended before", said.stdout, name)

    def test_the_page_has_what_each_raises(self) -> None:
        said = self.run_tool([sys.executable, f"{FOLDER}/raised.py", "--library", os.path.dirname(self.runner), "--rows"])
        self.assertEqual(said.returncode, 0, said.stderr)
        with open(f"{TOP}/docs/RECORDED.md", encoding="utf-8") as page:
            rows = page.read().splitlines()
        self.assertEqual([it for it in said.stdout.splitlines() if it not in rows], [])


# What two recordings of a program have not in common: the bytes that it writes, the names that it draws at random or by the number
# of its process, and the lengths of files that have this number.
RANDOM = [(r"^(write \S+ \d+) .*", r"\1"), (r"(tmp_[a-z]*_|\.git/t|\.#-emacs)[A-Za-z0-9]{6}", r"\1"),
          (r"(index\.stash\.)\d+", r"\1"), (r"(/\.[^ /]*\.)[A-Za-z0-9]{6}(?= |$)", r"\1"), (r"[a-z0-9_]{8}(\.tmp)\b", r"\1"),
          (r"^(write \S+(/\.#-emacs|\.keep)) .*", r"\1")]
# These make calls in several processes or threads.
IN_ANY_ORDER = ("rsync", "npm")


def alike(path: str, name: str) -> List[str]:
    """Returns what two recordings of a program have in common."""
    lines = lines_of(path)
    for pattern, text in RANDOM:
        lines = [re.sub(pattern, text, it) for it in lines]
    return sorted(lines) if name in IN_ANY_ORDER else lines


class Made(ToolTest):
    """The recordings, made again."""

    def make(self, name: str) -> bool:
        """Makes a recording again. Whether its program is here."""
        said = self.run_tool([f"{FOLDER}/make-recordings", "--record", f"{self.runner} --record", "--out", self.room, name])
        if said.returncode != LEFT_OUT:
            self.assertEqual(said.returncode, 0, said.stdout + said.stderr)
        return said.returncode == 0

    def test_each_is_what_its_program_does(self) -> None:
        for name in NAMES:
            with self.subTest(name):
                if not self.make(name):
                    continue
                stored, made = f"{FOLDER}/{name}.script", f"{self.room}/{name}.script"
                # (those that are kept are root's, as whom tar and sqlite3 set modes too)
                if self.versions(stored) == self.versions(made) and os.geteuid() == 0:
                    self.assertEqual(alike(stored, name), alike(made, name))
                shutil.move(made, f"{made}.first")
                self.make(name)
                self.assertEqual(alike(f"{made}.first", name), alike(made, name))

    def versions(self, path: str) -> str:
        """Returns the line that has the versions of the programs."""
        with open(path, encoding="utf-8") as file:
            return next(line for line in file if line.startswith("# Made by "))


if __name__ == "__main__":
    unittest.main()
