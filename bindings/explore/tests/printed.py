"""What a search prints, and what README says of it."""

import os
import re
import shlex
import shutil
import subprocess
import sys

from tool import EXAMPLES, HERE, MAIN, ToolTest

TOP = os.path.abspath(f"{HERE}/../../..")
CLONE, WORDS = f"{TOP}/watchtree", f"{TOP}/bindings/words"


class Counts(ToolTest):
    """How many runs failed."""

    def test_no_more_fail_than_there_are(self) -> None:
        for how in (["--seeds", "1..3"], ["--moves", "1", "--vary", "lines"]):
            said = self.explore(f"{EXAMPLES}/recursive.script", "false", [self.built("recursive"), "/wt/d"], *how,
                                "--shrink-runs", "3", "--replays", "1")
            self.assertEqual(said.returncode, 1, said.stdout + said.stderr)
            found = re.search(r"the check fails\n(\d+) runs, (\d+) failed ", said.stdout)
            self.assertTrue(found, said.stdout)
            self.assertEqual(found[1], found[2])
            if "--seeds" in how:
                self.assertEqual(found[1], "3")


class Commands(ToolTest):
    """The last line is a command that the user has."""

    def again(self, command: str, path: str, cwd: str) -> str:
        """Explores by a command, and runs the command that was printed last. Returns its first word."""
        where = {**os.environ, "PATH": f"{path}:{os.environ['PATH']}"}
        words = [command, "explore", f"{EXAMPLES}/recursive.script", "--check", "false", "--seeds", "1..1",
                 "--shrink-runs", "3", "--replays", "1", "--", self.built("recursive"), "/wt/d"]
        said = subprocess.run(words, env=where, cwd=cwd, capture_output=True, text=True, check=False)
        self.assertEqual(said.returncode, 1, said.stdout + said.stderr)
        last = said.stdout.splitlines()[-1]
        self.assertTrue(last.startswith("again: "), said.stdout)
        again = shlex.split(last[len("again: "):])
        self.assertEqual(again[1], "under")
        done = subprocess.run(again, env=where, cwd=cwd, capture_output=True, text=True, check=False)
        self.assertIn(done.returncode, (0, 122), done.stderr)
        return again[0]

    def test_the_installed_one(self) -> None:
        self.install()
        self.assertEqual(self.again("watchtree", f"{self.room}/prefix/bin", self.room), "watchtree")
        shutil.rmtree(f"{self.room}/recursive.script.failures")
        self.assertEqual(self.again("prefix/bin/watchtree", "/nonexistent", self.room), "prefix/bin/watchtree")

    def test_that_of_a_clone(self) -> None:
        clone = f"{self.room}/clone"
        for name in ("crates", "bindings/under/src", "out"):
            os.makedirs(f"{clone}/{name}")
        for name in ("crates.txt", "VERSION", "bindings/under/build", "out/libwatchtree.so"):
            self.write(f"clone/{name}")
        os.symlink(os.path.dirname(MAIN), f"{clone}/bindings/explore")
        shutil.copy(CLONE, f"{clone}/watchtree")
        shutil.copy(WORDS, f"{clone}/bindings/words")
        os.utime(f"{clone}/out/libwatchtree.so")
        # (made last: the library and the runner are newer than their sources)
        shutil.copy(self.runner, f"{clone}/out/under")
        self.assertEqual(self.again("./watchtree", "/nonexistent", clone), "./watchtree")

    def test_words_of_any_bytes(self) -> None:
        words = [sys.executable, MAIN, "--runner", self.runner, "--seeds", "1..1", "--shrink-runs", "3",
                 "--replays", "1", f"{EXAMPLES}/recursive.script", "--check", "false", "--",
                 self.built("recursive"), "/wt/d", b"\xff"]
        # (as in a locale whose name is not C)
        strict = {**os.environ, "PYTHONIOENCODING": "utf-8:strict"}
        said = subprocess.run(words, cwd=self.room, env=strict, capture_output=True, check=False)
        self.assertEqual(said.returncode, 1, said.stderr)
        self.assertTrue(said.stdout.endswith(b" /wt/d '\xff'\n"), said.stdout)
        self.assertEqual(said.stderr, b"")


class Pages(ToolTest):
    """What README lets a user type leaves nothing that git reports."""

    def test_readme_names_what_is_left(self) -> None:
        with open(f"{TOP}/README.md", encoding="utf-8") as file:
            section = re.search(r"^## Find a race\n.*?^## ", file.read(), re.M | re.S)[0]
        self.assertIn(">script\n", section)
        self.assertIn("`script.failures/`", section)

    def test_git_ignores_it(self) -> None:
        if not os.path.exists(f"{TOP}/.git") or not shutil.which("git"):
            self.skipTest("this is no git checkout, or there is no git")
        for path in ("script", "script.failures/shrunk.schedule", "script.failures/explore.files",
                     "script.shard-1-of-4/search.json"):
            said = subprocess.run(["git", "-C", TOP, "check-ignore", "-q", path], check=False)
            self.assertEqual(said.returncode, 0, path)
