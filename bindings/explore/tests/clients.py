"""The check of the explored clients, explored/check.py, without a runner: what is a loss, and what is not judged."""

import os
import subprocess
import sys
import tempfile
import unittest

CHECK = os.path.join(os.path.dirname(os.path.dirname(os.path.abspath(__file__))), "explored", "check.py")
MADE = """> mkdir /d 755
ok 3
> --
# watch 1 /d 0x100: 1
> mkdir /d/a 755
ok 4
@9 > create /d/a/f 644
ok 5
"""
BEFORE = """> mkdir /d 755
ok 3
> mkdir /d/x 755
ok 4
> create /d/x/y%20z 644
ok 5
> --
# watch 1 /d 0x100: 1
# watch 1 /d/x 0x100: 2
> rename2 /d/x /d/w 1
ok
"""
MOVED = MADE + "> rename /d/a /d/b\nok\n"
THERE, MOVED_THERE = "/ dir\n/d dir\n/d/a dir\n/d/a/f file\n", "/ dir\n/d dir\n/d/b dir\n/d/b/f file\n"


class Clients(unittest.TestCase):
    """The check of the explored clients."""

    def check(self, said: str, trace: str, listing: str, *words: str, status: int = 0) -> str:
        """Returns what the check prints. It has to fail if that is anything."""
        with tempfile.TemporaryDirectory() as out:
            for name, text in (("stdout", said), ("trace", trace), ("listing", listing)):
                with open(f"{out}/{name}", "w", encoding="utf-8") as file:
                    file.write(text)
            done = subprocess.run([sys.executable, CHECK, *words], env={**os.environ, "WT_OUT": out, "WT_STATUS": str(status)},
                                  capture_output=True, text=True, check=False)
        self.assertEqual(done.returncode, 1 if done.stderr else 0)
        return done.stderr

    def test_what_is_lost_and_what_is_gone(self) -> None:
        self.assertEqual(self.check("+ /wt/d/a\n+ /wt/d/a/f\n", MADE, THERE, "signs"), "")
        self.assertEqual(self.check("+ /wt/d/a\n", MADE, THERE, "signs"), "lost: /wt/d/a/f\n")
        self.assertEqual(self.check("+ /wt/d/a\n+ /wt/d/a/f\n+ /wt/d/h\n", MADE, THERE, "signs"), "is gone: /wt/d/h\n")
        self.assertEqual(self.check("+ /wt/d/a\n+ /wt/d/a/f\n", MADE, THERE, "signs", status=1), "the status of the run: 1\n")
        said = "/wt/d/a|CREATE,ISDIR\n/wt/d/a/f|CREATE\n"
        self.assertEqual(self.check(said, MADE, THERE, "inotifywait"), "")
        self.assertEqual(self.check(said + "/wt/d/a/f|DELETE\n", MADE, THERE, "inotifywait"), "lost: /wt/d/a/f\n")

    def test_what_a_moved_directory_brings(self) -> None:
        moved = "- /wt/d/a\n+ /wt/d/b\n"
        self.assertEqual(self.check("+ /wt/d/a\n+ /wt/d/a/f\n" + moved, MOVED, MOVED_THERE, "signs"), "")
        self.assertEqual(self.check("+ /wt/d/a\n" + moved, MOVED, MOVED_THERE, "signs"), "lost: /wt/d/b/f\n")

    def test_what_was_there_before(self) -> None:
        there = "/ dir\n/d dir\n/d/w dir\n/d/w/y%20z file\n"
        self.assertEqual(self.check("- /wt/d/x\n+ /wt/d/w\n", BEFORE, there, "signs"), "")
        self.assertEqual(self.check("", BEFORE, there, "signs"), "lost: /wt/d/w\nlost: /wt/d/w/y z\nis gone: /wt/d/x\n"
                         "is gone: /wt/d/x/y z\n")
        self.assertEqual(self.check("+ /wt/d/w\n", BEFORE, there, "unordered"), "")
        self.assertEqual(self.check("", BEFORE, there, "unordered"), "lost: /wt/d/w\n")
        self.assertEqual(self.check("+ /wt/d/w\n", BEFORE, there, "whole"), "lost: /wt/d/w/y z\n")
        late = BEFORE.replace("# watch 1 /d/x 0x100: 2\n", "")
        self.assertEqual(self.check("", late, there, "signs"), "")

    def test_what_a_directory_brings_twice(self) -> None:
        twice = MOVED + "> rename /d/b /d/c\nok\n"
        there = "/d dir\n/d/c dir\n/d/c/f file\n"
        said = "+ /wt/d/a\n+ /wt/d/a/f\n- /wt/d/a\n+ /wt/d/b\n- /wt/d/b\n+ /wt/d/c\n"
        self.assertEqual(self.check(said, twice, there, "signs"), "")
        self.assertEqual(self.check(said + "- /wt/d/c/f\n", twice, there, "signs"), "lost: /wt/d/c/f\n")

    def test_what_a_client_says_that_it_ignores(self) -> None:
        there = THERE + "/d/f~ file\n"
        said = "+ /wt/d/a\n+ /wt/d/a/f\n"
        self.assertEqual(self.check(said, MADE, there, "signs"), "lost: /wt/d/f~\n")
        self.assertEqual(self.check(said, MADE, there, "--ignore", "~$", "signs"), "")

    def test_which_runs_are_not_judged(self) -> None:
        late = MADE.replace("# watch 1 /d 0x100: 1\n", "") + "# watch 1 /d 0x100: 1\n"
        self.assertEqual(self.check("", late, THERE, "signs"), "")
        self.assertEqual(self.check("", late, THERE, "whole"), "lost: /wt/d/a\nlost: /wt/d/a/f\n")
        self.assertEqual(self.check("", MADE, THERE, "marked"), "")
        marked = MADE.replace("0x100: 1\n", "0x100: 1\n? 7 lookup /d/watching\n")
        self.assertEqual(self.check("+ /wt/d/a\n", marked, THERE, "marked"), "lost: /wt/d/a/f\n")
        self.assertEqual(self.check("", MADE, THERE, "signs", "rename"), "")
        self.assertEqual(self.check("+ /wt/d/b\n", MOVED, MOVED_THERE, "signs", "rename"), "lost: /wt/d/b/f\n")

    def test_events_in_any_order(self) -> None:
        said = "- /wt/d/a\n+ /wt/d/a/f\n+ /wt/d/b/f\n- /wt/d/b/f\n+ /wt/d/b\n+ /wt/d/a\n"
        self.assertEqual(self.check(said, MOVED, MOVED_THERE, "unordered"), "")
        brought = said.replace("+ /wt/d/b/f\n", "")
        self.assertEqual(self.check(brought, MOVED, MOVED_THERE, "unordered"), "")
        self.assertEqual(self.check(brought.replace("+ /wt/d/a/f\n", ""), MOVED, MOVED_THERE, "unordered"), "lost: /wt/d/b/f\n")
        late = MOVED.replace("@9 > create /d/a/f 644\nok 5\n", "") + "> create /d/b/f 644\nok 5\n"
        self.assertEqual(self.check(brought, late, MOVED_THERE, "unordered"), "lost: /wt/d/b/f\n")
