"""The folder of --out: a search removes what an earlier one left, and nothing else."""

import hashlib
import io
import os
from typing import Dict

import report
from folder import HEAD, LIST, Folder
from schedules import Fault
from tool import EXAMPLES, ToolTest


class Folders(ToolTest):
    """What is written, removed and kept, without a search."""

    def setUp(self) -> None:
        super().setUp()
        self.path = f"{self.room}/out"
        # (two tests go at once in this process, so standard error is not of one alone)
        self.said = io.StringIO()
        self.folder = Folder(self.path, lambda name: report.is_left(name, range(1, 4)), self.said)

    def search(self, files: Dict[str, str], run: Dict[str, str]) -> str:
        """Does what a search does with its folder. Returns what it says."""
        before = len(self.said.getvalue())
        self.folder.check()
        self.folder.clear()
        for name, text in files.items():
            self.folder.write(name, text.encode())
        with self.folder.directory("run") as path:
            for name, text in run.items():
                os.makedirs(os.path.dirname(f"{path}/{name}"), exist_ok=True)
                self.write(f"out/run/{name}", text)
        return self.said.getvalue()[before:]

    def there(self) -> "set[str]":
        """Returns all that is in the folder."""
        return {os.path.relpath(f"{above}/{name}", self.path) for above, directories, files in os.walk(self.path)
                for name in directories + files}

    def stays(self, path: str) -> None:
        """The next search is refused and names a path, and all is as it was."""
        before = self.there()
        with self.assertRaisesRegex(Fault, f"^{self.path}/{path}: in the way: "):
            self.folder.check()
        self.assertEqual(self.there(), before)

    def test_all_that_a_search_left_is_removed(self) -> None:
        run = {"trace": "c", "tree/d/f %": "e"}
        self.assertEqual(self.search({"seed-1.schedule": "a", "shrunk.schedule": "b"}, run), "")
        self.assertEqual(self.there(), {LIST, "seed-1.schedule", "shrunk.schedule", "run", "run/trace", "run/tree",
                                        "run/tree/d", "run/tree/d/f %"})
        digest = hashlib.sha256(b"e\n").hexdigest()
        self.assertIn(f"directory run/tree/d\n{digest} run/tree/d/f%20%25\n", self.read(f"out/{LIST}"))
        self.assertEqual(self.search({"seed-2.schedule": "a"}, {"stdout": ""}), "")
        self.assertEqual(self.there(), {LIST, "seed-2.schedule", "run", "run/stdout"})

    def test_names_of_any_bytes(self) -> None:
        name = os.fsdecode(b"tree/a\n\xff\xc3\xa9\\ x")
        self.search({}, {name: "a"})
        self.assertIn(f"run/{name}", self.there())
        self.assertEqual(self.search({}, {}), "")
        self.assertEqual(self.there(), {LIST, "run"})

    def test_what_was_there_before_is_in_the_way(self) -> None:
        os.makedirs(f"{self.path}/run")
        self.write("out/run/data", "x")
        self.stays("run")
        self.assertEqual(self.read("out/run/data"), "x\n")

    def test_other_names_are_no_matter(self) -> None:
        os.makedirs(self.path)
        for name in ("notes", "other.schedule", "seed-7.schedule", "seed-01.schedule", "failure-2.schedule"):
            self.write(f"out/{name}", "mine")
        for _ in range(2):
            self.assertEqual(self.search({"seed-1.schedule": "a"}, {}), "")
        for name in ("notes", "other.schedule", "seed-7.schedule", "seed-01.schedule", "failure-2.schedule"):
            self.assertEqual(self.read(f"out/{name}"), "mine\n")

    def test_what_was_changed_is_kept_and_named(self) -> None:
        self.search({"seed-1.schedule": "a", "seed-2.schedule": "b"}, {"trace": "c"})
        self.write("out/seed-2.schedule", "mine")
        self.stays("seed-2.schedule")
        # (a search of another seed does not write it)
        self.folder = Folder(self.path, lambda name: report.is_left(name, range(1, 2)), self.said)
        kept = f"watchtree explore: kept {self.path}/seed-2.schedule, which was changed since a search left it\n"
        self.assertEqual(self.search({"seed-1.schedule": "c"}, {}), kept)
        self.assertEqual(self.read("out/seed-2.schedule"), "mine\n")
        self.assertEqual(self.search({}, {}), "")
        self.assertEqual(self.there(), {LIST, "seed-2.schedule", "run"})

    def test_what_was_added_to_its_directory_is_in_the_way(self) -> None:
        self.search({}, {"tree/d/f": "a"})
        self.write("out/run/tree/d/mine", "x")
        self.stays("run/tree/d/mine")

    def test_a_link_is_not_followed(self) -> None:
        os.makedirs(f"{self.room}/elsewhere/d")
        self.search({"seed-1.schedule": "a"}, {"tree/d/f": "a"})
        self.write("elsewhere/d/f", "a")
        os.rename(f"{self.path}/run/tree", f"{self.room}/moved")
        os.symlink(f"{self.room}/elsewhere", f"{self.path}/run/tree")
        os.rename(f"{self.path}/seed-1.schedule", f"{self.room}/a")
        os.symlink(f"{self.room}/a", f"{self.path}/seed-1.schedule")
        self.stays(f"seed-1.schedule, {self.path}/run/tree")
        self.folder.clear()
        self.assertEqual(self.read("elsewhere/d/f"), "a\n")
        self.assertEqual(self.read("a"), "a")
        with self.assertRaisesRegex(Fault, "it is not replaced"):
            self.folder.write("seed-1.schedule", b"b")
        with self.assertRaisesRegex(Fault, "it is not replaced"), self.folder.directory("run"):
            pass
        self.assertEqual(self.read("a"), "a")

    def test_what_is_no_list(self) -> None:
        digest = hashlib.sha256(b"x\n").hexdigest()
        os.makedirs(self.path)
        self.write("mine", "x")
        for text in ("", "mine\n", f"{HEAD}{digest} ../mine\n", f"{HEAD}{digest} /{self.room}/mine\n",
                     f"{HEAD}directory .\n", f"{HEAD}{digest} %2e%2e/mine\n", f"{HEAD}file mine\n",
                     f"{HEAD}{digest} mine"):
            with open(f"{self.path}/{LIST}", "w", encoding="utf-8") as file:
                file.write(text)
            with self.assertRaisesRegex(Fault, f"{LIST}: .*give another --out"):
                self.folder.check()
        os.unlink(f"{self.path}/{LIST}")
        os.symlink(f"{self.room}/mine", f"{self.path}/{LIST}")
        with self.assertRaisesRegex(Fault, f"{LIST}: .*give another --out"):
            self.folder.check()
        self.assertEqual(self.read("mine"), "x\n")

    def test_a_search_that_was_ended_early(self) -> None:
        self.folder.clear()
        self.assertEqual(self.search({"seed-1.schedule": "a"}, {}), "")
        with self.assertRaises(KeyboardInterrupt):
            self.folder.check()
            self.folder.clear()
            with self.folder.directory("run") as path:
                os.mkdir(f"{path}/tree")
                raise KeyboardInterrupt
        self.assertEqual(self.search({}, {}), "")


class Searches(ToolTest):
    """What `watchtree explore --out` does."""

    def search(self, out: str, status: int) -> str:
        """Returns what a search says on standard error."""
        program = [self.built("recursive"), "/wt/d"]
        said = self.explore(f"{EXAMPLES}/recursive.script", "false", program, "--seeds", "1..1", "--shrink-runs", "3",
                            "--replays", "1", "--out", out)
        self.assertEqual(said.returncode, status, said.stdout + said.stderr)
        return said.stderr

    def test_a_folder_of_the_users_files(self) -> None:
        os.mkdir(f"{self.room}/run")
        self.write("run/data", "x")
        for name in ("mine.schedule", "notes"):
            self.write(name, "mine")
        self.assertIn("/run: in the way", self.search(".", 125))
        os.rename(f"{self.room}/run", f"{self.room}/kept")
        for _ in range(2):
            self.assertEqual(self.search(".", 1), "")
        self.assertEqual(self.read("kept/data"), "x\n")
        self.assertEqual(self.read("mine.schedule") + self.read("notes"), "mine\nmine\n")

    def test_what_a_search_left_and_somebody_changed(self) -> None:
        self.search("out", 1)
        self.write("out/shrunk.schedule", "mine")
        self.assertIn("/shrunk.schedule: in the way", self.search("out", 125))
        self.assertEqual(self.read("out/shrunk.schedule"), "mine\n")
        self.assertTrue(os.path.exists(f"{self.room}/out/run/trace"))
