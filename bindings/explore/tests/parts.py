"""Parts of a search, without a runner: shards, searches that stop and go on, what is kept of them, and merges."""

import json
import os
import random
import tempfile
import unittest
from typing import Any, Dict, List, Optional, Tuple

import merge
import state
from deadline import Deadline
from moves import Moved, by_moves
from runs import Result
from schedules import USUAL_QUEUE, Fault, Line, Mark, Schedule, ShortRead
from search import Found, by_seeds
from shards import Shard
from state import STATE, State
from units import Model, script

IDENTITY: Dict[str, Any] = {"script": "0" * 64, "check": "true", "program": ["watch", "/wt"], "options": [], "vary": "lines"}
ASKED = 9
SEEDS, MOVES = {**IDENTITY, "seeds": "1..60"}, {**IDENTITY, "moves": 2}


class After(Deadline):
    """Is over once it was asked some times."""

    def __init__(self, asked: int) -> None:
        super().__init__()
        self._left = asked

    def is_over(self) -> bool:
        self._left -= 1
        return self._left < 0


class Seeded(Model):
    """A program that fails if a line is before a third, sixth, ninth.. request. Its runs are kept."""

    def __init__(self) -> None:
        super().__init__(lambda result: any((it.before or 1) % 3 == 0 for it in result.schedule.lines()), ASKED)
        self.ran: List[Tuple[str, Schedule]] = []

    def replay(self, schedule: Schedule, seed: Optional[int] = None, kept: Optional[str] = None) -> Result:
        self.ran.append((str(seed), schedule))
        return super().replay(schedule, seed, kept)

    def seed(self, number: int, vary: str) -> Result:
        """Runs a seed."""
        del vary
        dice = random.Random(number)
        lines = [Line(it, dice.randrange(1, ASKED) if dice.random() < 0.3 else None) for it in "abcd"]
        return self.replay(Schedule(USUAL_QUEUE, ("mkdir /d 755",), (*lines, ShortRead(6, 1))), number)


class Parts(unittest.TestCase):
    """A folder, and searches in it."""

    def setUp(self) -> None:
        room = tempfile.TemporaryDirectory(dir=os.environ.get("ROOM"))
        self.addCleanup(room.cleanup)
        self.room = room.name
        self.base = Model(lambda result: False, ASKED).replay(script(*"abcd"))

    def search(self, bench: Model, identity: Dict[str, Any], shard: Shard = Shard(), found: Optional[Found] = None,
               deadline: Optional[Deadline] = None, jobs: int = 3) -> Found:
        """Searches, by seeds or by moves."""
        if "moves" in identity:
            return by_moves(bench, self.base, identity["moves"], "lines,reads", jobs, False, found, deadline, shard)
        return by_seeds(bench, shard.seeds(range(1, 61)), "lines", jobs, False, found, deadline)

    def write(self, name: str, found: Found, identity: Dict[str, Any], shard: Shard = Shard()) -> str:
        """Leaves a search in a folder. Returns its path."""
        folder = f"{self.room}/{name}"
        os.makedirs(folder, exist_ok=True)
        failing = [(f"failure-{number}.schedule", it) for number, it in enumerate(found.failures, 1)]
        for file, it in failing:
            with open(f"{folder}/{file}", "wb") as out:
                out.write(it.schedule.encoded())
        with open(f"{folder}/{STATE}", "wb") as out:
            out.write(State(identity, shard, False, found).encoded(failing, self.base.schedule))
        return folder

    def whole(self, identity: Dict[str, Any]) -> Tuple[Seeded, Found]:
        """Makes the search in one."""
        bench = Seeded()
        found = self.search(bench, identity)
        self.assertTrue(found.is_complete)
        self.assertGreater(len(found.failures), 3)
        self.assertGreater(len(bench.ran) - len(found.failures), 5)
        return bench, found

    def same(self, bench: Seeded, found: Found, runs: List[Tuple[str, Schedule]], other: Found) -> None:
        """Both searches made the same runs, each once, and found the same."""
        self.assertEqual(len(set(runs)), len(runs), "a schedule ran twice")
        self.assertEqual(set(runs), set(bench.ran))
        self.assertEqual((other.runs, other.seeds, sorted(other.names)), (found.runs, found.seeds, sorted(found.names)))
        self.assertEqual(failures(other), failures(found))


def failures(found: Found) -> List[Tuple[str, str]]:
    """Returns the failing runs of a search, in no order."""
    return sorted((it.title(), it.schedule.text()) for it in found.failures)


class Shards(Parts):
    """N shards are the whole search, and no two have a run in common."""

    def test_the_seeds_of_shards(self) -> None:
        for first, last, count in ((1, 200, 4), (1, 10, 3), (7, 7, 1), (0, 2, 5), (3, 99, 7)):
            seeds = range(first, last + 1)
            parts = [Shard(number, count).seeds(seeds) for number in range(1, count + 1)]
            self.assertEqual(sorted(it for part in parts for it in part), list(seeds))
            self.assertLessEqual(max(map(len, parts)) - min(map(len, parts)), 1)

    def test_the_runs_of_shards_are_those_of_one_search(self) -> None:
        for identity in (SEEDS, MOVES, {**IDENTITY, "moves": 1}):
            bench, found = self.whole(identity)
            for count in (1, 2, 4, 7):
                runs, folders = [], []  # type: List[Tuple[str, Schedule]], List[str]
                for number in range(1, count + 1):
                    part, shard = Seeded(), Shard(number, count)
                    folders.append(self.write(str(shard).replace("/", "-"), self.search(part, identity, shard), identity, shard))
                    runs += part.ran
                self.same(bench, found, runs, merge.merged(folders, identity, f"{self.room}/out").found)

    def test_the_moves_of_shards_are_about_as_many(self) -> None:
        keys = [(request, 0, line) for line in range(20) for request in range(9 * line, 9 * line + 9)]
        counts = [sum(Shard(number, 4).has_move(key) for key in keys) for number in range(1, 5)]
        self.assertEqual(sum(counts), len(keys))
        self.assertGreater(min(counts), len(keys) // 8)


class Stops(Parts):
    """A search that stops goes on with what is left."""

    def test_nothing_twice_and_nothing_left(self) -> None:
        dice = random.Random(3)
        for identity in (SEEDS, MOVES):
            bench, found = self.whole(identity)
            for shard in (Shard(), Shard(2, 3)):
                runs, part, stops = [], Found(), 0  # type: List[Tuple[str, Schedule]], Found, int
                while not part.is_complete:
                    program = Seeded()
                    self.search(program, identity, shard, part, After(dice.randrange(7)), dice.randrange(1, 4))
                    runs += program.ran
                    earlier = state.read(self.write("out", part, identity, shard))
                    earlier.unpack(self.base.schedule)
                    self.assertEqual((earlier.found.left, earlier.found.seeds), (part.left, part.seeds))
                    self.assertEqual(failures(earlier.found), failures(part))
                    part, stops = earlier.found, stops + 1
                self.assertGreater(stops, 3)
                if shard == Shard():
                    self.same(bench, found, runs, part)
                else:
                    one = Seeded()
                    self.same(one, self.search(one, identity, shard), runs, part)

    def test_a_search_that_a_fault_ends_before_it_begins(self) -> None:
        for identity in (SEEDS, MOVES):
            bench, found = self.whole(identity)
            earlier = state.read(self.write("out", Found(), identity))
            earlier.unpack(self.base.schedule)
            again = Seeded()
            self.same(bench, found, again.ran, self.search(again, identity, Shard(), earlier.found))

    def test_a_signal_breaks_no_count(self) -> None:
        for identity in (SEEDS, MOVES):
            bench, found = self.whole(identity)
            part, deadline, runs = Found(), Deadline(), []  # type: Found, Deadline, List[Tuple[str, Schedule]]
            program = Seeded()
            add, adds = part.add, []  # type: Any, List[int]

            def interrupted(result: Result) -> None:
                adds.append(1)
                add(result)
                if len(adds) == 7:
                    try:
                        deadline._children.end(15, None)
                    except KeyboardInterrupt:
                        self.fail("the count was broken off")

            part.add = interrupted  # type: ignore[method-assign]
            with self.assertRaises(KeyboardInterrupt):
                self.search(program, identity, Shard(), part, deadline)
            del part.add  # type: ignore[attr-defined]
            self.assertEqual(part.runs, 7)
            again = Seeded()
            self.search(again, identity, Shard(), part)
            titles = part.names or sorted(part.seeds)
            self.assertEqual(len(set(titles)), len(titles))
            self.assertEqual((part.runs, failures(part)), (found.runs, failures(found)))
            self.assertEqual(len(again.ran), len(bench.ran) - 7)


class Kept(Parts):
    """What is kept of a search, and what is refused."""

    def test_rows_of_numbers(self) -> None:
        dice = random.Random(1)
        for count in range(60):
            numbers = sorted(dice.sample(range(99), count))
            self.assertEqual(state.numbers(state.ranges(numbers)), numbers)
        self.assertEqual(state.ranges(list(range(2, 200, 4))), [[2, 198, 4]])

    def test_the_moves_that_are_left(self) -> None:
        base = Schedule(7, ("mkdir /d 755",), (Line("a", 2), Mark(), Line("b"), ShortRead(3, 1)))
        items = (Line("a"), Mark(), Line("b", 4), ShortRead(9, 2), ShortRead(11, 1))
        moved = Moved(Schedule(7, base.setup, items), 2, (9, 1, 2), 1, "line 2 before request 4, read 9 of at most 2")
        packed = json.loads(json.dumps(state.pack(moved, base)))
        self.assertEqual(state.unpack(packed, base), moved)
        other = Schedule(7, base.setup, (Line("a"),))
        self.assertEqual(state.unpack(json.loads(json.dumps(state.pack(moved, other))), other), moved)

    def test_turns_that_are_left(self) -> None:
        base = Schedule(7, ("mkdir /d 755",), (Mark(), Line(None), Line(None), Line(None)))
        items = (Mark(), Line(None), Line(None, 4), Line(None), ShortRead(9, 2))
        moved = Moved(Schedule(7, base.setup, items), 2, (9, 1, 2), 1, "turn 2 before request 4, read 9 of at most 2")
        packed = json.loads(json.dumps(state.pack(moved, base)))
        self.assertEqual(packed["before"], [[1, 4]])
        self.assertEqual(state.unpack(packed, base), moved)
        # (another run may have other turns)
        fewer = Schedule(7, base.setup, (Mark(), Line(None)))
        self.assertEqual(state.unpack(json.loads(json.dumps(state.pack(moved, fewer))), fewer), moved)
        with self.assertRaisesRegex(Fault, "fewer lines or turns"):
            state.unpack(packed, fewer)

    def refused(self, why: str, folder: str, identity: Dict[str, Any] = SEEDS) -> None:
        """A folder is not taken."""
        with self.assertRaisesRegex(Fault, why):
            state.read(folder).check(folder, identity)

    def test_a_folder_that_no_search_left(self) -> None:
        self.refused("/search.json: there is none", self.room)
        self.refused("/nothing/search.json: there is none", f"{self.room}/nothing")
        os.mkdir(f"{self.room}/{STATE}")
        self.refused("/search.json: Is a directory", self.room)

    def test_a_state_that_is_broken(self) -> None:
        folder = self.write("out", self.whole(SEEDS)[1], SEEDS)
        path = f"{folder}/{STATE}"
        with open(path, encoding="utf-8") as file:
            text = file.read()
        state.read(folder).check(folder, SEEDS)
        for broken, why in ((text[: len(text) // 2], "it is not whole"), ("", "it is not whole"), ("[]", "not what a search"),
                            (text.replace('"stalled": 0', '"stalled": 1'), "was changed"), ("{}", "not what a search left"),
                            (text.replace('"format": 1', '"format": 2'), "has format 2")):
            self.assertNotEqual(broken, text)
            with open(path, "w", encoding="utf-8") as file:
                file.write(broken)
            self.refused(why, folder)
        content: Dict[str, Any] = {"identity": SEEDS}
        with open(path, "w", encoding="utf-8") as file:
            json.dump({"format": 1, "sha256": state._digest(content), "content": content}, file)
        self.refused("not what a search left", folder)

    def test_a_failing_schedule_that_is_broken(self) -> None:
        folder = self.write("out", self.whole(SEEDS)[1], SEEDS)
        with open(f"{folder}/failure-2.schedule", "a", encoding="utf-8") as file:
            file.write("unlink /d/a\n")
        self.refused("/failure-2.schedule: it was changed", folder)
        os.unlink(f"{folder}/failure-2.schedule")
        self.refused("/failure-2.schedule: No such file", folder)

    def test_another_search(self) -> None:
        folder = self.write("out", self.whole(SEEDS)[1], SEEDS)
        others: List[Tuple[str, Any]] = [("script", "1" * 64), ("check", "false"), ("program", ["watch"]), ("vary", "reads"),
                                         ("options", ["--queue=3"]), ("seeds", "1..61")]
        for name, other in others:
            self.refused(f"another search, with other {name}", folder, {**SEEDS, name: other})
        self.refused("with other moves: None there, 1 here", folder, {**IDENTITY, "moves": 1})


class Merges(Parts):
    """Which folders are merged."""

    def shards(self, count: int) -> List[str]:
        """Returns the folders of all shards of a search."""
        all_of_them = [Shard(number, count) for number in range(1, count + 1)]
        return [self.write(f"{it.number}-of-{count}", self.search(Seeded(), SEEDS, it), SEEDS, it) for it in all_of_them]

    def refused(self, why: str, folders: List[str], out: str = "out", identity: Dict[str, Any] = SEEDS) -> None:
        """A merge is a fault."""
        with self.assertRaisesRegex(Fault, why):
            merge.merged(folders, identity, f"{self.room}/{out}")

    def test_shards_that_are_not_all_there(self) -> None:
        folders = self.shards(4)
        self.refused("not all shards are there: 2/4, 4/4 are missing", [folders[0], folders[2]])
        self.refused("not all shards are there: 3/4 is missing", [folders[3], folders[0], folders[1]])
        merge.merged(folders[::-1], SEEDS, f"{self.room}/out")

    def test_a_shard_that_is_there_twice(self) -> None:
        folders = self.shards(2)
        self.refused("1-of-2 and .*1-of-2: both are shard 1/2", [folders[0], folders[0], folders[1]])

    def test_a_shard_of_another_number(self) -> None:
        self.refused("1-of-3: it is shard 1/3, and .*1-of-2 is one of 2", self.shards(2) + self.shards(3))
        self.refused("2-of-3: it is shard 2/3, and .*1-of-2 is one of 2", [self.shards(2)[0], self.shards(3)[1]])

    def test_a_shard_that_is_not_over(self) -> None:
        folders = self.shards(2)
        self.write("2-of-2", self.search(Seeded(), SEEDS, Shard(2, 2), None, After(5)), SEEDS, Shard(2, 2))
        self.refused("2-of-2: the search of shard 2/2 is not over: --resume", folders)

    def test_a_shard_of_another_search(self) -> None:
        self.refused("1-of-2: it is of another search, with other check", self.shards(2), "out", {**SEEDS, "check": "false"})
        folders = self.shards(2)
        self.write("2-of-2", self.search(Seeded(), SEEDS, Shard(2, 2)), {**SEEDS, "program": ["other"]}, Shard(2, 2))
        self.refused("2-of-2: it is of another search, with other program", folders)

    def test_a_merge_into_a_shard(self) -> None:
        folders = self.shards(2)
        self.refused("1-of-2: the merge would replace it", folders, "1-of-2")
        os.symlink(folders[1], f"{self.room}/link")
        self.refused("2-of-2: the merge would replace it", folders, "link")
