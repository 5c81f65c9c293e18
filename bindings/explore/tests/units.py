"""Parts of the tool, without a runner: files of schedules, moves, shrinking, the progress line, the timeline."""

import io
import random
import unittest
from typing import Callable, List, Optional

import progress
import schedules
import shrink
import timeline
import traces
from moves import Moved, by_moves, read_moves
from runs import Result
from schedules import Line, Mark, Schedule, ShortRead

FILE = """#@ queue 3
mkdir /d 755
--
create /d/a 644
#@ before 8
create /d/b 644
create /d/c 644
#@ read 9 1
#@ at rest
--
unlink /d/a
"""


class Model:
    """A program in place of the runner: it asks some requests, and then one for each line at rest."""

    def __init__(self, fails: Callable[[Result], bool], asked: int = 5) -> None:
        self.judge, self.asked, self.runs = fails, asked, 0

    def replay(self, schedule: Schedule, seed: Optional[int] = None, kept: Optional[str] = None) -> Result:
        """Runs a schedule as the runner does: lines before requests that do not come happen at rest."""
        del kept
        self.runs += 1
        trace: List[traces.Entry] = [traces.Happened("--", None, 1)]
        items: List[schedules.Item] = []
        request, origin, last = 0, 1, self.asked
        for it in schedule.items:
            if isinstance(it, Line):
                before = it.before if it.before is None or not it.is_relative else origin + it.before
                before = None if before is None or before > last else max(before, request + 1, origin)
                next_request = last + 1 if before is None else before
                trace += [traces.Asked(number, "lookup /d") for number in range(request + 1, next_request)]
                request, origin = next_request - 1, next_request
                last = max(last, request + 1)
                trace.append(traces.Happened(it.text, before, next_request))
                it = Line(it.text, before)
            elif isinstance(it, ShortRead) and it.is_relative:
                it = ShortRead(origin + it.request, it.records)
            items.append(it)
        trace += [traces.Asked(number, "read 1") for number in range(request + 1, last + 1)]
        result = Result(seed, 0, False, True, Schedule(schedule.queue, schedule.setup, tuple(items)), trace)
        result.fails = self.judge(result)
        return result


def script(*lines: str) -> Schedule:
    return Schedule(schedules.USUAL_QUEUE, ("mkdir /d 755",), tuple(Line(it) for it in lines))


class Files(unittest.TestCase):
    """The file of a schedule."""

    def test_it_is_read_and_written(self) -> None:
        schedule = schedules.parse(FILE)
        self.assertEqual(schedule.queue, 3)
        self.assertEqual(schedule.items, (Line("create /d/a 644"), Line("create /d/b 644", 8), Line("create /d/c 644", 8),
                                          ShortRead(9, 1), Mark(), Line("unlink /d/a")))
        self.assertEqual(schedule.size(), (5, 4, 1))
        again = schedules.parse(schedule.text())
        self.assertEqual(again, schedule)
        self.assertEqual(schedule.at_rest().size(), (5, 1, 1))

    def test_relative_requests_are_read_and_written(self) -> None:
        schedule = schedules.relative(schedules.parse(FILE), [7, 8, 8, 12])
        self.assertEqual([it.before for it in schedule.lines()], [None, 1, 0, None])
        self.assertIn(ShortRead(1, 1, True), schedule.items)
        self.assertEqual(schedules.parse(schedule.text()), schedule)

    def test_relative_requests_of_lines_that_did_not_happen(self) -> None:
        schedule = schedules.relative(schedules.parse(FILE), [7, 8])
        self.assertEqual([it.before for it in schedule.lines()], [None, 1, 0, None])
        self.assertIn(ShortRead(1, 1, True), schedule.items)

    def test_turns_are_read_and_written(self) -> None:
        text = "mkdir /d 755\n--\n#@ and 2\n#@ before 5\n#@ and 2\n#@ read 6 1\n#@ and 1\n#@ at rest\n#@ and 3\n"
        schedule = schedules.parse(text)
        self.assertEqual(schedule.text(), text)
        self.assertEqual([it.before for it in schedule.turns()], [None, None, 5, 5, 5, None, None, None])
        self.assertEqual((schedule.lines(), schedule.size(), schedule.moved()), ([], (1, 4, 0), 3))
        again = schedules.relative(schedule, [2, 3, 5, 5, 5, 7, 8, 9])
        self.assertEqual([it.before for it in again.turns()], [None, None, 2, 0, 0, None, None, None])
        self.assertEqual(schedules.parse(again.text()), again)
        together = schedules.parse("--\n#@ before +4\n#@ and 3\n")
        self.assertEqual([it.before for it in together.turns()], [4, 0, 0])

    def test_what_is_no_directive(self) -> None:
        for line in ("#@ before", "#@ read 3", "#@ queue x", "#@ at noon", "#@", "#@ and", "#@ and x"):
            with self.assertRaisesRegex(schedules.Fault, "line 2: not a directive"):
                schedules.parse(f"--\n{line}\n")


class Moves(unittest.TestCase):
    """Every schedule with a given number of moves."""

    def count(self, moves: int, lines: int, asked: int) -> int:
        model = Model(lambda result: False, asked)
        base = model.replay(script(*"abcdef"[:lines]))
        seen = []
        model.judge = lambda result: seen.append(result.schedule) or False
        found = by_moves(model, base, moves, "lines", 3, False)
        self.assertEqual(found.runs, len(seen))
        self.assertEqual(len(set(seen)), len(seen), "a schedule ran twice")
        self.assertTrue(all(1 <= it.moved() <= moves for it in seen))
        return found.runs

    def test_one_move(self) -> None:
        # Five positions of the first line; the second has one request before it at rest, and so on.
        self.assertEqual(self.count(1, 1, 5), 5)
        self.assertEqual(self.count(1, 3, 5), 7)

    def test_two_moves_are_all_of_them(self) -> None:
        # By hand, with two requests before the first line: a before 1 or 2, b before 3; and b after a that moved.
        self.assertEqual(self.count(2, 2, 2), 3 + 3)

    def test_reads_are_short_once(self) -> None:
        told = [traces.Told(1, 1, ["CREATE"], 0, "a")] * 3
        trace = [traces.Happened("--", None, 1), traces.Asked(4, "read 1"), *told, traces.Asked(5, "read 1"), told[0]]
        result = Result(None, 0, False, True, script("a"), trace)
        moves = list(read_moves(Moved(result.schedule, 0, (0, 0, -1), -1), result))
        self.assertEqual([it.schedule.items[-1] for it in moves], [ShortRead(4, 1), ShortRead(4, 2)])
        later = list(read_moves(Moved(result.schedule, 1, (4, 1, 1), -1), result))
        self.assertEqual([it.schedule.items[-1] for it in later], [ShortRead(4, 2)])


class Shrinking(unittest.TestCase):
    """What fails gets smaller, and fails still."""

    def shrink(self, model: Model, first: Schedule, is_race: bool = True, budget: int = 2000) -> Optional[Result]:
        failed = model.replay(first)
        self.assertTrue(failed.fails)
        best = shrink.Shrinker(model, failed, is_race, 3, budget).shrink()
        if best:
            self.assertTrue(model.replay(best.schedule).fails)
        return best

    def test_two_lines_and_a_move_are_left(self) -> None:
        def fails(result: Result) -> bool:
            lines = result.schedule.lines()
            made = [at for at, it in enumerate(lines) if it.text == "make"]
            return any(it.text == "use" and it.before is not None and made and made[0] < at for at, it in enumerate(lines))

        dice = random.Random(5)
        for _ in range(20):
            words = [dice.choice("abcdefgh") for _ in range(12)]
            words[dice.randrange(6)], words[6 + dice.randrange(6)] = "make", "use"
            lines = [Line(it, 1 + at // 3 if dice.random() < 0.5 or it == "use" else None) for at, it in enumerate(words)]
            schedule = Schedule(4, ("mkdir /d 755", "mkdir /e 755"), (*lines, ShortRead(9, 1), Mark()))
            model = Model(fails)
            if not model.replay(schedule).fails:
                continue
            best = self.shrink(model, schedule)
            self.assertEqual([it.text for it in best.schedule.lines()], ["make", "use"])
            self.assertEqual(best.schedule.size(), (2, 1, 0))
            self.assertEqual(len(best.schedule.items), 2)

    def test_a_limit_or_a_short_read_that_matters_stays(self) -> None:
        model = Model(lambda it: it.schedule.queue == 2 and it.schedule.short_reads() > 0)
        schedule = Schedule(2, ("mkdir /d 755",), (Line("a"), Line("b", 3), ShortRead(5, 1), ShortRead(6, 1)))
        best = self.shrink(model, schedule)
        self.assertEqual((best.schedule.queue, best.schedule.short_reads(), best.schedule.size()), (2, 1, (0, 2, 0)))

    def test_another_failure_is_not_the_same(self) -> None:
        # Without `a` it fails in every order: that is no race.
        model = Model(lambda it: it.schedule.moved() > 0 or "a" not in [line.text for line in it.schedule.lines()])
        best = self.shrink(model, Schedule(schedules.USUAL_QUEUE, (), (Line("a"), Line("b", 3), Line("c"))))
        self.assertIn("a", [it.text for it in best.schedule.lines()])

    def test_another_status_is_not_the_same(self) -> None:
        model = Model(lambda it: it.schedule.moved() > 0)
        run = model.replay

        def replay(schedule: Schedule, seed: Optional[int] = None) -> Result:
            result = run(schedule, seed)
            result.status = 0 if schedule.setup else 1
            return result

        model.replay = replay
        best = self.shrink(model, Schedule(schedules.USUAL_QUEUE, ("mkdir /d 755",), (Line("a"), Line("b", 3))))
        self.assertEqual(best.schedule.setup, ("mkdir /d 755",))

    def test_a_set_up_that_is_refused_is_no_candidate(self) -> None:
        setup = ("mkdir /d 755", "create /d/a 644")
        model = Model(lambda it: it.schedule.moved() > 0 and setup[1] in it.schedule.setup)
        run = model.replay

        def replay(schedule: Schedule, seed: Optional[int] = None) -> Result:
            if setup[1] in schedule.setup and setup[0] not in schedule.setup:
                raise schedules.Refused("line 1 is refused")
            return run(schedule, seed)

        model.replay = replay
        best = self.shrink(model, Schedule(schedules.USUAL_QUEUE, (*setup, "mkdir /e 755"), (Line("a"), Line("b", 3))))
        self.assertEqual((best.schedule.setup, best.schedule.moved()), (setup, 1))

    def test_turns_are_not_dropped(self) -> None:
        model = Model(lambda it: it.schedule.turns()[1].before is not None)
        turns = (Line(None), Line(None, 6), Line(None, 6), Line(None))
        best = self.shrink(model, Schedule(schedules.USUAL_QUEUE, (), turns))
        self.assertEqual([it.before is None for it in best.schedule.turns()], [True, False, True, True])

    def test_what_does_not_fail_again(self) -> None:
        model = Model(lambda it: model.runs == 1)
        self.assertIsNone(self.shrink_only(model))

    def shrink_only(self, model: Model) -> Optional[Result]:
        return shrink.Shrinker(model, model.replay(script("a")), False, 2, 100).shrink()

    def test_the_budget(self) -> None:
        model = Model(lambda it: len(it.schedule.lines()) > 3)
        self.shrink(model, script(*"abcdefghijklmnopqrstuvwxyz"), False, 5)
        self.assertLess(model.runs, 20)


class Texts(unittest.TestCase):
    """What is printed."""

    def test_the_progress_line(self) -> None:
        out = io.StringIO()
        line = progress.Progress("explore", 200, out)
        for fails in [True] + [False] * 49:
            line.add(fails)
        self.assertEqual(line.text(10.0), "explore: 50 of 200 runs, 1 fail, 30 s left")
        self.assertEqual(line.text(100.0), "explore: 50 of 200 runs, 1 fail, 5 min 0 s left")

    def test_the_timeline(self) -> None:
        text = ["> mkdir /d 755", "ok 3", "> --", "? 1 inotify_init", "# instance 1", "? 2 inotify_add_watch /d",
                "# watch 1 /d 0x100: 1", "> create /d/a 644", "ok 4", "@3 > unlink /d/b", "err ENOENT 2", "? 3 read 1",
                "< 1 wd 1 CREATE name a%20b", "< 1 wd -1 Q_OVERFLOW", "# watch 1 gone 0x100: -2", "# ended by signal 15"]
        trace = traces.read_trace(text)
        self.assertEqual(traces.places(trace), [3, 3])
        self.assertEqual(traces.records_by_read(trace), [[3, 2]])
        self.assertEqual(timeline.timeline(trace).splitlines(), [
            "           tree     mkdir /d 755",
            "           tree     the program starts",
            "        1  program  inotify_init",
            "        2  program  inotify_add_watch /d",
            "                      watch 1 is on /d, mask 0x100",
            "           tree     create /d/a 644",
            "           tree     unlink /d/b   (err ENOENT 2)   before request 3",
            "        3  program  read 1",
            "           event    CREATE a%20b   watch 1, of /d",
            "           event    Q_OVERFLOW",
            "                      refused: No such file or directory",
            "           program  ends: by signal 15"])
        self.assertEqual(timeline.as_script(trace, 7).splitlines(), [
            "mkdir /d 755", "init 7", "watch 1 /d 0x100", "create /d/a 644", "unlink /d/b", "read 1 48", "watch 1 gone 0x100"][:6])

    def test_turns_in_the_timeline(self) -> None:
        trace = traces.read_trace(["> --", "? 1 inotify_init", "& mkdir /d/a", "@2 & create /d/a/f", "? 2 read 1"])
        self.assertEqual(traces.places(trace), [2, 2])
        self.assertEqual(timeline.timeline(trace).splitlines(), [
            "           tree     the program starts",
            "        1  program  inotify_init",
            "           second   mkdir /d/a",
            "           second   create /d/a/f   before request 2",
            "        2  program  read 1"])
        self.assertIsNone(timeline.as_script(trace, 7))

    def test_rows_of_requests_are_one_line(self) -> None:
        trace = [traces.Asked(number, "lookup /d") for number in range(1, 12)]
        self.assertEqual(timeline.timeline(trace).splitlines(), [
            "    1..10  program  10 requests: lookup", "       11  program  lookup /d"])
        self.assertEqual(len(timeline.timeline(trace, is_whole=True).splitlines()), 11)

    def test_no_script_of_a_program_that_changes_files(self) -> None:
        self.assertIsNone(timeline.as_script([traces.Asked(1, "mkdir /d")], 7))
