"""--quick: a run is over at once if nothing can wake the program up, and waits if a time limit can."""

import time

from tool import ToolTest

WAYS = ("thread", "condition", "poll", "select", "epoll", "timerfd", "timer")


class Quiet(ToolTest):
    """Programs that wait for events, and perhaps for a time."""

    def test_no_time_limit(self) -> None:
        script = self.write("script", "mkdir /d 755", "--", "create /d/a 644", "--", "create /d/b 644")
        start = time.monotonic()
        said = self.under("out", [script], [self.built("timers"), "none", "/wt/d"], "--settle", "60000", "--debounce", "60000")
        self.assertEqual(said.returncode, 0, said.stderr)
        self.assertLess(time.monotonic() - start, 30)
        self.assertEqual(self.read("out/trace").count("\n< "), 2)

    def test_a_time_limit_is_waited_for(self) -> None:
        script = self.write("script", "mkdir /d 755", "--", "create /d/a 644")
        for way in WAYS:
            said = self.under(way, [script], [self.built("timers"), way, "/wt/d"], "--settle", "5000")
            self.assertEqual(said.returncode, 0, said.stderr)
            self.assertEqual(self.read(f"{way}/stdout"), "late\n", way)

    def test_a_time_that_is_over_during_a_look_is_waited_for(self) -> None:
        script = self.write("script", "mkdir /d 755", "--", "create /d/a 644")
        for way in ("many", "turns"):
            said = self.under(way, [script], [self.built("timers"), way, "/wt/d"], "--settle", "5000")
            self.assertEqual(said.returncode, 0, said.stderr)
            self.assertEqual(self.read(f"{way}/stdout"), "late\n", way)

    def test_what_was_a_timer_is_none_any_more(self) -> None:
        script = self.write("script", "mkdir /d 755", "--", "create /d/a 644")
        for way in ("poll", "timerfd"):
            start = time.monotonic()
            said = self.under(way, [script], [self.built("timers"), way, "/wt/d"], "--settle", "60000")
            self.assertEqual(said.returncode, 0, said.stderr)
            self.assertEqual(self.read(f"{way}/stdout"), "late\n", way)
            self.assertLess(time.monotonic() - start, 30, way)
