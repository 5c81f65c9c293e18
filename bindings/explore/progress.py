"""The progress line: runs, failures and the time left, on standard error."""

import sys
import threading
import time
from typing import TextIO

# Seconds between two lines, on a terminal and elsewhere.
ON_TERMINAL, ELSEWHERE = 0.2, 10.0


class Progress:
    """Counts runs. On a terminal one line is written over and over."""

    def __init__(self, what: str, total: int, out: TextIO = sys.stderr) -> None:
        self.what, self.total, self.out = what, total, out
        self.runs = self.failures = 0
        self._is_terminal = out.isatty()
        self._start = self._said = time.monotonic()
        self._lock = threading.Lock()

    def add(self, fails: bool) -> None:
        """Counts a run."""
        with self._lock:
            self.runs += 1
            self.failures += fails
            now = time.monotonic()
            if now - self._said < (ON_TERMINAL if self._is_terminal else ELSEWHERE):
                return
            self._said = now
            self._write(self.text(now - self._start))

    def text(self, seconds: float) -> str:
        """Returns the line after `seconds` seconds."""
        left = seconds / max(self.runs, 1) * max(self.total - self.runs, 0)
        return f"{self.what}: {self.runs} of {self.total} runs, {self.failures} fail, {_time(left)} left"

    def _write(self, line: str) -> None:
        self.out.write(f"\r{line}\x1b[K" if self._is_terminal else line + "\n")
        self.out.flush()

    def close(self) -> None:
        """Takes the line off a terminal."""
        if self._is_terminal:
            self.out.write("\r\x1b[K")
            self.out.flush()

    def seconds(self) -> float:
        """Returns the seconds since the first line."""
        return time.monotonic() - self._start


def _time(seconds: float) -> str:
    whole = int(seconds + 0.5)
    return f"{whole} s" if whole < 100 else f"{whole // 60} min {whole % 60} s"
