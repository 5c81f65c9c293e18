"""The processes that a search waits for. Each has a session of its own: a signal comes to it only as explore passes it on."""

import os
import signal
import subprocess
import threading
from contextlib import contextmanager
from types import FrameType
from typing import Dict, Iterator, List, Optional, Set

# Signals that end a search.
ENDING = (signal.SIGHUP, signal.SIGINT, signal.SIGQUIT, signal.SIGTERM)


class Ended(Exception):
    """The search is over: nothing is started any more."""


class Late(Exception):
    """A process took too long, and was ended."""


class Children:
    """Those that go on now. Threads share it."""

    def __init__(self) -> None:
        # A signal may come while the main thread holds it.
        self._lock = threading.RLock()
        self._going: Set["subprocess.Popen[bytes]"] = set()
        self.ended_by = 0
        self._is_whole = False

    def run(self, command: List[str], seconds: float, more: Optional[Dict[str, str]] = None) -> "subprocess.CompletedProcess[bytes]":
        """Runs a command, with more in its environment, and returns its status and what it wrote on standard error."""
        with self._lock:
            if self.ended_by:
                raise Ended
            child = subprocess.Popen(command, stdin=subprocess.DEVNULL, stdout=subprocess.DEVNULL, stderr=subprocess.PIPE,
                                     env={**os.environ, **(more or {})}, start_new_session=True)
            self._going.add(child)
        try:
            said = child.communicate(timeout=seconds)[1]
        except subprocess.TimeoutExpired as late:
            os.killpg(child.pid, signal.SIGKILL)
            child.wait()
            raise Late from late
        finally:
            with self._lock:
                self._going.discard(child)
        return subprocess.CompletedProcess(command, child.returncode, b"", said)

    def end(self, number: int, _frame: Optional[FrameType]) -> None:
        """Ends the search by a signal: passes it on to all that go on."""
        with self._lock:
            self.ended_by = number
            for child in self._going:
                child.send_signal(number)
        if not self._is_whole:
            raise KeyboardInterrupt

    @contextmanager
    def whole(self) -> Iterator[None]:
        """A part of the main thread that no signal breaks off: the search ends after it."""
        self._is_whole = True
        try:
            yield
        finally:
            self._is_whole = False
        if self.ended_by:
            raise KeyboardInterrupt

    def take_signals(self) -> None:
        """Ends the search by each signal that ends it, unless it is ignored, as under nohup(1)."""
        for number in ENDING:
            if signal.getsignal(number) != signal.SIG_IGN:
                signal.signal(number, self.end)
