"""When a search stops before its end: after some minutes, or by a signal."""

import time
from contextlib import AbstractContextManager
from typing import Optional

from children import Children


class Deadline:
    """The minutes of a search count from now on. Without a number it never ends."""

    def __init__(self, minutes: Optional[float] = None, children: Optional[Children] = None) -> None:
        self._end = None if minutes is None else time.monotonic() + 60 * minutes
        self._children = children or Children()

    def is_over(self) -> bool:
        """Whether no further run is to start."""
        return self._end is not None and time.monotonic() >= self._end

    def whole(self) -> "AbstractContextManager[None]":
        """A part that no signal breaks off: a run is counted whole, or not at all."""
        return self._children.whole()
