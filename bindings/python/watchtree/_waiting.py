"""Waits for a descriptor: in a thread, or in an event loop."""

import errno
import math
import select
import time
from typing import TYPE_CHECKING, Optional

from ._arguments import seconds

if TYPE_CHECKING:
    import asyncio

# The longest wait for one poll(2), in milliseconds. A wait without an end is a series of these.
_LONGEST = 2**30


def end_of(timeout: Optional[float]) -> float:
    """Returns when a wait of `timeout` seconds ends, by the monotonic clock: never if it is None."""
    if timeout is None:
        return math.inf
    return time.monotonic() + seconds("timeout", timeout)


def wait_until(fd: int, end: float) -> bool:
    """Waits until a descriptor is readable. False if the time is over first.

    It is poll(2) that waits, and not the C library, so that a signal handler of Python runs at once, and Ctrl-C ends it.
    """
    poll = select.poll()
    poll.register(fd, select.POLLIN)
    while True:
        left = end - time.monotonic()
        for _, found in poll.poll(min(max(left, 0) * 1000, _LONGEST)):
            if found & select.POLLNVAL:
                raise OSError(errno.EBADF, f"descriptor {fd} was closed by others")
            return True
        if left <= 0:
            return False


async def wait_in_loop(fd: int) -> None:
    """Waits until a descriptor is readable. The event loop goes on."""
    import asyncio  # (which takes long, for programs without a loop)

    loop = asyncio.get_running_loop()
    is_readable: "asyncio.Future[None]" = loop.create_future()

    def wake() -> None:
        if not is_readable.done():
            is_readable.set_result(None)

    loop.add_reader(fd, wake)
    try:
        await is_readable
    finally:
        loop.remove_reader(fd)
