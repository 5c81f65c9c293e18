"""watchtree from Python: a file tree in memory with inotify(7).

    >>> from watchtree import Tree, Mask
    >>> with Tree() as tree, tree.inotify() as instance:
    ...     number = tree.mkdir("/d")
    ...     wd = instance.add_watch("/d", Mask.CREATE)
    ...     number = tree.create("/d/f")
    ...     [(event.wd, event.mask.name, event.name) for event in instance.read()]
    [(1, 'CREATE', 'f')]

Each method does what the system call of its name does, and raises OSError with the errno and the paths of the call.
Numbers from 1001 on are this library's own (JOURNAL_FULL and others). A path is a str, bytes or os.PathLike.

Threads may share a tree and its instances: each call takes the lock of the tree. A tree or an instance that is closed,
and a tree in a child of os.fork(), raises OSError with EBADF.

`tree.fork()` returns an independent tree like this one, and `tree.script()` the calls so far as a script.

`instance.read(timeout=)`, `for event in instance` and `async for event in instance` wait for events; `watchtree.watchdog`
has an observer for handlers of the watchdog package; `watchtree.explore` runs event code under many schedules.
docs/PYTHON.md has an example of each.

The shared object is the file that the environment variable LIBWATCHTREE names. Without it, it is libwatchtree.so in this
package, beside it, in the lib/ of the prefix where it is installed, or in out/ of the repository.
"""

from ._arguments import AnyPath
from ._errors import COOKIES_SPENT, JOURNAL_FULL, NUMBERS_SPENT, OWN, error_text
from ._events import Event, Mask, parse
from ._instance import Instance
from ._library import QUEUE, find_library, load, version
from ._tree import RENAME_EXCHANGE, RENAME_NOREPLACE, Entry, Stat, Tree

__all__ = [
    "AnyPath",
    "COOKIES_SPENT",
    "Entry",
    "Event",
    "Instance",
    "JOURNAL_FULL",
    "Mask",
    "NUMBERS_SPENT",
    "OWN",
    "QUEUE",
    "RENAME_EXCHANGE",
    "RENAME_NOREPLACE",
    "Stat",
    "Tree",
    "error_text",
    "find_library",
    "load",
    "parse",
    "version",
]

__version__: str


def __getattr__(name: str) -> str:
    # The library says it, and is loaded by the first use of it rather than by the import.
    if name != "__version__":
        raise AttributeError(f"module {__name__!r} has no attribute {name!r}")
    try:
        return version()
    except (ImportError, OSError) as fault:
        raise AttributeError(f"the version is unknown: {fault}") from fault
