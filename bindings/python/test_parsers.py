"""Debian's parsers of inotify records, unchanged, read what the tree gives as the module reads it.

usage: test_parsers.py [--any]. Its last line names the packages that were read with, and those that are not installed.
With --any its status only says whether any is.
"""

import importlib
import importlib.util
import os
import sys
import types
import warnings

from watchtree import Tree, parse

warnings.simplefilter("ignore")
# Debian's packages, also where another python3 comes first.
sys.path.append("/usr/lib/python3/dist-packages")


def raised():
    """Returns the bytes of a day's calls."""
    with Tree() as tree, tree.inotify() as instance:
        tree.mkdir("/d")
        tree.mkdir("/e")
        assert (instance.add_watch("/d"), instance.add_watch("/e")) == (1, 2)
        tree.mkdir("/d/sub")
        tree.create("/d/a")
        tree.rename("/d/a", "/d/" + "b" * 200)
        tree.create("/d/\xfcml")
        tree.rename("/d/" + "b" * 200, "/e/b")
        tree.unlink("/d/\xfcml")
        tree.rmdir("/d/sub")
        tree.rmdir("/d")
        return instance.read_bytes()


def piped(data):
    """Returns a descriptor that the bytes can be read from."""
    low, high = os.pipe()
    os.write(high, data)
    os.close(high)
    return low


def by_watchdog(module, data):
    found = module.Inotify._parse_event_buffer(data)
    return [(wd, mask, cookie, os.fsdecode(name)) for wd, mask, cookie, name in found]


def by_pyinotify(module, data):
    notifier = types.SimpleNamespace(_fd=piped(data), _threshold=0, _coalesce=False, _eventq=[])
    module.Notifier.read_events(notifier)
    os.close(notifier._fd)
    return [(it.wd, it.mask, it.cookie, (it.name or "").rstrip("\0")) for it in notifier._eventq]


def by_inotify(module, data):
    adapter = module.Inotify.__new__(module.Inotify)
    low = piped(data)
    names = {"buffer": b"", "watches_r": {1: "/d", 2: "/e"}, "inotify_fd": low}
    adapter.__dict__.update({f"_Inotify__{it}": value for it, value in names.items()})
    found = []
    while True:
        more = list(adapter._handle_inotify_event(low))
        if not more:
            return [(head.wd, head.mask, head.cookie, name) for head, _, _, name in found]
        found += more


PARSERS = {
    "watchdog": ("watchdog.observers.inotify_c", by_watchdog),
    "pyinotify": ("pyinotify", by_pyinotify),
    "inotify": ("inotify.adapters", by_inotify),
}


def main():
    if sys.argv[1:] == ["--any"]:
        sys.exit(not any(importlib.util.find_spec(path.partition(".")[0]) for path, _ in PARSERS.values()))
    data = raised()
    wanted = [(it.wd, int(it.mask), it.cookie, it.name) for it in parse(data)]
    assert len(wanted) > 10
    used, missing = [], []
    for name, (path, by) in PARSERS.items():
        try:
            module = importlib.import_module(path)
        except ImportError:
            missing.append(name)
            continue
        found = by(module, data)
        assert found == wanted, f"{name} reads {found}, and not {wanted}"
        used.append(name)
    print(f"read with: {' '.join(used) or 'none'}; left out: {' '.join(missing) or 'none'}")


if __name__ == "__main__":
    main()
