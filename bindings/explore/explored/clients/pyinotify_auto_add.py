"""What pyinotify says of a directory with rec and auto_add, as `+ PATH` and `- PATH`: pyinotify_auto_add.py DIRECTORY

It follows a directory that is moved if IN_MOVE_SELF is watched too.
"""

import sys

import pyinotify

MADE, GONE = pyinotify.IN_CREATE | pyinotify.IN_MOVED_TO, pyinotify.IN_DELETE | pyinotify.IN_MOVED_FROM


def show(event):
    """Prints an event."""
    if event.mask & (MADE | GONE):
        print("+" if event.mask & MADE else "-", event.pathname, flush=True)


manager = pyinotify.WatchManager()
notifier = pyinotify.Notifier(manager, show)
manager.add_watch(sys.argv[1], MADE | GONE | pyinotify.IN_MOVE_SELF, rec=True, auto_add=True)
notifier.loop()
