"""Prints the events that pyinotify reports for a directory, recursively, by its Notifier."""
import sys
import pyinotify

manager = pyinotify.WatchManager()


def show(event):
    print(event.maskname, event.pathname, flush=True)


notifier = pyinotify.Notifier(manager, show)
manager.add_watch(sys.argv[1], pyinotify.ALL_EVENTS, rec=True, auto_add=True)
notifier.loop()
