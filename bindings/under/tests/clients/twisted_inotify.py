"""Prints the events that twisted's INotify reports for a directory, recursively."""
import sys
from twisted.internet import inotify, reactor
from twisted.python import filepath


def show(_, path, mask):
    print(",".join(inotify.humanReadableMask(mask)), path.path.decode(), flush=True)


notifier = inotify.INotify()
notifier.startReading()
notifier.watch(filepath.FilePath(sys.argv[1].encode()), callbacks=[show], autoAdd=True, recursive=True)
reactor.run()
