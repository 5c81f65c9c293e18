"""Prints the events that the module inotify reports for a directory, recursively, by its InotifyTree."""
import sys
import inotify.adapters

for header, names, path, name in inotify.adapters.InotifyTree(sys.argv[1]).event_gen(yield_nones=False):
    print("|".join(names), path, name, flush=True)
