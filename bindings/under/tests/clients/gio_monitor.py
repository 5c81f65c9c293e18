"""Prints the events that Gio.FileMonitor reports for a directory."""
import sys
from gi.repository import Gio, GLib


def show(_, path, other, kind):
    print(kind.value_nick, path.get_path(), other.get_path() if other else "", flush=True)


monitor = Gio.File.new_for_path(sys.argv[1]).monitor_directory(Gio.FileMonitorFlags.WATCH_MOVES, None)
monitor.connect("changed", show)
GLib.MainLoop().run()
