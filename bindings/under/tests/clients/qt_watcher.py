"""Prints the events that Qt's QFileSystemWatcher reports for a directory and for a file."""
import signal
import sys
from PyQt5.QtCore import QCoreApplication, QFileSystemWatcher

signal.signal(signal.SIGTERM, signal.SIG_DFL)
application = QCoreApplication(sys.argv)
watcher = QFileSystemWatcher([sys.argv[1], sys.argv[1] + "/keep"])
watcher.directoryChanged.connect(lambda path: print("directory", path, flush=True))
watcher.fileChanged.connect(lambda path: print("file", path, flush=True))
application.exec_()
