"""What watchdog's recursive Observer says, as `+ PATH` and `- PATH`: watchdog_observer.py DIRECTORY"""

import sys

from watchdog.events import FileSystemEventHandler
from watchdog.observers import Observer


class Printer(FileSystemEventHandler):
    """Prints what is created, deleted and moved."""

    def on_created(self, event):
        print("+", event.src_path, flush=True)

    def on_deleted(self, event):
        print("-", event.src_path, flush=True)

    def on_moved(self, event):
        print("-", event.src_path)
        print("+", event.dest_path, flush=True)


observer = Observer()
observer.schedule(Printer(), sys.argv[1], recursive=True)
observer.start()
observer.join()
