"""Prints the events that watchdog's Observer reports for a directory, recursively."""
import sys
from watchdog.events import FileSystemEventHandler
from watchdog.observers import Observer


class Printer(FileSystemEventHandler):
    def on_any_event(self, event):
        kind = "directory" if event.is_directory else "file"
        print(event.event_type, kind, event.src_path, getattr(event, "dest_path", ""), flush=True)


observer = Observer()
observer.schedule(Printer(), sys.argv[1], recursive=True)
observer.start()
observer.join()
