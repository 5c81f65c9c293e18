"""A watcher in Python by system calls alone, as somebody writes it in ten minutes: list_watch.py DIRECTORY. It prints each
record, and lists each new directory."""
import ctypes
import os
import struct
import sys

LIBRARY = ctypes.CDLL(None, use_errno=True)
instance, paths = LIBRARY.inotify_init1(os.O_CLOEXEC), {}


def watch(path):
    wd = LIBRARY.inotify_add_watch(instance, os.fsencode(path), 0x3c6)
    if wd < 0:
        print(path, os.strerror(ctypes.get_errno()), flush=True)
        return
    paths[wd] = path
    print(path, sorted(os.listdir(path)) if os.path.isdir(path) else "is gone", flush=True)


watch(sys.argv[1])
while True:
    stored, at = os.read(instance, 65536), 0
    while at < len(stored):
        wd, mask, _, size = struct.unpack_from("iIII", stored, at)
        name = stored[at + 16:at + 16 + size].rstrip(b"\0").decode()
        at += 16 + size
        print(f"{mask:#x} {paths[wd]}/{name}", flush=True)
        if mask & 0x40000100 == 0x40000100:
            watch(f"{paths[wd]}/{name}")
