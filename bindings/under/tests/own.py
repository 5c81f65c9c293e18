#!/usr/bin/python3
"""The events of a program's own calls: own.py DIRECTORY. A line for each: the call, and its events on the directory."""
import ctypes
import os
import struct
import sys

LIBRARY = ctypes.CDLL(None, use_errno=True)
NAMES = ("ACCESS MODIFY ATTRIB CLOSE_WRITE CLOSE_NOWRITE OPEN MOVED_FROM MOVED_TO CREATE DELETE DELETE_SELF "
         "MOVE_SELF - UNMOUNT Q_OVERFLOW IGNORED").split()
IN_ALL_EVENTS = 0xfff
os.chdir(sys.argv[1])
os.umask(0o022)
instance = LIBRARY.inotify_init1(os.O_NONBLOCK)
LIBRARY.inotify_add_watch(instance, b".", IN_ALL_EVENTS)


def events():
    """The events since the last look."""
    try:
        stored, at, told = os.read(instance, 65536), 0, []
    except BlockingIOError:
        return "-"
    while at < len(stored):
        _, mask, _, size = struct.unpack_from("iIII", stored, at)
        name = stored[at + 16:at + 16 + size].rstrip(b"\0").decode()
        told.append("+".join(NAMES[bit] for bit in range(16) if mask >> bit & 1) + (" " + name if name else ""))
        at += 16 + size
    return ", ".join(told)


def write(path, flags, pieces, sync=False):
    handle = os.open(path, os.O_WRONLY | flags, 0o644)
    for piece in pieces:
        os.write(handle, piece)
        if sync:
            os.fsync(handle)
    os.close(handle)


def read(path, count):
    handle = os.open(path, os.O_RDONLY)
    while count and os.read(handle, count):
        pass
    os.close(handle)


def hold(path):
    """Removes a file that is open, and closes it."""
    handle = os.open(path, os.O_RDONLY)
    os.unlink(path)
    os.close(handle)


for name, call in (
        ("make a file", lambda: write("f", os.O_CREAT, [])),
        ("make and write it", lambda: write("g", os.O_CREAT, [b"a"])),
        ("write it in ten pieces", lambda: write("h", os.O_CREAT, [b"x" * 1000] * 10)),
        ("write twice, with fsync", lambda: write("f", 0, [b"1", b"2"], sync=True)),
        ("append", lambda: write("f", os.O_APPEND, [b"abc"])),
        ("open with O_TRUNC and write", lambda: write("f", os.O_TRUNC, [b"abc"])),
        ("open for writing and close", lambda: write("f", 0, [])),
        ("open for reading and close", lambda: read("f", 0)),
        ("read to the end", lambda: read("f", 100)),
        ("truncate", lambda: os.truncate("f", 1)),
        ("chmod", lambda: os.chmod("f", 0o600)),
        ("utimes", lambda: os.utime("f", (1000, 1000))),
        ("stat", lambda: os.stat("f")),
        ("rename", lambda: os.rename("f", "e")),
        ("rename over a file", lambda: os.rename("e", "g")),
        ("link", lambda: os.link("g", "l")),
        ("unlink one of two", lambda: os.unlink("l")),
        ("unlink", lambda: os.unlink("h")),
        ("unlink while it is open", lambda: hold("g")),
        ("mkdir", lambda: os.mkdir("d")),
        ("list it", lambda: os.listdir("d")),
        ("rename it", lambda: os.rename("d", "c")),
        ("rmdir", lambda: os.rmdir("c"))):
    call()
    print(f"{name}: {events()}", flush=True)
