"""A client that asks how many bytes wait, and reads as many: counts.py DIRECTORY. It prints what it asked for, and what it got."""

import array
import ctypes
import fcntl
import os
import select
import sys
import termios

libc = ctypes.CDLL(None, use_errno=True)
fd = libc.inotify_init1(os.O_CLOEXEC)
if fd < 0 or libc.inotify_add_watch(fd, os.fsencode(sys.argv[1]), 0x1c0) < 0:
    sys.exit("no watch")
while True:
    select.select([fd], [], [])
    size = array.array("i", [0])
    fcntl.ioctl(fd, termios.FIONREAD, size)
    print(size[0], len(os.read(fd, size[0])), flush=True)
