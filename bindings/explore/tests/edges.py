"""A client of an edge-triggered epoll: edges.py DIRECTORY. It reads once for each edge, and prints each name."""

import ctypes
import os
import select
import struct
import sys

libc = ctypes.CDLL(None, use_errno=True)
fd = libc.inotify_init1(os.O_NONBLOCK | os.O_CLOEXEC)
if fd < 0 or libc.inotify_add_watch(fd, os.fsencode(sys.argv[1]), 0x100) < 0:
    sys.exit("no watch")
poller = select.epoll()
poller.register(fd, select.EPOLLIN | select.EPOLLET)
while True:
    poller.poll()
    try:
        data, at = os.read(fd, 65536), 0
    except BlockingIOError:
        continue
    while at < len(data):
        length = struct.unpack_from("iIII", data, at)[3]
        print(data[at + 16 : at + 16 + length].rstrip(b"\0").decode(), flush=True)
        at += 16 + length
