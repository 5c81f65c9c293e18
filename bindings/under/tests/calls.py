#!/usr/bin/python3
"""Calls by their answers: calls.py DIRECTORY instance|refused. A line for each.

`instance` makes calls of an inotify instance, which are answered as on a disk; `refused` makes calls that a tree does not
have, as docs/UNDER.md lists them."""
import ctypes
import errno
import fcntl
import mmap
import os
import signal
import socket
import struct
import sys
import termios

LIBRARY = ctypes.CDLL(None, use_errno=True)
AT_FDCWD, RENAME_WHITEOUT, F_NOTIFY, FIOASYNC = -100, 4, 1026, 0x5452
IN_CREATE, IN_DONT_FOLLOW, IN_ONLYDIR, IN_MASK_CREATE, IN_MASK_ADD = 0x100, 0x2000000, 0x1000000, 0x10000000, 0x20000000


def asked(answer):
    if answer < 0:
        raise OSError(ctypes.get_errno(), "")
    return answer


def line(name, call):
    try:
        answer = call()
    except OSError as refused:
        answer = errno.errorcode[refused.errno]
    print(f"{name}: {answer}", flush=True)


def make(path, text=b""):
    with open(path, "wb") as it:
        it.write(text)


def flags_of(handle):
    return sorted(name for name, bit in (("nonblock", os.O_NONBLOCK), ("async", 0o20000)) if fcntl.fcntl(handle, fcntl.F_GETFL) & bit)


def signal_of(call):
    """The signal that a call ends a process with."""
    child = os.fork()
    if not child:
        try:
            call()
        except OSError as refused:
            os._exit(refused.errno)
        os._exit(0)
    status = os.waitstatus_to_exitcode(os.waitpid(child, 0)[1])
    return signal.Signals(-status).name if status < 0 else errno.errorcode.get(status)


def watch(handle, path, mask=IN_CREATE):
    return asked(LIBRARY.inotify_add_watch(handle, path, ctypes.c_uint(mask)))


def watch_paths(plain):
    """Watches by each kind of path."""
    line("watch", lambda: watch(plain, b"d"))
    line("watch again", lambda: watch(plain, b"d/."))
    line("watch a file", lambda: watch(plain, b"d/f"))
    line("watch by ..", lambda: watch(plain, b"d/../d"))
    line("watch an absolute path", lambda: watch(plain, os.fsencode(os.path.abspath("d"))))
    line("watch by a link elsewhere", lambda: watch(plain, os.fsencode(os.environ["OUTSIDE"] + "/link")))
    line("watch by a descriptor", lambda: watch(plain, b"/proc/self/fd/%d" % os.open("d", os.O_RDONLY)))
    line("watch by /proc/self/cwd", lambda: watch(plain, b"/proc/self/cwd/d"))
    line("watch with IN_MASK_CREATE", lambda: watch(plain, b"d", IN_CREATE | IN_MASK_CREATE))
    line("watch with both IN_MASK", lambda: watch(plain, b"d", IN_CREATE | IN_MASK_CREATE | IN_MASK_ADD))
    line("watch a file with IN_ONLYDIR", lambda: watch(plain, b"d/f", IN_CREATE | IN_ONLYDIR))
    line("watch what is not there", lambda: watch(plain, b"d/none"))
    line("watch below a file", lambda: watch(plain, b"d/f/x"))
    line("watch no path", lambda: watch(plain, b""))
    line("watch a path that is too long", lambda: watch(plain, b"x" * 5000))
    line("watch a name that is too long", lambda: watch(plain, b"x" * 300))
    line("watch at a bad address", lambda: watch(plain, ctypes.c_void_p(8)))


def watch_by_others(plain, none):
    """Watches with each kind of mask, and by descriptors that are no instances."""
    line("watch by no instance", lambda: watch(none, b"d"))
    line("watch by no descriptor", lambda: watch(999, b"d"))
    line("watch without a mask", lambda: watch(plain, b"d", 0))
    line("watch nothing without a mask", lambda: watch(plain, b"d/none", 0))
    line("watch nothing with a bad mask", lambda: watch(plain, b"d/none", 0x10000))
    line("watch nothing with both IN_MASK", lambda: watch(plain, b"d/none", IN_CREATE | IN_MASK_CREATE | IN_MASK_ADD))
    line("watch with a bad mask", lambda: watch(plain, b"d", IN_CREATE | 0x10000))
    line("watch by a descriptor of O_PATH", lambda: watch(os.open("/proc/self/fd/%d" % plain, os.O_PATH), b"d"))
    line("watch by another of O_PATH", lambda: watch(os.open("d", os.O_PATH), b"d"))
    line("unwatch by one of O_PATH", lambda: asked(LIBRARY.inotify_rm_watch(os.open("d", os.O_PATH), 1)))
    line("O_ASYNC by one of O_PATH", lambda: fcntl.fcntl(os.open("d", os.O_PATH), fcntl.F_SETFL, 0o20000))
    line("watch the instance", lambda: asked(LIBRARY.inotify_add_watch(
        asked(LIBRARY.inotify_init()), b"/proc/self/fd/%d" % plain, IN_CREATE)))
    line("unwatch what is not watched", lambda: asked(LIBRARY.inotify_rm_watch(plain, 77)))
    line("unwatch by no instance", lambda: asked(LIBRARY.inotify_rm_watch(none, 1)))


def read_events(plain):
    """Each way to read."""
    pipe = os.pipe()
    line("read nothing", lambda: os.read(plain, 100))
    line("FIONREAD of nothing", lambda: struct.unpack("i", fcntl.ioctl(plain, termios.FIONREAD, b"\0\0\0\0"))[0])
    make("d/name")
    line("FIONREAD", lambda: struct.unpack("i", fcntl.ioctl(plain, termios.FIONREAD, b"\0\0\0\0"))[0])
    line("a short read", lambda: os.read(plain, 15))
    line("a read of a header", lambda: os.read(plain, 16))
    line("readv", lambda: os.readv(plain, [bytearray(100), bytearray(8)]))
    make("d/more")
    line("pread", lambda: os.pread(plain, 100, 0))
    line("lseek", lambda: os.lseek(plain, 0, os.SEEK_CUR))
    line("splice", lambda: os.splice(plain, pipe[1], 100))
    line("sendfile", lambda: os.sendfile(pipe[1], plain, None, 100))
    line("tee", lambda: asked(LIBRARY.tee(plain, pipe[1], 100, 0)))
    line("write", lambda: os.write(plain, b"x"))
    line("truncate", lambda: os.ftruncate(plain, 0))
    line("read", lambda: os.read(plain, 100).hex())


def instance_calls():
    """Calls on instances, and on a file that is none."""
    plain, none = asked(LIBRARY.inotify_init1(os.O_NONBLOCK)), os.open("/dev/null", os.O_RDONLY)
    os.mkdir("d")
    make("d/f")
    os.symlink(os.path.abspath("d"), os.environ["OUTSIDE"] + "/link")
    line("init with bad flags", lambda: asked(LIBRARY.inotify_init1(1)))
    line("flags", lambda: flags_of(plain))
    line("close on exec", lambda: os.get_inheritable(asked(LIBRARY.inotify_init1(os.O_CLOEXEC))))
    watch_paths(plain)
    watch_by_others(plain, none)
    read_events(plain)
    line("unwatch", lambda: asked(LIBRARY.inotify_rm_watch(plain, 1)))
    line("read what is ignored", lambda: os.read(plain, 100).hex())
    line("mmap", lambda: mmap.mmap(plain, 4096, prot=mmap.PROT_READ))
    line("mmap with MAP_PRIVATE", lambda: signal_of(lambda: mmap.mmap(plain, 4096, mmap.MAP_PRIVATE)[0]))
    line("readahead", lambda: asked(LIBRARY.readahead(plain, ctypes.c_long(0), 4096)))
    line("fsync", lambda: os.fsync(plain))
    line("dup", lambda: LIBRARY.inotify_add_watch(os.dup(plain), b"d", IN_CREATE))
    line("128 instances", lambda: [asked(LIBRARY.inotify_init()) for _ in range(200)] and "more")


def refused_calls():
    """What a tree does not have."""
    make("f", b"text")
    file = os.open("f", os.O_RDWR)
    instance = asked(LIBRARY.inotify_init1(0))
    line("chown to another", lambda: os.chown("f", 12345, 12345))
    line("symlink", lambda: os.symlink("f", "s"))
    line("mkfifo", lambda: os.mkfifo("p"))
    line("bind", lambda: socket.socket(socket.AF_UNIX).bind("socket"))
    line("setxattr", lambda: os.setxattr("f", "user.x", b"y"))
    line("getxattr", lambda: os.getxattr("f", "user.x"))
    line("mmap shared", lambda: mmap.mmap(file, 4))
    line("fallocate", lambda: asked(LIBRARY.fallocate(file, 0, ctypes.c_long(0), ctypes.c_long(100))))
    line("O_TMPFILE", lambda: os.open(".", os.O_TMPFILE | os.O_RDWR))
    line("RENAME_WHITEOUT", lambda: asked(LIBRARY.renameat2(AT_FDCWD, b"f", AT_FDCWD, b"g", RENAME_WHITEOUT)))
    line("truncate past 16 MiB", lambda: os.truncate("f", (1 << 24) + 1))
    line("write past 16 MiB", lambda: os.pwrite(file, b"xx", (1 << 24) - 1))
    line("write up to 16 MiB", lambda: os.pwrite(file, b"x", (1 << 24) - 1))
    line("watch outside", lambda: asked(LIBRARY.inotify_add_watch(instance, b"/etc", IN_CREATE)))
    line("O_ASYNC", lambda: fcntl.fcntl(instance, fcntl.F_SETFL, 0o20000))
    line("FIOASYNC", lambda: fcntl.ioctl(instance, FIOASYNC, struct.pack("i", 1)))
    line("F_NOTIFY", lambda: fcntl.fcntl(os.open(".", os.O_RDONLY), F_NOTIFY, 4))
    line("fanotify_init", lambda: asked(LIBRARY.fanotify_init(0, 0)))
    line("instances", lambda: all_of(lambda _: asked(LIBRARY.inotify_init1(os.O_CLOEXEC))))
    os.mkdir("many")
    for at in range(8300):
        os.mkdir(f"many/{at}")
    line("watches", lambda: all_of(lambda at: asked(LIBRARY.inotify_add_watch(instance, b"many/%d" % at, IN_CREATE))))


def all_of(call):
    """How often a call can be made."""
    for at in range(8300):
        try:
            call(at)
        except OSError as refused:
            return f"{at}, then {errno.errorcode[refused.errno]}"
    return "all"


os.chdir(sys.argv[1])
os.umask(0o022)
{"instance": instance_calls, "refused": refused_calls}[sys.argv[2]]()
