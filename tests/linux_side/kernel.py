"""Runs lines of scripts on the running kernel: on a tmpfs of its own, in which a child process is locked up."""
import ctypes
import errno
import os
import pickle
import select
import shutil
import signal
import stat
import struct
import tempfile
import time

from . import lines as scripts

LIBRARY = ctypes.CDLL(None, use_errno=True)
AT_FDCWD = -100
CLONE_NEWNS, CLONE_NEWUSER = 0x00020000, 0x10000000
MS_REC, MS_PRIVATE = 0x4000, 0x40000
IN_NONBLOCK, IN_CLOEXEC = 0o4000, 0o2000000
ROOM = 1 << 22


def asked(answer):
    """The answer of a call of the C library, or its error."""
    if answer < 0:
        raise OSError(ctypes.get_errno(), "")
    return answer


def has_inotify():
    """Whether the kernel has inotify."""
    handle = LIBRARY.inotify_init1(IN_CLOEXEC)
    if handle >= 0:
        os.close(handle)
    return handle >= 0


def queue_limit():
    """How many records wait in a queue at most."""
    with open("/proc/sys/fs/inotify/max_queued_events") as it:
        return int(it.read())


class Kernel:
    """The calls of lines, made on the running kernel."""

    def __init__(self, root=b""):
        self.root, self.handles, self.room = root, {}, ctypes.create_string_buffer(ROOM)

    def path(self, word):
        """A path's word as the kernel's path: below the root, where that is no root of the process."""
        text = scripts.unescaped(word)
        return self.root + text if text.startswith(b"/") else text

    def reply(self, line):
        """The reply to a line."""
        try:
            answer = getattr(self, "do_" + line.name)(*line.words)
        except OSError as refused:
            return scripts.Reply(errno.errorcode[refused.errno], (), ())
        if line.name in scripts.READS:
            return scripts.Reply(None, (), tuple(scripts.records_of(answer)))
        return scripts.Reply(None, tuple(str(it) for it in answer or ()), ())

    def opened(self, path, flags, mode=0):
        """A file that was opened."""
        return asked(LIBRARY.open(self.path(path), flags | os.O_CLOEXEC, ctypes.c_uint(mode)))

    def do_mkdir(self, path, mode):
        name = self.path(path)
        asked(LIBRARY.mkdir(name, ctypes.c_uint(int(mode, 8))))
        return [os.lstat(name).st_ino]

    def do_create(self, path, mode):
        handle = self.opened(path, os.O_CREAT | os.O_EXCL | os.O_WRONLY, int(mode, 8))
        number = os.fstat(handle).st_ino
        os.close(handle)
        return [number]

    def do_write(self, path, offset, digits):
        stored = bytes.fromhex(digits) if digits != "-" else b""
        handle = self.opened(path, os.O_WRONLY)
        try:
            return [asked(LIBRARY.pwrite(handle, stored, ctypes.c_size_t(len(stored)), signed(offset)))]
        finally:
            os.close(handle)

    def do_cat(self, path, offset, count):
        handle = self.opened(path, os.O_RDONLY)
        try:
            wanted = ctypes.c_size_t(min(int(count), ROOM))
            found = asked(LIBRARY.pread(handle, self.room, wanted, signed(offset)))
            return [ctypes.string_at(self.room, found).hex() or "-"]
        finally:
            os.close(handle)

    def do_truncate(self, path, size):
        asked(LIBRARY.truncate(self.path(path), signed(size)))

    def do_chmod(self, path, mode):
        asked(LIBRARY.chmod(self.path(path), ctypes.c_uint(int(mode, 8))))

    def do_link(self, old, new):
        asked(LIBRARY.link(self.path(old), self.path(new)))

    def do_unlink(self, path):
        asked(LIBRARY.unlink(self.path(path)))

    def do_rmdir(self, path):
        asked(LIBRARY.rmdir(self.path(path)))

    def do_rename(self, old, new):
        asked(LIBRARY.rename(self.path(old), self.path(new)))

    def do_rename2(self, old, new, flags):
        old, new = self.path(old), self.path(new)
        asked(LIBRARY.renameat2(AT_FDCWD, old, AT_FDCWD, new, ctypes.c_uint(int(flags))))

    def do_stat(self, path):
        found = os.lstat(self.path(path))
        kind = "d" if stat.S_ISDIR(found.st_mode) else "f"
        return [found.st_ino, kind, "%04o" % stat.S_IMODE(found.st_mode), found.st_nlink, found.st_size]

    def do_list(self, path):
        handle = self.opened(path, os.O_RDONLY | os.O_DIRECTORY)
        try:
            names = []
            while True:
                found = asked(LIBRARY.getdents64(handle, self.room, ctypes.c_size_t(1 << 16)))
                if found == 0:
                    break
                names += entries(ctypes.string_at(self.room, found))
        finally:
            os.close(handle)
        return [len(names), *map(printed, names)]

    def do_init(self, limit=""):
        handle = asked(LIBRARY.inotify_init1(IN_NONBLOCK | IN_CLOEXEC))
        self.handles[len(self.handles) + 1] = handle
        return [len(self.handles)]

    def handle(self, number):
        """The kernel's handle of an instance, -1 where none is open."""
        return self.handles.get(int(number), -1)

    def do_watch(self, number, path, mask):
        name = self.path(path)
        return [asked(LIBRARY.inotify_add_watch(self.handle(number), name, ctypes.c_uint(int(mask, 16))))]

    def do_unwatch(self, number, wd):
        asked(LIBRARY.inotify_rm_watch(self.handle(number), int(wd)))

    def do_hex(self, number, count):
        wanted = ctypes.c_size_t(min(int(count), ROOM))
        return ctypes.string_at(self.room, asked(LIBRARY.read(self.handle(number), self.room, wanted)))

    def do_close(self, number):
        os.close(self.handle(number))
        self.handles[int(number)] = -1


def signed(word):
    """A number of 64 bits as an off_t."""
    return ctypes.c_longlong(int(word))


def entries(stored):
    """The names in what getdents64 gave, but for `.` and `..`."""
    names, at = [], 0
    while at < len(stored):
        size = struct.unpack_from("<H", stored, at + 16)[0]
        name = stored[at + 19:at + size].split(b"\0")[0]
        names += [name] * (name not in (b".", b".."))
        at += size
    return names


def printed(name):
    """A name as the program prints it."""
    return "".join(chr(it) if 0x21 <= it <= 0x7e and it != 0x25 else "%%%02X" % it for it in name)


class Late(Exception):
    """A run took too long."""


def mount_alone(room, is_root):
    """Locks this process up in a new tmpfs, which is gone with it. Without root it becomes the root of its own users."""
    user, group = os.getuid(), os.getgid()
    asked(LIBRARY.unshare(CLONE_NEWNS | (0 if is_root else CLONE_NEWUSER)))
    if not is_root:
        for name, said in ("setgroups", "deny"), ("uid_map", f"0 {user} 1"), ("gid_map", f"0 {group} 1"):
            with open(f"/proc/self/{name}", "w") as it:
                it.write(said)
    asked(LIBRARY.mount(b"none", b"/", None, ctypes.c_ulong(MS_REC | MS_PRIVATE), None))
    asked(LIBRARY.mount(b"none", room.encode(), b"tmpfs", ctypes.c_ulong(0), b"mode=755"))
    os.chroot(room)
    os.chdir("/")


def run_child(sender, lines, room, way):
    """What a child process does: it enters its namespace, makes the calls and sends the replies."""
    try:
        os.umask(0)
        if way == "folder":
            os.chmod(room, 0o755)
            os.chdir(room)
            made = Kernel(room.encode())
        else:
            mount_alone(room, way == "root")
            made = Kernel()
        told = [made.reply(it) for it in lines]
    except Exception as why:
        told = f"{type(why).__name__}: {why}"
    with os.fdopen(sender, "wb") as it:
        pickle.dump(told, it)


def received(reader, seconds):
    """All bytes of a pipe, within a time."""
    pieces, end = [], time.monotonic() + seconds
    while True:
        if not select.select([reader], [], [], max(0, end - time.monotonic()))[0]:
            raise Late(f"the kernel's side took more than {seconds} s")
        pieces.append(os.read(reader, 1 << 20))
        if not pieces[-1]:
            return b"".join(pieces)


def run(lines, way, seconds=20):
    """The kernel's replies to lines, on a tmpfs that nobody else sees, or in a folder of /dev/shm."""
    room = tempfile.mkdtemp(prefix="watchtree-linux-", dir="/dev/shm" if way == "folder" else None)
    reader, sender = os.pipe()
    child = os.fork()
    if child == 0:
        try:
            os.close(reader)
            run_child(sender, lines, room, way)
        finally:
            os._exit(0)
    os.close(sender)
    try:
        told = pickle.loads(received(reader, seconds))
    finally:
        os.kill(child, signal.SIGKILL)
        os.waitpid(child, 0)
        os.close(reader)
        shutil.rmtree(room)
    if isinstance(told, str):
        raise OSError(told)
    return told


def own_tree():
    """How a tree on a tmpfs can be had: by root, by users of its own, or as a folder of /dev/shm; or nothing."""
    for way in ("root", "users"):
        try:
            run([], way)
            return way
        except OSError:
            pass
    with open("/proc/self/mounts") as it:
        return "folder" if any(line.split()[1:3] == ["/dev/shm", "tmpfs"] for line in it) else None
