"""Random calls on files: random_calls.py DIRECTORY SEED COUNT [watch]. A line for each, with what it answered.

Up to eight descriptors stay open across calls, so files lose their names, are replaced, cut and grown while they are open.
With `watch` the calls are mixed with reads and watches of an inotify instance."""
import ctypes
import errno
import os
import random
import stat
import sys

directory, seed, count = sys.argv[1], int(sys.argv[2]), int(sys.argv[3])
watches = sys.argv[4:] == ["watch"]
rng = random.Random(seed)
library = ctypes.CDLL(None, use_errno=True)
open_files = {}
os.umask(0o022)
os.chdir(directory)


def file_path():
    return rng.choice(["", "", "x/", "x/y/", "z/"]) + rng.choice("abcdef")


def directory_path():
    return rng.choice(["x", "x/y", "z", "x/y/w"])


def shown(is_):
    """What of a stat(2) is the same on every file system: of a directory its mode alone."""
    if stat.S_ISDIR(is_.st_mode):
        return oct(is_.st_mode)
    return oct(is_.st_mode), is_.st_nlink, is_.st_size


def open_one():
    flags = rng.choice([os.O_RDONLY, os.O_WRONLY, os.O_RDWR, os.O_RDWR]) | rng.choice([0, os.O_TRUNC, 0, 0])
    flags |= rng.choice([0, os.O_CREAT, os.O_CREAT, os.O_CREAT | os.O_EXCL]) | rng.choice([0, 0, os.O_APPEND])
    slot, path = rng.randrange(8), file_path()
    if slot in open_files:
        os.close(open_files.pop(slot))
    open_files[slot] = os.open(path, flags, 0o644)
    return path, flags


def use_descriptor():
    slot, size = rng.randrange(8), rng.choice([1, 5, 100, 5000])
    offset, data = rng.choice([0, 3, 90, 4096, 9000]), bytes([rng.randrange(65, 91)]) * size
    if slot not in open_files:
        return "none"
    handle = open_files[slot]
    return rng.choice([lambda: os.write(handle, data), lambda: os.pwrite(handle, data, offset),
                       lambda: os.pread(handle, size, offset), lambda: os.read(handle, size),
                       lambda: shown(os.fstat(handle)), lambda: os.ftruncate(handle, offset),
                       lambda: os.fsync(handle), lambda: os.fchmod(handle, 0o640)])()


def close_one():
    slot = rng.randrange(8)
    return os.close(open_files.pop(slot)) if slot in open_files else "none"


def whole_file():
    with open(file_path(), "rb") as file:
        return file.read()


def everything():
    return [(where, sorted(below), sorted(names)) for where, below, names in sorted(os.walk("."))]


CALLS = [open_one] * 4 + [use_descriptor] * 8 + [
    close_one, whole_file, everything,
    lambda: os.truncate(file_path(), rng.choice([0, 10, 6000])), lambda: os.unlink(file_path()),
    lambda: os.link(file_path(), file_path()), lambda: os.rename(file_path(), file_path()),
    lambda: os.rename(file_path(), file_path()), lambda: os.mkdir(directory_path()), lambda: os.rmdir(directory_path()),
    lambda: os.rename(directory_path(), directory_path()), lambda: shown(os.stat(file_path())),
    lambda: os.chmod(file_path(), rng.choice([0o644, 0o600, 0o755]))]


def answered(call):
    try:
        return call()
    except OSError as error:
        return errno.errorcode[error.errno]


instance = library.inotify_init1(os.O_NONBLOCK) if watches else -1
for number in range(count):
    print(number, answered(rng.choice(CALLS)))
    if watches and number % 7 == 0:
        print(answered(lambda: os.read(instance, 65536)))
    if watches and number % 11 == 0:
        path = os.path.join(directory, rng.choice([".", "x", file_path()]))
        print("watch", path, library.inotify_add_watch(instance, path.encode(), 0xfff))
for handle in open_files.values():
    os.close(handle)
for where, _, names in sorted(os.walk(".")):
    for name in sorted(names):
        path = os.path.join(where, name)
        with open(path, "rb") as file:
            print(path, shown(os.stat(path)), file.read())
