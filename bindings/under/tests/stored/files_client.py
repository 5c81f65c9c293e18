"""Calls on files below a directory, and what each answers: the same below /wt as on a disk.

The unlink of a directory is skipped, which Linux refuses with another error than POSIX has.
"""

import errno
import os
import sys

top = sys.argv[1]


def tell(name, call, *words):
    try:
        print(name, call(*words))
    except OSError as fault:
        print(name, errno.errorcode[fault.errno])


def wrote(path, mode, data):
    with open(f"{top}{path}", mode) as file:
        return file.write(data)


def told(path):
    stat = os.stat(f"{top}{path}")
    return oct(stat.st_mode), stat.st_size if not os.path.isdir(f"{top}{path}") else "-"


def read(path):
    with open(f"{top}{path}", "rb") as file:
        return file.read(2), file.read(), file.read()


def on(call, *paths):
    return call(*[f"{top}{it}" for it in paths])


os.umask(0)
for turn in range(2):
    tell("mkdir", on, os.mkdir, "/d")
    tell("mkdir", on, os.mkdir, "/d/e")
    tell("mkdir", on, os.mkdir, "/none/e")
    tell("write", wrote, "/d/f", "wb", b"hello")
    tell("write", wrote, "/d/f", "ab", b" again")
    tell("make", wrote, "/d/f", "xb", b"")
    tell("make", wrote, "/d/g", "xb", b"g")
    tell("stat", told, "/d/f")
    tell("read", read, "/d/f")
    tell("read", read, "/d")
    tell("truncate", os.truncate, f"{top}/d/f", 4)
    tell("chmod", os.chmod, f"{top}/d/f", 0o600)
    tell("link", on, os.link, "/d/f", "/d/l")
    tell("stat", told, "/d/l")
    tell("rename", on, os.rename, "/d/g", "/d/l")
    tell("rename", on, os.rename, "/d", "/d/e/x")
    tell("rename", on, os.replace, "/d/l", "/d/e/l")
    tell("list", lambda: sorted(on(os.listdir, "/d")))
    tell("rmdir", on, os.rmdir, "/d/e")
    tell("unlink", on, os.unlink, "/d/e/l")
    tell("rmdir", on, os.rmdir, "/d/e")
    tell("exists", on, os.path.exists, "/d/e")
    tell("list", lambda: sorted(on(os.listdir, "/d")))
