#!/usr/bin/python3
"""Names that look like lines of a trace: hostile.py DIRECTORY FILE, or hostile.py check TRACE SCRIPT FILE.

The first makes calls of such names, and leaves in FILE which watches it made and which records it took. The second
looks whether the trace has these, the lines of the script, requests, and nothing else."""
import collections
import ctypes
import os
import re
import struct
import sys

LIBRARY = ctypes.CDLL(None, use_errno=True)
EVENTS = {0x40: "MOVED_FROM", 0x80: "MOVED_TO", 0x100: "CREATE", 0x200: "DELETE"}
NAMES = [b"a\n# watch 1 :d 0x100: 7", b"a\n> create :x 644\nok 9", b"a\n< 1 wd 1 CREATE name x",
         b"\n? 7 lookup :x", b"\r@9 > unlink :x", b"@9 > mkdir :x 755", b"> create :x 644", b"? 7 create :x",
         b"< 1 wd 1 DELETE", b"# ended 0", b"#", b"?", b">", b"@", b"<", b"\x1b[2K\x1b[1A", b"\x08\x08\x7f",
         b"\xc2\x85\xe2\x80\xa8", b"\xff\xfe", b"name x", b" ", b"\t", b"%0a", b"%", b"\\n", b"gone", b"outside",
         b"--", b"x 0x100: 7", b"n" * 255]


def spelled(name):
    """A name as scripts and traces have it."""
    return "".join(chr(it) if 0x20 < it < 0x7f and it != 0x25 else f"%{it:02x}" for it in name)


def act(directory, out):
    os.chdir(os.fsencode(directory))
    instance = LIBRARY.inotify_init1(os.O_NONBLOCK)
    for name in NAMES:
        path = b"d/" + name
        os.mkdir(path)
        watch = LIBRARY.inotify_add_watch(instance, path, sum(EVENTS))
        print(f"# watch 1 /{spelled(path)} 0x3c0: {watch}", file=out)
        os.close(os.open(path + b"/" + name, os.O_CREAT | os.O_WRONLY))
        os.rename(path + b"/" + name, path + b"/" + name[::-1])
        os.path.exists(path + b"/none" + name[:200])
        os.unlink(path + b"/" + name[::-1])
        stored, at = b"", 0
        for _ in range(9):
            try:
                stored += os.read(instance, 65536)
            except BlockingIOError:
                break
        while at < len(stored):
            wd, mask, cookie, size = struct.unpack_from("iIII", stored, at)
            shown = f" cookie {cookie}" if cookie else ""
            taken = spelled(stored[at + 16:at + 16 + size].rstrip(bytes(1)))
            print(f"< 1 wd {wd} {EVENTS[mask]}{shown} name {taken}", file=out)
            at += 16 + size


KNOWN = [r"\? \d+ [a-z_]+( (/\S*|\d+|gone|outside))?", r"(@\d+ )?> \S.*", r"(ok|err)( \S+)*", r"  \S+( \S+)*",
         r"# (instance|close) \d+", r"# ended \d+", r"# watch \d+ /\S* 0x[0-9a-f]+: -?\d+",
         r"< \d+ wd \d+( [A-Z_]+)+( cookie \d+)? name \S+"]


def compare(what, found, file):
    with open(file, encoding="ascii") as stored:
        found, wanted = collections.Counter(found), collections.Counter(stored.read().split("\n")[:-1])
    if found != wanted:
        sys.exit(f"{what}: too many are {dict(found - wanted)}, too few {dict(wanted - found)}")


def check(trace, script, out):
    with open(trace, "rb") as file:
        lines = file.read().decode("latin-1").split("\n")[:-1]
    for line in lines:
        if not any(re.fullmatch(it, line) for it in KNOWN) or not all(0x20 <= ord(it) < 0x7f for it in line):
            sys.exit(f"the trace has the line {line!r}")

    shown = [re.sub(r"^@\d+ ", "", line) for line in lines]
    compare("lines of the script", (it[2:] for it in shown if it.startswith("> ")), script)
    compare("watches and records", (it for it in shown if it.startswith(("# watch", "< "))), out)
    print(f"{len(lines)} lines are what they seem")


if sys.argv[1] == "check":
    check(*sys.argv[2:])
else:
    with open(sys.argv[2], "w", encoding="ascii") as file:
        act(sys.argv[1], file)
