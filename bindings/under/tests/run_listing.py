"""Lists the tree that a script makes by `watchtree run`, as inside/listing lists a directory: run_listing.py PROGRAM SCRIPT LISTING

LISTING is a listing of the same tree: its paths are asked for, and each name that a directory has besides is listed too.
"""

import hashlib
import subprocess
import sys
import urllib.parse

program, script, listing = sys.argv[1:]
# (surrogates stand for bytes that are no text)
with open(listing, encoding="utf-8", errors="surrogateescape") as file:
    paths = [line.rsplit(" ", 4)[0] for line in file if line.startswith("/")]
with open(script, "rb") as file:
    lines = file.read().splitlines()
# (a line -- has no reply)
calls = [line for line in lines if line != b"--"]


def spell(path):
    """Returns a path as scripts spell it."""
    return b"".join(b"%c" % it if 0x20 < it < 0x7f and it != 0x25 else b"%%%02x" % it for it in path.encode("utf-8", "surrogateescape"))


asked = [b"%s %s%s" % (word, spell(path), more) for path in paths
         for word, more in ((b"stat", b""), (b"list", b""), (b"cat", b" 0 16777216"))]
said = subprocess.run([program, "run"], input=b"\n".join(lines + asked), stdout=subprocess.PIPE, check=True).stdout
replies = []
for line in said.splitlines():
    if line.startswith(b"  "):
        replies[-1].append(line[2:].decode())
    else:
        replies.append([line.decode()])
refused = [one.decode() for one, reply in zip(calls, replies) if not reply[0].startswith("ok")]
for one in refused:
    print(f"refused: {one}")
replies = iter(replies[len(calls):])
sums = []
for path in paths:
    stat, names, content = next(replies)[0].split(), next(replies), next(replies)[0].split()
    _, _, kind, mode, links, size = stat
    print(path, kind, f"{int(mode, 8):o}", links, size)
    if kind == "f":
        data = bytes.fromhex(content[1].replace("-", ""))
        sums.append(f"{hashlib.sha256(data).hexdigest()}  .{path}")
    for name in names[1:] if kind == "d" else ():
        inner = f"{path.rstrip('/')}/{urllib.parse.unquote(name, errors='surrogateescape')}"
        if inner not in paths:
            print(f"besides: {inner}")
print(*sums, sep="\n")
