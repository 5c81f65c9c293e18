"""Whether a client has what is there: check.py [--ignore PATTERN] KIND [CALL], as a check of watchtree explore.

What the client said makes a set of paths: those that it said were made or moved in, without those that it said were deleted or
moved away and all below them. At the end it has to be the paths that are there, below the watched directory. Of what a moved
directory brings with it the client has to say nothing.

A client that says nothing of what was there before (every KIND but `whole`) has the paths with which it began, and is not judged
by a run in which a line happened before it watched each directory of these. `inotifywait` is how that one prints its events.
`marked` is a client that looks for a file `watching` when it watches the directory and its descendants: that request counts in
place of the watches. `unordered` is a client that reports events in any order: it lost a path if it never said that the path was
made or moved in, and no directory brought it from a path that it said; nothing else counts. With CALL a run is only judged if a
line makes that call: shrinking then keeps the line. The paths that have the PATTERN of --ignore in them are those of which the
client says that it reports nothing.
"""

import argparse
import os
import re
import sys
from typing import Iterator, List, Set, Tuple
from urllib.parse import unquote

OUT, MOUNT = os.environ["WT_OUT"], "/wt"
ROOT = f"{MOUNT}/d/"
EXCHANGE = 2


def spelled(path: str) -> str:
    """Returns the path of the program that a script spells so."""
    return MOUNT + unquote(path, errors="surrogateescape")


def said(kind: str) -> Iterator[Tuple[str, str]]:
    """Yields what the client said: + or -, and a path."""
    with open(f"{OUT}/stdout", encoding="utf-8", errors="surrogateescape") as file:
        for line in file:
            if kind == "inotifywait":
                path, events = line.rstrip("\n").split("|")
                yield "-" if re.search("DELETE|MOVED_FROM", events) else "+", path
            elif line[:2] in ("+ ", "- "):
                yield line[0], line[2:].rstrip("\n")


def happened() -> List[List[str]]:
    """Returns the words of each line of the script that was not refused, in the order in which they happened."""
    lines: List[List[str]] = []
    with open(f"{OUT}/trace", encoding="utf-8", errors="surrogateescape") as file:
        for line in file:
            if re.match(r"(@[0-9]+ )?> ", line):
                lines.append(line.split("> ", 1)[1].split())
            elif line.startswith("err "):
                lines.pop()
    return lines


def made_before(lines: List[List[str]]) -> Tuple[Set[str], Set[str]]:
    """Returns the paths that were there when the client began, and those of them that are directories, with the watched one."""
    paths: Set[str] = set()
    directories: Set[str] = set()
    for words in lines[:lines.index(["--"])]:
        if words[0] in ("create", "mkdir", "link"):
            paths.add(spelled(words[2 if words[0] == "link" else 1]))
        if words[0] == "mkdir":
            directories.add(spelled(words[1]))
        if words[0] in ("rename", "rename2", "unlink", "rmdir"):
            sys.exit(f"a set-up with {words[0]} is not supported")
    return {it for it in paths if it.startswith(ROOT)}, {it for it in directories if f"{it}/".startswith(ROOT)}


def moves_of(lines: List[List[str]]) -> List[Tuple[str, str]]:
    """Returns the old and the new path of each rename."""
    moves = []
    for words in lines:
        if words[0] in ("rename", "rename2"):
            if words[0] == "rename2" and int(words[3]) & EXCHANGE:
                sys.exit("a rename that exchanges is not supported")
            moves.append((spelled(words[1]), spelled(words[2])))
    return moves


def brought_by(lines: List[List[str]], has: Set[str]) -> Set[str]:
    """Returns the paths to which a directory was moved with a file that the client had where it was, in the order of the lines."""
    paths: Set[str] = set()
    brought: Set[str] = set()
    for words in lines:
        if words[0] in ("create", "mkdir", "link"):
            paths.add(spelled(words[2 if words[0] == "link" else 1]))
        if words[0] in ("unlink", "rmdir"):
            paths.discard(spelled(words[1]))
        for old, new in moves_of([words]):
            moved = {it: new + it[len(old):] for it in paths if it == old or it.startswith(old + "/")}
            brought |= {there for it, there in moved.items() if it != old and (it in has or it in brought)}
            paths = (paths - set(moved)) | set(moved.values())
    return brought


def believed(kind: str, before: Set[str], lines: List[List[str]]) -> Tuple[Set[str], Set[str]]:
    """Returns the paths that the client has at the end, and those that a moved directory brought from what it had."""
    moves = moves_of(lines)
    has = set(before)
    brought: Set[str] = set()
    if kind == "unordered":
        has |= {path.rstrip("/") for sign, path in said(kind) if sign == "+"}
        return has, brought_by(lines, has)
    for sign, path in said(kind):
        path = path.rstrip("/")
        if sign == "+":
            has.add(path)
            continue
        gone = {it for it in has | brought if it.startswith(path + "/")}
        has -= gone | {path}
        brought -= gone | {path}
        brought |= {new + it[len(path):] for old, new in moves if old == path for it in gone}
    return has, brought


def there(name: str) -> Set[str]:
    """Returns the paths that were there at the end."""
    with open(f"{OUT}/{name}", encoding="utf-8") as file:
        return {spelled(line.split(" ")[0]) for line in file}


def is_too_early(kind: str, directories: Set[str]) -> bool:
    """Whether a line happened before the client watched."""
    has_started = False
    unwatched = set(directories)
    with open(f"{OUT}/trace", encoding="utf-8", errors="surrogateescape") as file:
        for line in file:
            watch = re.match(r"# watch [0-9]+ (\S+) .*: [0-9]", line)
            if kind != "marked" and watch:
                unwatched.discard(spelled(watch[1]).rstrip("/"))
            if kind == "marked" and re.match(r"\? [0-9]+ lookup /d/watching$", line):
                unwatched.clear()
            if not unwatched:
                return False
            if has_started and re.match(r"(@[0-9]+ )?> ", line) and line != "> --\n":
                return True
            has_started = has_started or line == "> --\n"
    return True


def main() -> int:
    """Prints what is wrong with what the client has."""
    parser = argparse.ArgumentParser()
    parser.add_argument("--ignore", default="^$")
    parser.add_argument("kind")
    parser.add_argument("call", nargs="*")
    words = parser.parse_args()
    kind, lines = words.kind, happened()
    before, directories = made_before(lines)
    if (kind != "whole" and is_too_early(kind, directories)) or not set(words.call) <= {it[0] for it in lines}:
        return 0
    (has, brought), real = believed(kind, set() if kind == "whole" else before, lines), there("listing")
    lost = {it for it in real - has - brought if it.startswith(ROOT)}
    stale = {it for it in has - real if it.startswith(ROOT) and kind != "unordered"}
    wrong = [f"lost: {it}" for it in sorted(lost)] + [f"is gone: {it}" for it in sorted(stale)]
    wrong = [it for it in wrong if not re.search(words.ignore, it)]
    if os.environ["WT_STATUS"] not in ("0", "122"):
        wrong.append("the status of the run: " + os.environ["WT_STATUS"])
    for it in wrong:
        print(it, file=sys.stderr)
    return 1 if wrong else 0


if __name__ == "__main__":
    sys.exit(main())
