"""The timeline of a run: what the program asked, what happened, and which events it read."""

import os
import subprocess
import sys
from typing import Dict, Iterator, List, Optional, Tuple

import traces
from folder import Folder
from traces import Asked, Called, Entry, Happened, Told

# The most requests in a row that are printed one by one; more are printed as one line.
SHOWN_IN_A_ROW = 6
# What a request of the program changes: a page of such a run would want these as lines of a script.
CHANGES = ("mknod", "mkdir", "unlink", "rmdir", "rename", "link", "create", "setattr", "write")
BITS = ("ACCESS", "MODIFY", "ATTRIB", "CLOSE_WRITE", "CLOSE_NOWRITE", "OPEN", "MOVED_FROM", "MOVED_TO", "CREATE", "DELETE",
        "DELETE_SELF", "MOVE_SELF", "UNMOUNT", "Q_OVERFLOW", "IGNORED")


def timeline(trace: List[Entry], is_whole: bool = False) -> str:
    """Returns the timeline as text: the number of the request, who acts, and what. Long rows of requests are one line
    unless all is wanted."""
    rows = list(_rows(trace))
    if not is_whole:
        rows = list(_shortened(rows))
    return "".join(f"{number:>9}  {who:<8} {what}".rstrip() + "\n" for number, who, what in rows)


Row = Tuple[str, str, str]


def _rows(trace: List[Entry]) -> Iterator[Row]:
    paths: Dict[Tuple[int, int], str] = {}
    is_setup = True
    for it in trace:
        if isinstance(it, Happened):
            if it.text == "--":
                yield "", "tree", "the program starts" if is_setup else "--"
                is_setup = False
                continue
            answer = it.reply[0] if it.reply else ""
            refused = f"   ({answer})" if answer.startswith("err") else ""
            who = "second" if it.is_turn else "tree"
            yield "", who, it.text + refused + (f"   before request {it.before}" if it.before else "")
        elif isinstance(it, Asked):
            yield str(it.number), "program", it.text
        elif isinstance(it, Called):
            yield from _call(it.text.split(), paths)
        else:
            yield "", "event", told(it, paths)


def _call(words: List[str], paths: Dict[Tuple[int, int], str]) -> Iterator[Row]:
    if words[0] == "watch":
        instance, path, reply = int(words[1]), words[2], int(words[4])
        if reply < 0:
            yield "", "", f"  refused: {os.strerror(-reply)}"
        else:
            paths[instance, reply] = path
            yield "", "", f"  watch {reply} is on {path}, mask {words[3].rstrip(':')}"
    elif words[0] == "ended":
        yield "", "program", "ends: " + " ".join(words[1:])


def told(it: Told, paths: Dict[Tuple[int, int], str]) -> str:
    """Returns what a record says."""
    where = paths.get((it.instance, it.wd))
    of = "" if it.wd < 0 else f"   watch {it.wd}" + (f", of {where}" if where else "")
    cookie = f" cookie {it.cookie}" if it.cookie else ""
    return " ".join(it.events) + cookie + (f" {it.name}" if it.name else "") + of


def _shortened(rows: List[Row]) -> Iterator[Row]:
    at = 0
    while at < len(rows):
        end = at
        while end < len(rows) and rows[end][1] == "program" and rows[end][0]:
            end += 1
        if end - at > SHOWN_IN_A_ROW:
            kinds = sorted({what.split()[0] for _, _, what in rows[at : end - 1]})
            yield f"{rows[at][0]}..{rows[end - 2][0]}", "program", f"{end - at - 1} requests: " + ", ".join(kinds)
            at = end - 1
        yield rows[at]
        at += 1


# ---- the page


def as_script(trace: List[Entry], queue: int) -> Optional[str]:
    """Returns the run as a script for watchtree_trace: the lines, and the program's calls of inotify. None if the program
    changed files itself, or a second program did."""
    out: List[str] = []
    reads: List[List[int]] = []
    for it in trace:
        if isinstance(it, Happened) and it.is_turn:
            return None
        if isinstance(it, Happened) and it.text != "--":
            out.append(it.text)
        elif isinstance(it, Asked) and it.text.split()[0] in CHANGES:
            return None
        elif isinstance(it, Asked) and it.text.startswith("read ") and it.text[5:].isdigit():
            reads.append([len(out), int(it.text[5:]), 0])
            out.append("")
        elif isinstance(it, Told):
            reads[-1][2] += size_of(it)
        elif isinstance(it, Called):
            out += _calls(it.text.split(), queue)
    for at, instance, size in reads:
        out[at] = f"read {instance} {size}"
    return "\n".join(out) + "\n"


def _calls(words: List[str], queue: int) -> List[str]:
    if words[0] == "instance":
        return [f"init {queue}"]
    if words[0] == "watch" and words[2].startswith("/"):
        return [f"watch {words[1]} {words[2]} {words[3].rstrip(':')}"]
    if words[0] == "unwatch":
        return [f"unwatch {words[1]} {words[2].rstrip(':')}"]
    return [f"close {words[1]}"] if words[0] == "close" else []


def size_of(it: Told) -> int:
    """Returns how many bytes a record has: its name is padded to 16."""
    length = len(it.name) - 2 * it.name.count("%")
    return 16 + (16 * (length // 16 + 1) if it.name else 0)


def write_page(out: Folder, library: str, trace: List[Entry], queue: int) -> Optional[str]:
    """Writes the page of a run. Returns why there is none."""
    script = as_script(trace, queue)
    if script is None:
        return "a program changes files itself"
    out.write("calls.script", script.encode("utf-8", "surrogateescape"))
    said = subprocess.run([sys.executable, "-c", PAGE, f"{out.path}/calls.script"], capture_output=True, check=False,
                          env={**os.environ, "PYTHONPATH": library})
    if said.returncode == 0:
        out.write("page.html", said.stdout)
        return None
    lines = said.stderr.decode(errors="replace").strip().splitlines()
    return lines[-1] if lines else f"watchtree_trace ended with status {said.returncode}"


# A read that takes other records than the program took shows that the script is not the run.
PAGE = """
import sys
import watchtree_trace, watchtree_trace_page
with open(sys.argv[1], errors="surrogateescape") as script:
    run = watchtree_trace.run(script)
for call in run.calls:
    words = call.line.split()
    if words[0] == "read" and call.reply != "ok " + words[2]:
        sys.exit("the program raised events itself")
watchtree_trace_page.write(sys.stdout, sys.argv[1], run)
"""
