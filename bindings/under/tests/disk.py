#!/usr/bin/python3
"""A program beside a script on a disk, as `watchtree under` runs it on the tree, to compare the two.

    disk.py [--debounce MS] [--settle MS] SCRIPT DIRECTORY -- PROGRAM ARGS..

DIRECTORY is empty and stands for the root of the tree. The lines before the first `--` run first. The others run one at
a time while the program rests: each of its tasks sleeps at two looks and has not run between them, and no instance of
inotify has bytes to read. It rests in this sense before the first of them once some instance has a watch. A further `--`
waits until it was quiet for a while besides. After the last line, and a quiet while, the program gets SIGTERM. The
status is the program's own, and 0 where it was ended after the script.
"""
import argparse
import ctypes
import fcntl
import os
import signal
import struct
import subprocess
import sys
import termios
import time

sys.dont_write_bytecode = True
sys.path.insert(0, os.path.join(os.path.dirname(os.path.abspath(__file__)), "../../../tests"))
from linux_side.kernel import Kernel  # noqa: E402
from linux_side.lines import lines_of  # noqa: E402

LIBRARY = ctypes.CDLL(None, use_errno=True)
PR_SET_CHILD_SUBREAPER, PIDFD_GETFD = 36, 438
# Nanoseconds that a quiet program may run in a quiet while, as a JVM does.
LITTLE = 5_000_000
LIMIT = 60


def read_text(path):
    """The text of a file of /proc; nothing where it went meanwhile."""
    try:
        with open(path, encoding="latin-1") as it:
            return it.read()
    except OSError:
        return ""


def names(path):
    try:
        return os.listdir(path)
    except OSError:
        return []


def descendants():
    """The processes below this one."""
    parents = {}
    for name in names("/proc"):
        if name.isdigit():
            fields = read_text(f"/proc/{name}/stat").rpartition(")")[2].split()
            if len(fields) > 1:
                parents[int(name)] = int(fields[1])
    known = {os.getpid()}
    for pid in sorted(parents):
        at, way = pid, []
        while at in parents and at not in known:
            way.append(at)
            at = parents[at]
        if at in known and way:
            known.update(way)
    return sorted(known - {os.getpid()})


def look(pids):
    """Whether every task sleeps; how often each has run; how long all have run, in nanoseconds."""
    asleep, runs, spent = True, {}, 0
    for pid in pids:
        for task in names(f"/proc/{pid}/task"):
            state = read_text(f"/proc/{pid}/task/{task}/stat").rpartition(")")[2].split()[:1]
            if state and state[0] not in "ZX":
                asleep = asleep and state[0] in "STtI"
                figures = read_text(f"/proc/{pid}/task/{task}/schedstat").split()
                if len(figures) == 3:
                    spent += int(figures[0])
                    runs[task] = figures[2]
    return asleep, runs, spent


def instances(pids):
    """Of all instances: is there a watch, and how many bytes wait?"""
    watched, waiting = False, 0
    for pid in pids:
        for number in names(f"/proc/{pid}/fd"):
            try:
                if os.readlink(f"/proc/{pid}/fd/{number}") != "anon_inode:inotify":
                    continue
                handle = os.pidfd_open(pid)
            except OSError:
                continue
            watched = watched or "inotify wd:" in read_text(f"/proc/{pid}/fdinfo/{number}")
            mine = LIBRARY.syscall(PIDFD_GETFD, handle, int(number), 0)
            os.close(handle)
            if mine >= 0:
                count = fcntl.ioctl(mine, termios.FIONREAD, b"\0\0\0\0")
                os.close(mine)
                waiting += struct.unpack("i", count)[0]
    return watched, waiting


class Run:
    """A program, and whether it rests."""

    def __init__(self, words):
        LIBRARY.prctl(PR_SET_CHILD_SUBREAPER, 1, 0, 0, 0)
        self.child = subprocess.Popen(words)
        self.end = time.monotonic() + LIMIT
        self.active, self.spent, self.tasks, self.watched = time.monotonic(), 0, set(), False

    def rests(self):
        """Whether it rests now. Notes when it last worked."""
        pids = descendants()
        asleep, before, _ = look(pids)
        watched, waiting = instances(pids)
        again, after, spent = look(pids)
        if spent > self.spent + LITTLE or after.keys() != self.tasks:
            self.active, self.spent, self.tasks = time.monotonic(), spent, after.keys()
        self.watched = self.watched or watched
        return asleep and again and before == after and waiting == 0 and pids == descendants()

    def wait(self, quiet=0.0):
        """Waits until the program rests and was quiet for `quiet` seconds. Returns False if it has ended."""
        while self.child.poll() is None:
            if time.monotonic() > self.end:
                sys.exit(f"disk.py: the program did not rest within {LIMIT} s")
            if self.rests() and self.watched and time.monotonic() - self.active >= quiet:
                return True
            time.sleep(0.001)
        return False

    def finish(self):
        """Ends what is left of it."""
        for number in (signal.SIGTERM,) * 20 + (signal.SIGKILL,) * 200:
            left = descendants()
            for pid in left:
                try:
                    os.kill(pid, number)
                except OSError:
                    pass
            try:
                while os.waitpid(-1, os.WNOHANG)[0]:
                    pass
            except ChildProcessError:
                return
            time.sleep(0.01)


def parted(lines):
    """The lines before, between and behind the marks."""
    parts = [[]]
    for line in lines:
        if line.name == "--":
            parts.append([])
        else:
            parts[-1].append(line)
    return parts


def beside(run, kernel, parts, said):
    """Runs the lines while the program rests, and ends it. Its status."""
    goes_on = True
    for number, part in enumerate(parts):
        goes_on = goes_on and run.wait(said.debounce / 1000 if number else 0)
        for line in part:
            goes_on = goes_on and run.wait()
            if goes_on:
                os.umask(0)
                kernel.reply(line)
                os.umask(0o022)
                run.active = time.monotonic()
    if not goes_on or not run.wait(said.settle / 1000):
        return run.child.returncode
    run.child.terminate()
    try:
        run.child.wait(3)
    except subprocess.TimeoutExpired:
        run.child.kill()
    return 0


def main():
    words = argparse.ArgumentParser()
    words.add_argument("--debounce", type=int, default=100)
    words.add_argument("--settle", type=int, default=300)
    words.add_argument("script")
    words.add_argument("directory")
    words.add_argument("program", nargs="+")
    said = words.parse_args()
    os.umask(0)
    kernel = Kernel(os.fsencode(said.directory))
    with open(said.script, "rb") as it:
        parts = parted(lines_of(it.read()))
    for line in parts[0]:
        kernel.reply(line)
    os.umask(0o022)
    run = Run(said.program)
    try:
        code = beside(run, kernel, parts[1:], said)
    finally:
        run.finish()
    sys.exit(code if code >= 0 else 128 - code)

main()
