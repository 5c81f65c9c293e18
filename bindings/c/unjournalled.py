"""Checks for each refusal that the pages list that it leaves no entry in the journal, and that they list no other.

usage: unjournalled.py LIBRARY.so WATCHTREE.3 WATCHTREE_THREADS.3 PYTHON.MD

It also checks that watchtree.3 lists the functions of a number that answer ENOENT. A page names what was found in one
paragraph, and no other error there.
"""
import ctypes
import errno
import os
import re
import resource
import sys
from pathlib import Path

JOURNAL_FULL, JOURNAL_LENGTH = 1001, 1_000_000
# Paths that are refused as they are, by the error.
PATHS = {
    "EINVAL": [b"d", b"/d/", b"/./d", b"/d\0e"],
    "ENAMETOOLONG": [b"/" + b"a" * 256, b"/a" * 2048],
    "ENOENT": [b""],
}


class Tree(ctypes.Structure):
    """struct wt_tree, opened."""

    _fields_ = [("at", ctypes.c_void_p), ("ready", ctypes.c_bool)]

    def __init__(self, library):
        super().__init__()
        self.library = library
        assert self.call("wt_open") == 0

    def call(self, name, *words):
        """Makes a call. A path or a buffer is bytes, and is passed with its length; other words are numbers."""
        taken = [ctypes.byref(self)]
        for word in words:
            taken += [ctypes.c_char_p(word), ctypes.c_size_t(len(word))] if isinstance(word, bytes) else [word]
        return _function(self.library, name)(*taken)

    def leaves_entry(self, name, *words):
        """Makes a call. Returns its answer, and whether its journal has an entry more."""
        before = self.call("wt_last_place")
        answer = self.call(name, *words)
        return answer, self.call("wt_last_place") == before + 1


def _function(library, name):
    function = getattr(library, name)
    function.restype = ctypes.c_int64
    return function


def of_paths(library):
    """Returns the errors of paths that leave no entry."""
    tree, found = Tree(library), set()
    assert tree.leaves_entry("wt_mkdir", b"/d", 0o755) == (2, True)
    assert tree.leaves_entry("wt_mkdir", b"/d", 0o755) == (-errno.EEXIST, True)
    assert tree.leaves_entry("wt_unlink", b"/missing") == (-errno.ENOENT, True)
    for name, paths in PATHS.items():
        for path in paths:
            answer, has_entry = tree.leaves_entry("wt_mkdir", path, 0o755)
            assert answer == -getattr(errno, name), (path[:9], answer)
            if not has_entry:
                found.add(name)
    return found


def without_memory(library):
    """Returns the error of a call that is out of memory, if it leaves no entry."""
    tree = Tree(library)
    tree.call("wt_create", b"/f", 0o644)
    text = b"a" * (16 << 20)
    sys.stdout.flush()
    child = os.fork()
    if child == 0:
        with open("/proc/self/statm", encoding="ascii") as file:
            now = int(file.read().split()[0]) * resource.getpagesize()
        resource.setrlimit(resource.RLIMIT_AS, (now + (1 << 20), now + (1 << 20)))
        os._exit(0 if tree.leaves_entry("wt_write", b"/f", ctypes.c_uint64(0), text) == (-errno.ENOMEM, False) else 1)
    return {"ENOMEM"} if os.waitpid(child, 0)[1] == 0 else set()


def with_a_full_journal(library):
    """Returns the error of a call that a full journal refuses, if it leaves no entry."""
    tree = Tree(library)
    chmod, at, root = _function(library, "wt_chmod"), ctypes.byref(tree), ctypes.c_char_p(b"/")
    for _ in range(JOURNAL_LENGTH):
        chmod(at, root, ctypes.c_size_t(1), 0o755)
    assert tree.call("wt_last_place") == JOURNAL_LENGTH
    answer, has_entry = tree.leaves_entry("wt_chmod", b"/", 0o755)
    tree.call("wt_close")
    return {"JOURNAL_FULL"} if (answer, has_entry) == (-JOURNAL_FULL, False) else set()


def of_waiting_reads(library):
    """Returns the errors of wtt_read that leave no entry."""
    at, buffer, found = ctypes.c_void_p(), ctypes.create_string_buffer(64), set()
    _function(library, "wtt_open")(ctypes.byref(at))
    instance = _function(library, "wtt_inotify_init")(at, 16)
    for number, name in ((instance, "EAGAIN"), (instance + 1, "EBADF")):
        before = _function(library, "wtt_last_place")(at)
        answer = _function(library, "wtt_read")(at, ctypes.c_uint32(number), buffer, ctypes.c_size_t(64), 0)
        assert answer == -getattr(errno, name)
        if _function(library, "wtt_last_place")(at) == before:
            found.add(name)
    return found


def without_path(library):
    """Returns which of two functions that take a number answer ENOENT."""
    tree = Tree(library)
    out = ctypes.create_string_buffer(8).raw
    return {it for it in ("wt_entry", "wt_path_of") if tree.call(it, ctypes.c_uint64(99), out) == -errno.ENOENT}


def errors_in(page, begin, end):
    """Returns the errors that a page names from a text on up to another."""
    text = page.partition(begin)[2].partition(end)[0]
    return set(re.findall(r"\b(E[A-Z]{4,}|JOURNAL_FULL)\b", text.replace("WT_", "")))


def main():
    library = ctypes.CDLL(sys.argv[1])
    manual, threads, python = (Path(it).read_text(encoding="utf-8") for it in sys.argv[2:5])
    found = of_paths(library) | without_memory(library) | with_a_full_journal(library)
    rows = [("watchtree.3", found, errors_in(manual, "\nEvery call of the tree joins the journal", "\n.Pp\n")),
            ("PYTHON.md", found, errors_in(python, "\n- Every call of the tree has an entry", "\n- ")),
            ("watchtree_threads.3", of_waiting_reads(library),
             errors_in(threads, "\nIf there is still none it", "Neither adds an entry")),
            ("watchtree.3, ENOENT", without_path(library),
             set(re.findall(r"^\.Fn (\w+)", manual.partition(".It Bq Er ENOENT\n")[2].partition(".It ")[0], re.M)))]
    wrong = [(name, there, listed) for name, there, listed in rows if there != listed]
    for name, there, listed in wrong:
        print(f"{name}: found {sorted(there)}, and the page has {sorted(listed)}")
    print(f"{len(found)} refusals leave no entry, as the pages say" if not wrong else f"{len(wrong)} pages are untrue")
    return bool(wrong)


if __name__ == "__main__":
    sys.exit(main())
