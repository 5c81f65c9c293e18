"""Compares the functions and the struct that the Python package declares with watchtree_threads.h and watchtree.h.

usage: declared.py HEADER HEADER-FOR-THREADS

Each wtt_* has its parameters, by their types; pointers are alike. Then each declaration in Python is changed, a parameter
at a time, and each change must be seen.
"""
import ctypes
import re
import sys
from pathlib import Path

from watchtree import QUEUE, _library

SIZES = {"size_t": ctypes.c_size_t, "int": ctypes.c_int, "uint32_t": ctypes.c_uint32, "uint64_t": ctypes.c_uint64}
SIZES |= {"int32_t": ctypes.c_int32, "int64_t": ctypes.c_int64}
# What load() declares itself.
APART = {"wtt_open", "wtt_shutdown", "wtt_close"}
# What has no tree and so no lock.
WITHOUT_TREE = {"wt_version", "wt_error_text"}


def declared(*headers):
    """Returns the parameters of each function by the types of ctypes: None is a pointer."""
    text = re.sub(r"\s+", " ", " ".join(re.sub(r"/\*.*?\*/", " ", it, flags=re.S) for it in headers))
    found = {}
    for name, words in re.findall(r"(?:int64_t|void) (wtt?_\w+)\(([^)]*)\);", text):
        if name in WITHOUT_TREE or name.startswith("wtt_") and name not in APART:
            found[name] = [None if "*" in it else SIZES[it.split()[0]] for it in words.split(", ")]
    return found


def differences(calls, plain, wanted):
    """Returns the names of the functions that differ."""
    given = {**plain, **{name: (ctypes.c_void_p, *kinds) for name, kinds in calls.items()}}
    given = {name: [it if it in SIZES.values() else None for it in kinds] for name, kinds in given.items()}
    return [it for it in sorted(given | wanted) if given.get(it) != wanted.get(it)]


def unseen(wanted):
    """Returns how many changes were made, and those that pass."""
    count, passed = 0, []
    for which, table in enumerate((_library.CALLS, _library.PLAIN)):
        for name, kinds in table.items():
            changes = [kinds[:at] + kinds[at + 1 :] for at in range(len(kinds))] + [(*kinds, ctypes.c_int)]
            for change in changes:
                tables = [_library.CALLS, _library.PLAIN]
                tables[which] = {**table, name: change}
                count += 1
                if name not in differences(*tables, wanted):
                    passed.append(f"not seen: {name} with {change}")
    return count, passed


def stat_differs(header):
    """Whether struct wt_stat differs."""
    fields = re.findall(r"(\w+) (\w+);", re.search(r"struct wt_stat \{([^}]*)\};", header)[1])
    return [(name, SIZES[kind]) for kind, name in fields] != _library.StatBuffer._fields_


def main():
    headers = [Path(it).read_text() for it in sys.argv[1:3]]
    wanted = declared(*headers)
    found = [f"{it} differs" for it in differences(_library.CALLS, _library.PLAIN, wanted)]
    found += ["struct wt_stat differs"] if stat_differs(headers[0]) else []
    found += ["WT_QUEUE differs"] if "#define WT_QUEUE" in headers[0] and f"#define WT_QUEUE {QUEUE}\n" not in headers[0] else []
    count, passed = unseen(wanted)
    print("\n".join([*found, *passed]) or f"{len(wanted)} declarations; {count} changes, each seen")
    return 1 if found or passed or count < 80 else 0


if __name__ == "__main__":
    sys.exit(main())
