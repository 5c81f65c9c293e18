"""Prints the instructions and the number of allocations that a file of callgrind reports.

An allocation is a call of malloc, calloc, realloc or aligned_alloc from a function that is none of these.
"""

import re
import sys

GROWING = {"malloc", "calloc", "realloc", "aligned_alloc", "posix_memalign"}


def name_in(names, text):
    """The name that is meant by '(12) name', or by '(12)' where it was given before."""
    found = re.match(r"\((\d+)\)(?: (.*))?", text)
    if found.group(2) is not None:
        names[found.group(1)] = found.group(2)
    return names[found.group(1)]


def counted(lines):
    names, caller, called = {}, "", ""
    instructions, growths = 0, 0
    for line in lines:
        if line.startswith("fn="):
            caller = name_in(names, line[3:].strip())
        elif line.startswith("cfn="):
            called = name_in(names, line[4:].strip())
        elif line.startswith("calls="):
            if called.split("'")[0] in GROWING and caller.split("'")[0] not in GROWING:
                growths += int(line[6:].split()[0])
        elif line.startswith(("summary:", "totals:")):
            instructions = int(line.split()[1])
    return instructions, growths


if __name__ == "__main__":
    with open(sys.argv[1]) as told:
        print(*counted(told))
