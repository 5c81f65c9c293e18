"""Reads one entry of a log for each event, though two equal events become one if the first is unread."""

from typing import List

from watchtree import Mask, Tree, explore

# Each entry has four bytes.
SCRIPT = """
mkdir /d 755
create /d/log 644
--
write /d/log 0 6f6e650a
write /d/log 4 74776f0a
write /d/log 8 7369780a
write /d/log 12 74656e0a
"""
ENTRY = 4


def follow(tree: Tree, reads_all: bool) -> List[bytes]:
    """Returns the entries."""
    instance = tree.inotify()
    instance.add_watch("/d/log", Mask.MODIFY)
    entries: List[bytes] = []

    def read() -> bool:
        entry = tree.read("/d/log", ENTRY, ENTRY * len(entries))
        if len(entry) < ENTRY:
            return False
        entries.append(entry)
        return True

    while read():
        pass
    for _ in instance:
        while read() and reads_all:
            pass
    return entries


def naive(tree: Tree) -> List[bytes]:
    return follow(tree, reads_all=False)


def corrected(tree: Tree) -> List[bytes]:
    """Reads to the end after each event."""
    return follow(tree, reads_all=True)


def check(tree: Tree, entries: List[bytes]) -> None:
    there = tree.peek_read("/d/log", 1000)
    if b"\0" in there:
        return  # what is left of the script writes no log, but a hole
    assert b"".join(entries) == there, f"read {entries} of {there!r}"


if __name__ == "__main__":
    print(explore.run(SCRIPT, naive, check))
