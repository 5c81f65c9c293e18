"""A recursive watcher that misses what is made in a new directory before its watch is there."""

from typing import Dict, Set

from watchtree import Mask, Tree, explore

SCRIPT = """
mkdir /d 755
--
mkdir /d/a 755
create /d/a/f 644
mkdir /d/a/b 755
create /d/a/b/g 644
create /d/h 644
mkdir /d/c 755
create /d/c/i 644
"""
# No queue overflows here: that is another bug.
QUEUES = (16384,)


def follow(tree: Tree, looks_into_new: bool) -> Set[str]:
    """Returns each path that it has learnt of."""
    instance = tree.inotify()
    folders: Dict[int, str] = {}
    known: Set[str] = set()

    def watch(folder: str, looks: bool) -> None:
        folders[instance.add_watch(folder, Mask.CREATE)] = folder
        for name in tree.listdir(folder) if looks else ():
            learn(f"{folder}/{name}", tree.stat(f"{folder}/{name}").is_directory, True)

    def learn(path: str, is_directory: bool, looks: bool) -> None:
        known.add(path)
        if is_directory:
            watch(path, looks)

    watch("/d", True)
    for event in instance:
        learn(f"{folders[event.wd]}/{event.name}", bool(event.mask & Mask.ISDIR), looks_into_new)
    return known


def naive(tree: Tree) -> Set[str]:
    return follow(tree, looks_into_new=False)


def corrected(tree: Tree) -> Set[str]:
    """Watches a new directory first, and then looks what is in it already."""
    return follow(tree, looks_into_new=True)


def check(tree: Tree, known: Set[str]) -> None:
    there = explore.paths(tree, "/d")
    assert known == there, f"missed {sorted(there - known)}"


if __name__ == "__main__":
    print(explore.run(SCRIPT, naive, check, queues=QUEUES))
