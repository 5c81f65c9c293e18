"""Looks again after an overflow, and believes that each directory that it watched still has its watch.

A directory that was removed and made again has none, and its IN_IGNORED may be among the lost records.
"""

from typing import Dict, Iterator, Set

from watchtree import Mask, Tree, explore

SCRIPT = """
mkdir /d 755
mkdir /d/a 755
--
create /d/x 644
rmdir /d/a
mkdir /d/a 755
create /d/a/f 644
unlink /d/x
create /d/a/g 644
"""
# Each queue is short: without an overflow nothing is lost.
QUEUES = (1, 2, 3)


class Watcher:
    """Keeps the path of each file and directory below /d."""

    def __init__(self, tree: Tree, trusts: bool) -> None:
        self.tree, self.trusts, self.instance = tree, trusts, tree.inotify()
        self.folders: Dict[int, str] = {}
        self.known: Set[str] = set()

    def watch(self, folder: str) -> None:
        """Watches a directory and its descendants. It may be gone again."""
        if not (self.trusts and folder in self.folders.values()):
            self.folders[self.instance.add_watch(folder, Mask.CREATE | Mask.DELETE)] = folder
        for name in self.tree.listdir(folder):
            self.learn(f"{folder}/{name}")

    def learn(self, path: str) -> None:
        self.known.add(path)
        try:
            if self.tree.stat(path).is_directory:
                self.watch(path)
        except FileNotFoundError:
            pass  # its IN_DELETE comes

    def look_again(self) -> None:
        while self.instance.read():
            pass
        self.known.clear()
        self.watch("/d")

    def follow(self) -> Iterator[Set[str]]:
        self.watch("/d")
        while True:
            yield self.known
            for event in self.instance.read(timeout=None):
                if event.mask & Mask.Q_OVERFLOW:
                    self.look_again()
                    break
                folder = self.folders.get(event.wd)
                if event.mask & Mask.IGNORED:
                    self.folders.pop(event.wd, None)
                elif folder and event.mask & Mask.CREATE:
                    self.learn(f"{folder}/{event.name}")
                elif folder:
                    self.known.discard(f"{folder}/{event.name}")


def naive(tree: Tree) -> Iterator[Set[str]]:
    return Watcher(tree, trusts=True).follow()


def corrected(tree: Tree) -> Iterator[Set[str]]:
    """Adds each watch again: where it is alive this changes nothing."""
    return Watcher(tree, trusts=False).follow()


def check(tree: Tree, known: Set[str]) -> None:
    there = explore.paths(tree, "/d")
    assert known == there, f"believes {sorted(known)}, and there are {sorted(there)}"


if __name__ == "__main__":
    print(explore.run(SCRIPT, naive, check, queues=QUEUES))
