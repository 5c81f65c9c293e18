"""Lists a directory by its events, and does not look again after events were lost."""

from typing import Iterator, Set

from watchtree import Instance, Mask, Tree, explore

SCRIPT = """
mkdir /d 755
create /d/a 644
--
create /d/b 644
unlink /d/a
create /d/c 644
unlink /d/b
create /d/a 644
create /d/e 644
"""


def drain(instance: Instance) -> None:
    """Drops what is in the queue: records behind the mark may be followed by others that were lost."""
    while instance.read():
        pass


def follow(tree: Tree, looks_again: bool) -> Iterator[Set[str]]:
    """Yields the names in a directory, before each wait."""
    instance = tree.inotify()
    instance.add_watch("/d", Mask.CREATE | Mask.DELETE)
    names = set(tree.listdir("/d"))
    while True:
        yield names
        for event in instance.read(timeout=None):
            if event.mask & Mask.Q_OVERFLOW and looks_again:
                drain(instance)
                names = set(tree.listdir("/d"))
                break
            if event.mask & Mask.CREATE:
                names.add(event.name)
            if event.mask & Mask.DELETE:
                names.discard(event.name)


def naive(tree: Tree) -> Iterator[Set[str]]:
    return follow(tree, looks_again=False)


def corrected(tree: Tree) -> Iterator[Set[str]]:
    """After an overflow it drops what is in the queue, and lists the directory again."""
    return follow(tree, looks_again=True)


def check(tree: Tree, names: Set[str]) -> None:
    there = set(tree.peek_listdir("/d"))
    assert names == there, f"believes {sorted(names)}, and there are {sorted(there)}"


if __name__ == "__main__":
    print(explore.run(SCRIPT, naive, check))
