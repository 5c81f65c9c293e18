"""Keeps a tag for each file, and loses it if the two records of a rename come in two reads."""

from typing import Dict, Iterator

from watchtree import Mask, Tree, explore

SCRIPT = """
mkdir /d 755
create /d/a 644
create /d/b 644
--
rename /d/a /d/c
rename /d/b /d/a
rename /d/c /d/b
"""
QUEUES = (16384,)
Tags = Dict[str, str]


def follow(tree: Tree, is_kept: bool) -> Iterator[Tags]:
    """Yields the tag of each name, before each wait."""
    instance = tree.inotify()
    instance.add_watch("/d", Mask.MOVE)
    names = tree.listdir("/d")
    while instance.read():  # (of changes before the list)
        names = tree.listdir("/d")
    tags = {name: f"tag of {name}" for name in names}
    moving: Dict[int, str] = {}
    while True:
        yield tags
        for event in instance.read(timeout=None):
            if event.mask & Mask.MOVED_TO:
                tags.setdefault(event.name, "untagged")
                tags[event.name] = moving.pop(event.cookie, tags[event.name])
            elif event.name in tags:
                moving[event.cookie] = tags.pop(event.name)
        if not is_kept:
            moving.clear()  # it takes what has no second record in this read for moved away


def naive(tree: Tree) -> Iterator[Tags]:
    return follow(tree, is_kept=False)


def corrected(tree: Tree) -> Iterator[Tags]:
    """Keeps the first record of a rename until the next read."""
    return follow(tree, is_kept=True)


def check(tree: Tree, tags: Tags) -> None:
    assert set(tags) == set(tree.peek_listdir("/d"))
    lost = sorted(name for name, tag in tags.items() if tag == "untagged")
    assert not lost, f"lost the tags of {lost}"


if __name__ == "__main__":
    print(explore.run(SCRIPT, naive, check, queues=QUEUES))
