"""Threads change a tree, and a task of asyncio reads the events: the calls of listen.c from Python."""

import asyncio

from watchtree import Instance, Mask, Tree


async def listen(instance: Instance) -> None:
    async for event in instance:
        print(f"mask {event.mask:#x} name {event.name or '-'}")
        if event.mask & Mask.IGNORED:
            break


def change_files(tree: Tree) -> None:
    tree.create("/d/f")
    tree.rename("/d/f", "/d/g")
    tree.unlink("/d/g")
    tree.rmdir("/d")


async def main() -> None:
    with Tree() as tree, tree.inotify() as instance:
        tree.mkdir("/d")
        instance.add_watch("/d", Mask.CREATE | Mask.DELETE | Mask.MOVED_FROM | Mask.MOVED_TO | Mask.DELETE_SELF)
        await asyncio.gather(listen(instance), asyncio.to_thread(change_files, tree))


asyncio.run(main())
