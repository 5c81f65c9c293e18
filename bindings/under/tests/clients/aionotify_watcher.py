"""Prints the events that aionotify reports for a directory."""
import asyncio
import sys
import aionotify


async def main():
    watcher = aionotify.Watcher()
    watcher.watch(sys.argv[1], aionotify.Flags.CREATE | aionotify.Flags.DELETE | aionotify.Flags.MODIFY
                  | aionotify.Flags.MOVED_FROM | aionotify.Flags.MOVED_TO | aionotify.Flags.ATTRIB)
    await watcher.setup(asyncio.get_event_loop())
    while True:
        event = await watcher.get_event()
        print(aionotify.Flags.parse(event.flags), event.name, flush=True)


asyncio.run(main())
