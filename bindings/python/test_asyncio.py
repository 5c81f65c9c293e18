"""Tests of `async for event in instance`."""

import asyncio
import os
import threading
import unittest

from watchtree import Mask, Tree

# Seconds after which a test that hangs fails.
PATIENCE = int(os.environ.get("PATIENCE", 60))


def descriptors():
    return len(os.listdir("/proc/self/fd"))


async def names_of(instance):
    return [event.name async for event in instance]


async def until(condition):
    """Lets the other tasks run until a condition holds."""
    while not condition():
        await asyncio.sleep(0)


class Loop(unittest.IsolatedAsyncioTestCase):
    def setUp(self):
        self.tree = Tree()

    def watched(self, path):
        self.tree.mkdir(path)
        instance = self.tree.inotify()
        instance.add_watch(path, Mask.CREATE)
        return instance

    async def asyncSetUp(self):
        # The loop's own wait is as long as the test may take.
        asyncio.get_running_loop().call_later(PATIENCE, os.abort)

    async def test_several_instances(self):
        instances = [self.watched(f"/{number}") for number in range(5)]
        tasks = [asyncio.create_task(names_of(it)) for it in instances]
        names = [f"{at}" for at in range(200)]

        async def write():
            for at, name in enumerate(names):
                for number in range(5):
                    self.tree.create(f"/{number}/{name}")
                if at % 3 == 0:
                    await asyncio.sleep(0)

        def write_in_a_thread():
            for number in range(5):
                self.tree.create(f"/{number}/thread")

        await asyncio.gather(write(), asyncio.to_thread(write_in_a_thread))
        await until(lambda: not any(it.waiting for it in instances))
        for it in instances:
            it.close()
        for found in await asyncio.gather(*tasks):
            self.assertEqual(sorted(found), sorted([*names, "thread"]))
            found.remove("thread")
            self.assertEqual(found, names)

    async def test_a_thread_wakes_a_loop_that_goes_on(self):
        instance = self.watched("/d")
        for change in (lambda: self.tree.create("/d/f"), instance.close):
            task = asyncio.create_task(anext(aiter(instance), None))
            for _ in range(100):
                await asyncio.sleep(0)
            self.assertFalse(task.done())
            threading.Thread(target=change).start()
            event = await task
            self.assertEqual(event and event.name, None if change == instance.close else "f")

    async def test_two_tasks_read_one_instance(self):
        instance = self.watched("/d")
        tasks = [asyncio.create_task(names_of(instance)) for _ in range(2)]
        names = [f"{at:04}" for at in range(500)]
        for name in names:
            self.tree.create(f"/d/{name}")
            await asyncio.sleep(0)
        await until(lambda: not instance.waiting)
        self.tree.close()
        parts = await asyncio.gather(*tasks)
        self.assertEqual(sorted(parts[0] + parts[1]), names)

    async def test_a_task_that_waits_is_cancelled(self):
        instance, other = self.watched("/d"), self.watched("/e")
        # (each has the descriptor that the library keeps, and the next one is that of the wait)
        self.assertNotEqual(instance.fileno(), other.fileno())
        before = descriptors()
        for _ in range(20):
            task = asyncio.create_task(names_of(instance))
            await until(lambda: descriptors() > before)
            task.cancel()
            with self.assertRaises(asyncio.CancelledError):
                await task
        self.assertEqual(descriptors(), before)
        task = asyncio.create_task(anext(aiter(other)))
        await until(lambda: descriptors() > before)
        self.tree.create("/e/f")
        self.assertEqual((await asyncio.wait_for(task, PATIENCE / 2)).name, "f")

    async def test_the_time_is_over(self):
        instance = self.watched("/d")
        with self.assertRaises(asyncio.TimeoutError):
            await asyncio.wait_for(anext(aiter(instance)), 0.05)
        self.tree.create("/d/f")
        self.assertEqual((await asyncio.wait_for(anext(aiter(instance)), PATIENCE)).name, "f")

    async def test_a_loop_that_is_left_loses_nothing(self):
        instance = self.watched("/d")
        for name in "abc":
            self.tree.create(f"/d/{name}")
        async for event in instance:
            self.assertEqual(event.name, "a")
            break
        async for event in instance:
            self.assertEqual(event.name, "b")
            break
        self.assertEqual([it.name for it in instance.read()], ["c"])


class Run(unittest.TestCase):
    def test_asyncio_run(self):
        async def main():
            with Tree() as tree, tree.inotify() as instance:
                instance.add_watch("/", Mask.CREATE)
                asyncio.get_running_loop().call_soon(tree.create, "/f")
                asyncio.get_running_loop().call_soon(tree.mkdir, "/d")
                found = []
                async for event in instance:
                    found.append(event.name)
                    if len(found) == 2:
                        instance.close()
                return found

        self.assertEqual(asyncio.run(main()), ["f", "d"])


if __name__ == "__main__":
    unittest.main()
