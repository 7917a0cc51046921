"""Tasks that wait on paths."""

import asyncio
import threading
import time
import unittest

from wanzoche import Paths, Timeout

from .declarations import BOOK, LINE, SLOT
from .limits import LONGEST


class Tasks(unittest.TestCase):
    def test_tasks_take_turns(self):
        paths = Paths(LINE)
        got = []

        async def producer(first):
            for n in range(100):
                async with paths.aio("put") as entry:
                    entry.put(first + n)
                    await asyncio.sleep(0)

        async def consumer():
            for _ in range(100):
                async with paths.aio("get") as entry:
                    got.append(entry.take())

        async def main():
            await asyncio.gather(producer(0), consumer(), producer(100), consumer())

        asyncio.run(main())
        self.assertEqual(sorted(got), list(range(200)))
        self.assertTrue(paths.audit())

    def test_a_cancelled_task_has_started_nothing(self):
        paths = Paths(SLOT)

        async def main():
            waiting = asyncio.ensure_future(self.remove(paths))
            other = asyncio.ensure_future(self.remove(paths))
            await asyncio.sleep(0.01)
            waiting.cancel()
            with self.assertRaises(asyncio.CancelledError):
                await waiting
            async with paths.aio("deposit"):
                pass
            await asyncio.wait_for(other, LONGEST)

        asyncio.run(main())
        self.assertEqual(paths.report().live, ())
        self.assertTrue(paths.audit())

    def test_a_task_cancelled_as_it_is_woken_passes_its_turn_on(self):
        paths = Paths(SLOT)

        async def main():
            first = asyncio.ensure_future(self.remove(paths))
            second = asyncio.ensure_future(self.remove(paths))
            await asyncio.sleep(0.01)
            async with paths.aio("deposit"):
                pass
            first.cancel()  # it was woken, and hasn't run since
            await asyncio.wait_for(second, LONGEST)

        asyncio.run(main())
        self.assertTrue(paths.audit())

    def test_a_body_that_is_cancelled_is_finished(self):
        paths, begun = Paths(BOOK), []

        async def write():
            async with paths.aio("write"):
                begun.append(True)
                await asyncio.sleep(4 * LONGEST)

        async def main():
            task = asyncio.ensure_future(write())
            while not begun:
                await asyncio.sleep(0.001)
            task.cancel()
            with self.assertRaises(asyncio.CancelledError):
                await task
            async with paths.aio("write", timeout=LONGEST):
                pass

        asyncio.run(main())

    def test_a_time_limit(self):
        paths = Paths(SLOT)

        async def main():
            with self.assertRaisesRegex(Timeout, "in progress: deposit by task 1"):
                async with paths.aio("deposit"):
                    async with paths.aio("remove", timeout=0.01):
                        pass

        asyncio.run(main())

    def test_a_guarded_coroutine(self):
        paths = Paths(BOOK)

        @paths.guards("write")
        async def store():
            await asyncio.sleep(0)
            return paths.report().live[0].worker

        self.assertEqual(asyncio.run(store()), "task 1")

    def test_a_plain_with_is_refused(self):
        with self.assertRaises(TypeError):
            with Paths(SLOT).aio("deposit"):
                pass

    def test_threads_and_tasks_wait_for_each_other(self):
        paths = Paths(SLOT)

        def deposits():
            for _ in range(200):
                with paths("deposit"):
                    pass

        async def main():
            for _ in range(200):
                async with paths.aio("remove"):
                    pass

        thread = threading.Thread(target=deposits)
        thread.start()
        asyncio.run(main())
        thread.join(LONGEST)
        self.assertTrue(paths.audit())

    def test_a_loop_that_has_ended_holds_nobody_up(self):
        for close in (False, True):
            paths = Paths(SLOT)
            loop = asyncio.new_event_loop()
            left = loop.create_task(self.remove(paths))
            loop.run_until_complete(self.until_one_waits(paths))
            if close:
                loop.close()
            thread = threading.Thread(target=lambda: paths.enter("remove").leave())
            thread.start()
            while paths.waiting() != {"remove": 1 if close else 2}:
                time.sleep(0.001)

            async def main():
                waiting = asyncio.ensure_future(self.remove(paths))
                await asyncio.sleep(0.01)
                for _ in range(2):
                    async with paths.aio("deposit", timeout=LONGEST):
                        pass
                await asyncio.wait_for(waiting, LONGEST)

            asyncio.run(main())
            thread.join(LONGEST)
            self.assertFalse(thread.is_alive())
            with paths("deposit"):
                pass
            if not close:  # it may go on, and then has its turn
                loop.run_until_complete(asyncio.wait_for(left, LONGEST))
                loop.close()
            left._log_destroy_pending = False

    def test_an_entry_that_is_cancelled_before_each_step(self):
        paths = Paths(SLOT)

        async def main(steps):
            waiting = asyncio.ensure_future(self.remove(paths))
            other = asyncio.ensure_future(self.remove(paths))
            deposit = asyncio.ensure_future(self.deposit(paths))
            for _ in range(steps):
                await asyncio.sleep(0)
            cancelled = waiting.cancel()
            await asyncio.wait([waiting, deposit])
            if waiting.cancelled():
                await asyncio.wait_for(other, LONGEST)
            else:
                other.cancel()
            return cancelled

        steps = 0
        while asyncio.run(main(steps)):
            self.assertEqual((paths.report().live, paths.waiting()), ((), {}))
            if paths.can_start("remove"):
                paths.enter("remove").leave()
            steps += 1
        self.assertGreater(steps, 2)

    @staticmethod
    async def until_one_waits(paths):
        while paths.waiting() != {"remove": 1}:
            await asyncio.sleep(0.001)

    @staticmethod
    async def deposit(paths):
        async with paths.aio("deposit"):
            pass

    @staticmethod
    async def remove(paths):
        async with paths.aio("remove"):
            pass


if __name__ == "__main__":
    unittest.main()
