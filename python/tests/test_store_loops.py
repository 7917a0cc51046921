"""Loops that are closed while tasks of theirs wait at a store: nobody else is held up by a place that they had."""

import asyncio
import logging
import threading
import unittest
from unittest import mock

from wanzoche import _native as native

from .declarations import BOOK
from .limits import LONGEST
from .stores import InFolder


class ClosedLoops(InFolder, unittest.TestCase):
    def setUp(self):
        super().setUp()
        self.a, self.b = self.open(BOOK, sync=False), self.open(BOOK, sync=False)
        self.loop = asyncio.new_event_loop()
        self.addCleanup(self.loop.close)
        logging.disable(logging.CRITICAL)  # a thread is told that the loop of its caller is closed
        self.addCleanup(logging.disable, logging.NOTSET)

    async def writes(self):
        async with self.a.aio("write"):
            pass

    def left(self):
        """A task of the loop that is never to go on."""
        task = self.loop.create_task(self.writes())
        task._log_destroy_pending = False
        return task

    def runs_until(self, condition):
        """The loop, until something holds."""

        async def waits():
            while not condition():
                await asyncio.sleep(0.001)

        self.loop.run_until_complete(asyncio.wait_for(waits(), LONGEST))

    def goes_on(self):
        """Nobody waits any more, and others enter."""
        self.until(lambda: not self.b.waiting())
        self.b.enter("write", timeout=LONGEST).leave()
        self.assertEqual((self.b.report().live, self.a._listener._waits), ((), {}))
        self.assertTrue(self.b.audit())

    def asked_aside(self):
        """A task is left while another thread asks for it, which has the answer when the loop is closed."""
        asked, closed, soon = threading.Event(), threading.Event(), self.a._file.start_soon

        def asks(*given):
            code = soon(*given)
            asked.set()
            closed.wait(LONGEST)
            return code

        with mock.patch.object(self.a._file, "start_now", lambda *given: native.LATE), mock.patch.object(self.a._file, "start_soon", asks):
            left = self.left()
            self.runs_until(asked.is_set)
            self.loop.close()
            closed.set()
            self.until(lambda: not self.a._listener._waits)
        return left

    def test_while_another_thread_asks_for_a_task_that_waits_then(self):
        with self.b("read"):
            left = self.asked_aside()
        self.goes_on()
        self.assertFalse(left.done())

    def test_while_another_thread_begins_its_operation(self):
        left = self.asked_aside()
        self.assertEqual(self.b.journal().count("start write"), 1)
        self.goes_on()
        self.assertFalse(left.done())

    def test_one_that_is_dropped_while_another_thread_asks_for_it(self):
        """Its loop may go on: a coroutine that nobody holds is closed."""
        asked, dropped, over, soon = threading.Event(), threading.Event(), threading.Event(), self.a._file.start_soon

        def asks(*given):
            asked.set()
            dropped.wait(LONGEST)
            code = soon(*given)
            over.set()
            return code

        with self.b("read"), mock.patch.object(self.a._file, "start_now", lambda *given: native.LATE):
            with mock.patch.object(self.a._file, "start_soon", asks):
                left = self.left()
                self.runs_until(asked.is_set)
                left.get_coro().close()
                dropped.set()
                self.assertTrue(over.wait(LONGEST))
            self.until(lambda: not self.b.waiting())
        self.goes_on()
        left.cancel()

    def test_when_its_task_was_woken(self):
        """But hasn't run since."""
        with self.b("read"):
            left = self.left()
            self.runs_until(lambda: [each.is_asleep for each in self.a._listener._waits.values()] == [True])
        self.until(lambda: [each.is_asleep for each in list(self.a._listener._waits.values())] == [False])
        self.assertEqual(self.b.waiting(), {"write": 1})
        self.loop.close()
        self.goes_on()
        self.assertFalse(left.done())

    def test_while_its_task_sleeps(self):
        with self.b("read"):
            left = self.left()
            self.runs_until(lambda: [each.is_asleep for each in self.a._listener._waits.values()] == [True])
            self.loop.close()
            self.until(lambda: not self.b.waiting())
        self.goes_on()
        self.assertFalse(left.done())


if __name__ == "__main__":
    unittest.main()
