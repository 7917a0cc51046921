"""Who comes next among the threads and tasks that wait at paths of one process."""

import asyncio
import contextlib
import itertools
import logging
import math
import pickle
import random
import sys
import threading
import time
import unittest
from unittest import mock

from wanzoche import Blocked, Closed, Paths, Timeout, Waiting, _order
from wanzoche._form import core
from wanzoche._waiting import ThreadWaiter

from .declarations import BOOK
from .interrupts import Alarms, may_leave_unused
from .limits import LONGEST
from .stores import THOROUGH
from .test_order_calls import cases, name_of

ONE = "resource r cell operation a, b path a , b end end"
POOL = "resource pool cell operation use, maintain path { use , maintain : 2 } end end"
# While `step` is in progress and until `back` ends, `write` isn't admitted.
STEPS = """resource book cell
operation read, write, step, back, hold
path { read } , write end
path write , ( step ; back ) end
path step , hold end
end
"""
NEVER_OPENS = 10**15
"""A door that stays shut for so many nanoseconds doesn't open in these tests."""
CASES = 400 if THOROUGH else 60


class Threads(unittest.TestCase):
    """Threads that enter, and stay until they are told to leave."""

    shut = NEVER_OPENS

    def setUp(self):
        patch = mock.patch.object(_order, "SHUT", self.shut)
        patch.start()
        self.addCleanup(patch.stop)
        self.came, self.threads, self.may_leave = [], [], {}

    def strict(self, text, **options):
        return Paths(text, patience=0, **options)

    def until(self, holds):
        end = time.monotonic() + LONGEST
        while not holds():
            self.assertLess(time.monotonic(), end, "it never comes")
            time.sleep(0.0005)

    def paths_of(self, paths):
        """By which paths the next thread enters."""
        return paths

    def stand(self, paths):
        """How many stand in line."""
        return len(paths._line)

    def comes(self, paths, operation, name, waits=True, **options):
        """A thread of this name enters, and stays. If it has to wait, it does so when this returns."""
        self.may_leave[name] = threading.Event()
        number, own = len(paths.waiters()), self.paths_of(paths)

        def stays():
            with own(operation, **options):
                self.came.append(name)
                self.may_leave[name].wait(4 * LONGEST)  # longer than anybody waits for what comes by itself

        thread = threading.Thread(target=stays, name=name)
        thread.start()
        self.threads.append(thread)
        self.until(lambda: len(paths.waiters()) > number if waits else name in self.came)
        return thread

    def leaves(self, name):
        self.may_leave[name].set()

    def end(self, paths):
        """All leave, and nothing is left."""
        for event in self.may_leave.values():
            event.set()
        for thread in self.threads:
            thread.join(LONGEST)
            self.assertFalse(thread.is_alive(), "it waits for ever: {}".format(thread.name))
        self.assertEqual((paths.report().live, paths.waiting(), paths.waiters(), self.stand(paths)), ((), {}, [], 0))
        self.assertTrue(paths.audit())


class Order(Threads):
    def test_a_newcomer_is_withheld_for_a_writer(self):
        paths = self.strict(BOOK)
        self.comes(paths, "read", "holder", waits=False)
        self.comes(paths, "write", "writer")
        self.assertTrue(paths.can_start("read"))
        self.assertIsNone(paths.try_enter("read"))
        lines = paths.journal()
        self.comes(paths, "read", "reader")
        self.assertEqual((self.came, paths.waiting()), (["holder"], {"write": 1, "read": 1}))
        self.assertEqual(paths.journal(), lines)  # what is withheld is no attempt
        self.leaves("holder")
        self.until(lambda: self.came == ["holder", "writer"])
        self.leaves("writer")
        self.until(lambda: self.came == ["holder", "writer", "reader"])
        self.end(paths)

    def test_without_patience_for_it_newcomers_pass(self):
        paths = Paths(BOOK, patience=math.inf)
        self.comes(paths, "read", "holder", waits=False)
        self.comes(paths, "write", "writer")
        self.comes(paths, "read", "reader", waits=False)
        paths.try_enter("read").leave()
        self.assertIsNone(paths.why("read"))
        self.end(paths)

    def test_a_newcomer_passes_one_that_has_just_come(self):
        paths = Paths(BOOK, patience=LONGEST)
        self.comes(paths, "read", "holder", waits=False)
        self.comes(paths, "write", "writer")
        paths.enter("read").leave()
        self.end(paths)

    def test_what_stands_in_nobodys_way_goes_on(self):
        paths = self.strict("resource r cell operation a, b, c path a , b end path { c } end end")
        a = paths.enter("a")
        self.comes(paths, "b", "b")
        paths.enter("c").leave()
        a.leave()
        self.end(paths)

    def test_they_come_in_the_order_in_which_they_came(self):
        paths = self.strict(ONE)
        first = paths.enter("a")
        names = ["{} {}".format(operation, n) for n, operation in enumerate("abbabaab")]
        for name in names:
            self.comes(paths, name[0], name)
        first.leave()
        for place, name in enumerate(names):
            self.until(lambda: len(self.came) > place)
            self.assertEqual(self.came, names[: place + 1])
            self.leaves(name)
        self.end(paths)

    def test_a_higher_priority_comes_first(self):
        paths = self.strict(ONE)
        first = paths.enter("a")
        for name, priority in (("last", 0), ("third", 1), ("first", 7), ("second", 7)):
            self.comes(paths, "b", name, priority=priority)
        told = [(each.operation, each.worker.name, each.priority) for each in paths.waiters()]
        self.assertEqual(told, [("b", "first", 7), ("b", "second", 7), ("b", "third", 1), ("b", "last", 0)])
        first.leave()
        for place, name in enumerate(["first", "second", "third", "last"]):
            self.until(lambda: len(self.came) > place)
            self.assertEqual(self.came[-1], name)
            self.leaves(name)
        self.end(paths)

    def test_a_higher_priority_passes_who_waits(self):
        paths = self.strict(BOOK)
        self.comes(paths, "read", "holder", waits=False)
        self.comes(paths, "write", "writer")
        self.assertIsNone(paths.try_enter("read"))
        paths.try_enter("read", priority=1).leave()
        paths.enter("read", priority=1).leave()
        self.end(paths)

    def test_who_asks_again_without_end_is_passed_by_nobody(self):
        """Many more than two at one operation, each again and again: none has two turns more than another."""
        paths, counts = self.strict(ONE), [0] * 6
        first = paths.enter("a")

        def loops(number):
            for _ in range(40):
                with paths("a"):
                    counts[number] += 1
                    behind = max(counts) - min(counts)
                    if behind > 2 and max(counts) < 40:
                        self.came.append(list(counts))

        self.threads = [threading.Thread(target=loops, args=(number,)) for number in range(6)]
        for number, thread in enumerate(self.threads):
            thread.start()
            self.until(lambda: len(paths.waiters()) == number + 1)
        first.leave()
        self.end(paths)
        self.assertEqual((counts, self.came), ([40] * 6, []))


class Wakes(Threads):
    """Whoever may go on because of what another does is woken."""

    def a_reader_behind_a_writer(self, paths):
        """A reader is in, `holder`; a writer waits for it, and a second reader is withheld for the writer."""
        self.comes(paths, "read", "holder", waits=False)
        writer = self.comes(paths, "write", "writer")
        self.comes(paths, "read", "reader")
        self.assertEqual(self.came, ["holder"])
        return writer

    def test_when_one_gives_up(self):
        paths = self.strict(BOOK)
        self.comes(paths, "read", "holder", waits=False)
        def waits_in_vain():
            with self.assertRaisesRegex(Timeout, "^write is blocked"):
                paths.enter("write", timeout=LONGEST)

        self.threads.append(threading.Thread(target=waits_in_vain))
        self.threads[-1].start()
        self.until(lambda: paths.waiting() == {"write": 1})
        waiter = next(iter(paths._queues._queues[1, 0, None].waiters))
        self.comes(paths, "read", "reader")
        self.assertEqual(self.came, ["holder"])
        waiter._until = time.monotonic()  # its time is over
        waiter.wake()
        self.until(lambda: self.came == ["holder", "reader"])
        self.end(paths)

    def test_when_one_is_interrupted(self):
        paths = self.strict(BOOK)
        self.comes(paths, "read", "holder", waits=False)

        def both_wait():
            if paths.waiting() == {"write": 1}:
                self.comes(paths, "read", "reader")
            return paths.waiting() == {"write": 1, "read": 1}

        self.assertTrue(Alarms(self).cut_off_waiting(lambda: paths.enter("write"), both_wait))
        self.until(lambda: self.came == ["holder", "reader"])
        self.end(paths)

    def test_when_one_that_holds_something_begins_to_wait(self):
        """The holder waits for what another has, so nobody knows when its read ends: the writer's way isn't clear."""
        paths = self.strict("resource r cell operation read, write, other path { read } , write end path other end end")
        other, holds, go_on = paths.enter("other"), threading.Event(), threading.Event()

        def reads_and_waits():
            with paths("read"):
                holds.set()
                go_on.wait(LONGEST)
                paths.enter("other").leave()

        self.threads.append(threading.Thread(target=reads_and_waits, name="holder"))
        self.threads[0].start()
        holds.wait(LONGEST)
        self.comes(paths, "write", "writer")
        self.comes(paths, "read", "reader")
        self.assertEqual(self.came, [])
        go_on.set()
        self.until(lambda: self.came == ["reader"])
        other.leave()
        self.end(paths)

    def test_when_a_start_ends_the_way_of_one_who_waits(self):
        """Behind `step`, `write` has to wait for `back`, which nobody has begun: so readers needn't wait for the writer."""
        paths = self.strict(STEPS)
        self.a_reader_behind_a_writer(paths)
        step = paths.enter("step", priority=1)
        self.until(lambda: self.came == ["holder", "reader"])
        step.leave()
        paths.enter("back").leave()
        self.end(paths)

    def test_when_one_is_let_in_who_ends_the_way_of_another(self):
        """The same, where `step` has to wait first."""
        paths = self.strict(STEPS)
        hold = paths.enter("hold")
        self.a_reader_behind_a_writer(paths)
        self.comes(paths, "step", "step", priority=1)
        hold.leave()
        self.until(lambda: self.came[1:] == ["step", "reader"])
        self.leaves("step")
        self.threads[-1].join(LONGEST)
        paths.enter("back").leave()
        self.end(paths)

    def test_when_one_is_let_in_others_may_follow(self):
        """A pool of two: the one who waits gets the first place that is free, and a newcomer the next."""
        paths = self.strict(POOL)
        self.comes(paths, "use", "first", waits=False)
        self.comes(paths, "use", "second", waits=False)
        self.comes(paths, "maintain", "maintenance")
        self.comes(paths, "use", "third")
        self.leaves("first")
        self.until(lambda: self.came[2:] == ["maintenance"])
        self.leaves("second")
        self.until(lambda: self.came[2:] == ["maintenance", "third"])
        self.end(paths)

    def test_what_one_holds_who_waits_is_no_reason_to_wait_for_it(self):
        """It enters a second read inside of the first, while a writer waits for both to end."""
        paths = self.strict(BOOK)
        with paths("read"):
            self.comes(paths, "write", "writer")
            with paths("read", timeout=LONGEST):
                pass
        self.end(paths)

    def test_when_paths_are_closed(self):
        paths = self.strict(BOOK)
        read, errors = paths.enter("read"), []

        def waits(operation):
            try:
                paths.enter(operation)
            except Closed as error:
                errors.append(error)

        for number, operation in enumerate(("write", "read", "write")):
            self.threads.append(threading.Thread(target=waits, args=(operation,)))
            self.threads[-1].start()
            self.until(lambda: len(paths.waiters()) == number + 1)
        paths.close()
        for thread in self.threads:
            thread.join(LONGEST)
        self.assertEqual(len(errors), 3)
        self.assertRaises(Closed, read.leave)
        self.assertRaises(Closed, paths.waiters)


class Doors(Threads):
    """A door that is shut for one opens again and again for those who came meanwhile."""

    shut = 1_000_000

    def test_a_reader_that_another_waits_for_is_let_in(self):
        """A reader waits within its read for the end of a thread that wants to read, too."""
        paths = self.strict(BOOK)
        with paths("read"):
            self.comes(paths, "write", "writer")
            child = threading.Thread(target=lambda: paths.enter("read").leave())
            child.start()
            child.join(LONGEST)
            self.assertFalse(child.is_alive())
        self.end(paths)

    def test_a_task_that_another_waits_for_is_let_in(self):
        async def main():
            paths = self.strict(BOOK)
            async with paths.aio("read"):
                writer = asyncio.ensure_future(self.enters(paths, "write"))
                while not paths.waiters():
                    await asyncio.sleep(0)
                await asyncio.wait_for(asyncio.ensure_future(self.enters(paths, "read")), LONGEST)
            await asyncio.wait_for(writer, LONGEST)
            self.end(paths)

        asyncio.run(main())

    async def enters(self, paths, operation):
        async with paths.aio(operation):
            pass

    def test_one_that_is_turned_away_for_long_is_told_of_in_the_log(self):
        paths = self.strict(BOOK)
        with mock.patch("wanzoche._waiting.FIRST_LOOK", 0.05), self.assertLogs("wanzoche", logging.INFO) as logs:
            self.comes(paths, "read", "holder", waits=False)
            self.comes(paths, "write", "writer", priority=1)
            self.comes(paths, "write", "second")
            self.until(lambda: any("write is blocked" in each for each in logs.output))
            self.end(paths)


class Told(Threads):
    """What one is told who has to wait for another."""

    def test_for_whom(self):
        patch, told = mock.patch.object(sys, "unraisablehook", lambda it: told.append(it.exc_value)), []
        with patch:
            self.tell_for_whom()
        self.assertEqual(told, [])  # no entry that was withheld is called one that nobody entered

    def tell_for_whom(self):
        paths = self.strict(BOOK)
        self.comes(paths, "read", "holder", waits=False)
        self.comes(paths, "write", "writer")
        with self.assertRaises(Timeout) as caught:
            paths.enter("read", timeout=0)
        error = caught.exception
        self.assertIsInstance(error.behind, Waiting)
        self.assertEqual((error.behind.operation, error.behind.worker.name, error.behind.priority), ("write", "writer", 0))
        self.assertGreaterEqual(error.behind.waited, 0)
        self.assertEqual((error.operation, error.path, error.resource, error.own), ("read", 0, "book", ()))
        words = r"^read is withheld: behind write by thread \d+ \(writer\), which has waited \d+\.\d s, path 0 of book: { read } , write; "
        self.assertRegex(str(error), words + r"in progress: read by thread \d+ \(holder\)$")
        copy = pickle.loads(pickle.dumps(error))
        self.assertEqual((str(copy), copy.behind), (str(error), error.behind))
        with self.assertRaisesRegex(Timeout, "^read is withheld for 0.01 seconds: behind write by "):
            paths.enter("read", timeout=0.01)
        why = paths.why("read")
        self.assertEqual((type(why), why.behind.operation), (Blocked, "write"))
        self.assertIsNone(paths.why("write").behind)
        self.assertEqual(paths.why("write").path, 0)
        self.end(paths)

    def test_what_a_handler_asks_of_its_own_thread(self):
        """What who asks has in progress doesn't run for its own question."""
        paths = self.strict(BOOK)
        with paths("read"):
            self.comes(paths, "write", "writer")
            self.assertIsNone(paths.why("read"))
        self.end(paths)

    def test_a_handler_in_the_middle_of_its_thread_s_wait(self):
        """It doesn't have to wait for its own thread."""
        paths = self.strict(BOOK)
        self.comes(paths, "read", "holder", waits=False)
        wait, asked = ThreadWaiter.wait, []

        def asks_meanwhile(waiter):
            if not asked:
                asked.append(paths.why("read"))
                paths.enter("read").leave()
                paths.try_enter("read").leave()
                self.leaves("holder")
            wait(waiter)

        with mock.patch.object(ThreadWaiter, "wait", asks_meanwhile):
            paths.enter("write").leave()
        self.assertEqual(asked, [None])
        self.end(paths)

    def test_bad_options(self):
        for patience in (-1, -0.001, math.nan):
            with self.assertRaisesRegex(ValueError, "^the patience is 0 or more seconds, not "):
                Paths(BOOK, patience=patience)
        for patience in ("soon", True, [1]):
            with self.assertRaisesRegex(TypeError, "^the patience is a number of seconds, not "):
                Paths(BOOK, patience=patience)
        paths = Paths(BOOK)
        for priority in (-1, 1 << 32, 1 << 80, -(1 << 80)):
            for enters in (paths, paths.aio, paths.enter, paths.try_enter):
                with self.assertRaisesRegex(ValueError, "^a priority is a number from 0 to 4,294,967,295, not -?[0-9]+$"):
                    enters("read", priority=priority)
        for priority in (1.5, "high", None):
            with self.assertRaisesRegex(TypeError, "^a priority is a number from 0 to 4,294,967,295, not "):
                paths("read", priority=priority)
        with paths("read", priority=(1 << 32) - 1):
            self.assertEqual(paths.waiters(), [])


class Tasks(Threads):
    def run_all(self, main):
        asyncio.run(asyncio.wait_for(main(), LONGEST))

    async def until_waiting(self, paths, number):
        while len(paths.waiters()) < number:
            await asyncio.sleep(0)

    async def stays(self, paths, operation, name, **options):
        async with paths.aio(operation, **options):
            self.came.append(name)

    def test_they_come_in_order_with_threads(self):
        """Tasks of two loops and threads, one behind the other."""
        paths, loops = self.strict(ONE), []
        first = paths.enter("a")

        def runs(loop):
            loop.run_forever()
            loop.close()

        for _ in range(2):
            loops.append(asyncio.new_event_loop())
            self.threads.append(threading.Thread(target=runs, args=(loops[-1],)))
            self.threads[-1].start()
        ends = []
        for number in range(9):
            if number % 3 == 2:
                self.comes(paths, "b", number)
                self.leaves(number)
            else:
                ends.append(asyncio.run_coroutine_threadsafe(self.stays(paths, "a", number), loops[number % 3]))
            self.until(lambda: len(paths.waiters()) == number + 1)
        first.leave()
        for end in ends:
            end.result(LONGEST)
        self.until(lambda: len(self.came) == 9)
        for loop in loops:
            loop.call_soon_threadsafe(loop.stop)
        self.assertEqual(self.came, list(range(9)))
        self.end(paths)

    def test_a_loop_that_stands_still_holds_up_nobody_else(self):
        """Its task was woken first, and can't ask."""
        with mock.patch.object(_order, "SHUT", 1_000_000):
            paths = self.strict(ONE)
        first, stands, go_on = paths.enter("a"), threading.Event(), threading.Event()

        async def main():
            task = asyncio.ensure_future(self.stays(paths, "a", "task"))
            await self.until_waiting(paths, 1)
            stands.set()
            go_on.wait(LONGEST)
            await task

        self.threads.append(threading.Thread(target=lambda: self.run_all(main)))
        self.threads[0].start()
        stands.wait(LONGEST)
        self.comes(paths, "a", "thread")
        first.leave()
        self.until(lambda: self.came == ["thread"])  # when the door of the task has opened for it
        go_on.set()
        self.leaves("thread")
        self.end(paths)

    def test_one_that_is_cancelled_lets_others_go_on(self):
        async def main():
            paths = self.strict(BOOK)
            async with paths.aio("read"):
                writer = asyncio.ensure_future(self.stays(paths, "write", "writer"))
                await self.until_waiting(paths, 1)
                reader = asyncio.ensure_future(self.stays(paths, "read", "reader"))
                await self.until_waiting(paths, 2)
                self.assertEqual(self.came, [])
                writer.cancel()
                await reader
                with contextlib.suppress(asyncio.CancelledError):
                    await writer
            self.assertEqual(self.came, ["reader"])
            self.end(paths)

        self.run_all(main)

    def test_priorities_and_limits(self):
        async def main():
            paths = self.strict(ONE)
            async with paths.aio("a"):
                tasks = []
                for number, priority in enumerate((0, 1, 0, 2)):
                    tasks.append(asyncio.ensure_future(self.stays(paths, "b", priority, priority=priority)))
                    await self.until_waiting(paths, number + 1)
                self.assertEqual([each.priority for each in paths.waiters()], [2, 1, 0, 0])
            await asyncio.gather(*tasks)
            self.assertEqual(self.came, [2, 1, 0, 0])
            self.end(paths)

        self.run_all(main)

    def test_one_that_holds_something_and_waits_lets_others_go_on(self):
        async def main():
            paths = self.strict("resource r cell operation read, write, other path { read } , write end path other end end")
            other, go_on = paths.enter("other"), asyncio.Event()

            async def reads_and_waits():
                async with paths.aio("read"):
                    await go_on.wait()
                    await self.stays(paths, "other", "other")

            tasks = [asyncio.ensure_future(reads_and_waits())]
            await asyncio.sleep(0)
            for number, operation in enumerate(("write", "read")):
                tasks.append(asyncio.ensure_future(self.stays(paths, operation, operation)))
                await self.until_waiting(paths, number + 1)
            self.assertEqual(self.came, [])
            go_on.set()
            await tasks[2]
            self.assertEqual(self.came, ["read"])
            other.leave()
            await asyncio.gather(*tasks)
            self.end(paths)

        self.run_all(main)

    def test_one_that_is_let_in_ends_the_way_of_another(self):
        async def main():
            paths = self.strict(STEPS)
            holder, hold, may_leave = paths.enter("read"), paths.enter("hold"), asyncio.Event()

            async def steps():
                async with paths.aio("step", priority=1):
                    self.came.append("step")
                    await may_leave.wait()

            tasks = [asyncio.ensure_future(self.stays(paths, "write", "writer"))]
            await self.until_waiting(paths, 1)
            tasks.append(asyncio.ensure_future(self.stays(paths, "read", "read")))
            await self.until_waiting(paths, 2)
            tasks.append(asyncio.ensure_future(steps()))
            await self.until_waiting(paths, 3)
            hold.leave()
            await tasks[1]
            self.assertEqual(self.came, ["step", "read"])
            may_leave.set()
            await tasks[2]
            holder.leave()
            paths.enter("back").leave()
            await tasks[0]
            self.end(paths)

        self.run_all(main)

    def test_a_limit_ends_what_is_withheld(self):
        async def main():
            paths = self.strict(BOOK)
            async with paths.aio("read"):
                writer = asyncio.ensure_future(self.stays(paths, "write", "writer"))
                await self.until_waiting(paths, 1)

                async def times_out(seconds):
                    with self.assertRaisesRegex(Timeout, "^read is withheld.*: behind write by task 2"):
                        async with paths.aio("read", timeout=seconds):
                            self.fail("it was let in")

                await asyncio.gather(*(asyncio.ensure_future(times_out(each)) for each in (0, 0.001, 0.01)))
            await writer
            self.end(paths)

        self.run_all(main)


class Places(Threads):
    """A place in line is given up whatever happens to who has it."""

    @unittest.skipUnless(core, "there is no core")
    def test_one_that_nobody_has_any_more(self):
        paths = Paths(ONE)
        places = [core.Place(paths._line, operation, priority, 7) for operation in (0, 1) for priority in (0, 1, 0)]
        for place in places:
            place.stand()
            place.stand()
        self.assertEqual((len(paths._line), len(paths.waiters())), (6, 6))
        random.Random(1).shuffle(places)
        while places:
            place = None
            places.pop()
            self.assertEqual((len(paths._line), len(paths.waiters())), (len(places), len(places)))

    def test_one_that_steps_out_twice(self):
        paths = Paths(ONE)
        first, second = (_order.Place(paths._line, 0, 0, 7) for _ in range(2))
        first.stand()
        second.stand()
        first.step_out()
        first.step_out()
        self.assertEqual((len(paths._line), first.opens, first.behind), (1, None, None))
        second.step_out()
        self.assertFalse(paths._line.withholds())

    def test_one_of_a_task_that_is_closed(self):
        paths = self.strict(BOOK)

        async def main():
            async with paths.aio("read"):
                coroutine = paths.aio("write").__aenter__()
                coroutine.send(None)
                self.assertEqual(len(paths.waiters()), 1)
                coroutine.close()
                self.assertEqual((paths.waiters(), len(paths._line)), ([], 0))

        asyncio.run(main())
        self.end(paths)

    def test_an_interrupt_at_any_moment(self):
        may_leave_unused(self)
        paths = self.strict(BOOK)
        alarms, read = Alarms(self), paths.enter("read")
        for _ in range(200 if THOROUGH else 20):
            with contextlib.suppress(Timeout):
                alarms.cut_off(lambda: self.failure_of_write(paths), 0.0001, 0.003)
            self.assertEqual((paths.waiters(), len(paths._line), paths.waiting()), ([], 0, {}))
        read.leave()
        self.end(paths)

    def failure_of_write(self, paths):
        with contextlib.suppress(Timeout):
            paths.enter("write", timeout=0.002).leave()


class Schedules(Threads):
    """Random declarations and scripts, of which the paths alone end every schedule, in threads and in tasks that wait in order."""

    def work(self, paths, script):
        held = []
        for starts, operation, priority in script:
            if starts:
                held.append((operation, paths.enter(name_of(operation), priority=priority)))
            else:
                place = next(place for place, (each, _) in enumerate(held) if each == operation)
                held.pop(place)[1].leave()

    async def work_as_task(self, paths, script, chance):
        held = []
        for starts, operation, priority in script:
            for _ in range(chance.randrange(3)):
                await asyncio.sleep(0)
            if starts:
                entry = paths.aio(name_of(operation), priority=priority)
                await entry.__aenter__()
                held.append((operation, entry))
            else:
                place = next(place for place, (each, _) in enumerate(held) if each == operation)
                held.pop(place)[1].leave()

    def test_threads_end(self):
        before = sys.getswitchinterval()
        self.addCleanup(sys.setswitchinterval, before)
        sys.setswitchinterval(1e-6)
        for case in cases(CASES):
            for patience in (0, 0.0001):
                with self.subTest(case=str(case)):
                    paths = Paths(case.gate.text, patience=patience)
                    self.threads = [threading.Thread(target=self.work, args=(paths, script)) for script in case.scripts]
                    for thread in self.threads:
                        thread.start()
                    self.end(paths)

    def test_tasks_end(self):
        async def main(case, chance):
            paths = self.strict(case.gate.text)
            tasks = [asyncio.ensure_future(self.work_as_task(paths, script, chance)) for script in case.scripts]
            await asyncio.wait_for(asyncio.gather(*tasks), LONGEST)
            self.end(paths)

        for case, number in zip(cases(CASES), itertools.count()):
            with self.subTest(case=str(case)):
                asyncio.run(main(case, random.Random(number)))


if __name__ == "__main__":
    unittest.main()
