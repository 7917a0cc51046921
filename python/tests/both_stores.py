"""What holds of paths over a store, whichever it is: for a TestCase that has `open`, `made`, `lines`, `dies` and `until`."""

import asyncio
import gc
import os
import signal
import threading
import time

import wanzoche
from wanzoche import Closed, Forked, Lost, Timeout

from .declarations import BOOK, LINE, SLOT
from .limits import LONGEST


class Sharing:
    """What processes share."""

    def test_an_order_holds_over_all(self):
        a, b = self.open(BOOK), self.open(BOOK)
        with a("read") as first, b("read") as second:
            self.assertEqual((first.token, second.token), (0, 1))
            self.assertEqual((first.worker, second.worker), ("process 1", "process 2"))
            told = "^write is blocked for 0.01 seconds: path 0 of book: .* in progress: read by process 1, read by process 2$"
            for timeout in (0.01, 0):
                with self.assertRaisesRegex(Timeout, told if timeout else "^write is blocked: path 0"):
                    b.enter("write", timeout=timeout)
            told = "^write is blocked: path 0 of book: .* in progress: read by process 1, read by process 2$"
            self.assertRegex(str(b.why("write")), told)
        with b("write") as third:
            self.assertEqual(third.token, 2)
            self.assertIsNone(a.try_enter("read"))
            self.assertEqual(a.report().live, (wanzoche.Live(2, "process 2", "write"),))
        self.assertEqual(a.journal(), b.journal())
        self.assertEqual(a.journal().splitlines(), self.lines())
        self.assertEqual(a.journal().count("\n"), 6)
        self.assertTrue(a.audit() and a.audit(a.journal()) and wanzoche.audit(BOOK, a.journal()))

    def test_why_says_what_may_begin_next(self):
        a, b = self.open(SLOT), self.open(SLOT)

        async def enters(paths, operation):
            async with paths.aio(operation, timeout=0.01):
                pass

        for paths, operation, next_one in ((a, "remove", "deposit"), (b, "deposit", "remove")):
            told = "{} is blocked: path 0 of slot: deposit ; remove; in progress: nothing of it; may begin next: {}".format(operation, next_one)
            why = paths.why(operation)
            self.assertEqual((why.may_begin, str(why)), ((next_one,), told))
            for enter in (lambda: paths.enter(operation, timeout=0.01), lambda: asyncio.run(enters(paths, operation))):
                with self.assertRaisesRegex(Timeout, "; may begin next: {}$".format(next_one)) as caught:
                    enter()
                self.assertEqual(caught.exception.may_begin, (next_one,))
            paths.enter(next_one).leave()
        self.assertIsNone(a.why("deposit"))

    def test_devices_are_shared(self):
        a, b = self.open(LINE), self.open(LINE)
        for number in (7, 8):
            with a("put") as entry:
                entry.put(number)
        with b("get") as entry:
            self.assertEqual((entry.look(), entry.take(), entry.look()), (7, 7, 8))
            with self.assertRaisesRegex(wanzoche.UseRefused, "^add 3 in get: not offered: line is a queue 8, which has put, take and look$"):
                entry.add(3)
        self.assertTrue(b.audit())

    def test_tasks(self):
        a, b = self.open(SLOT), self.open(SLOT, sync=False)

        async def deposits():
            for _ in range(30):
                async with a.aio("deposit") as entry:
                    self.assertEqual(entry.worker, "process 1")

        async def removes():
            for _ in range(30):
                async with b.aio("remove", timeout=LONGEST):
                    pass
            with self.assertRaisesRegex(Timeout, "in progress: nothing of it"):
                async with b.aio("remove", timeout=0.01):
                    pass

        async def both():
            await asyncio.gather(deposits(), removes())

        asyncio.run(both())
        self.assertTrue(a.audit())

    def test_what_was_stored_is_there_later(self):
        with self.made(SLOT) as paths:
            with paths("deposit") as entry:
                entry.put(5)
        again = self.open(SLOT)
        self.assertEqual(again.worker, "process 2")
        with again("remove") as entry:
            self.assertEqual((entry.look(), entry.token), (5, 1))


class Deaths:
    """What death leaves, and what the living may lose."""

    def holds_a_write(self):
        self.kept = self.made(BOOK).enter("write")

    def test_what_the_dead_had_is_finished(self):
        a = self.open(BOOK)
        self.dies(self.holds_a_write)
        begun = time.monotonic()
        a.enter("read", timeout=LONGEST).leave()
        self.assertGreaterEqual(time.monotonic() - begun, self.grace)
        self.assertEqual(
            self.lines(), ["2 start write: started 0", "2 finish 0: finished", "1 start read: started 1", "1 finish 1: finished"]
        )
        self.assertTrue(a.audit())

    def test_the_living_are_not_taken_for_dead(self):
        a, b = self.open(BOOK), self.open(BOOK)
        with a("write"):
            for _ in range(2):
                with self.assertRaises(Timeout):
                    b.enter("read", timeout=max(0.15, 2 * self.grace))
            self.assertEqual(b.report().lost, ())

    def test_kept_and_recovered(self):
        a = self.open(BOOK, lost="keep")
        self.dies(self.holds_a_write)
        with self.assertRaisesRegex(Timeout, "in progress: write by process 2$"):
            a.enter("read", timeout=0.25)
        self.until(lambda: a.report().lost)
        (lost,) = a.report().lost
        self.assertEqual((lost.worker, lost.operation), ("process 2", "write"))
        self.assertEqual(a.recover(lost), 1)
        self.assertEqual((a.recover("process 2"), a.recover(2)), (0, 0))
        a.enter("read", timeout=0).leave()
        self.assertTrue(a.audit())

    def test_the_living_may_lose_what_they_have(self):
        a, b = self.open(BOOK), self.open(BOOK)
        entry, other = a.enter("write"), a("write")
        for worker in (a.worker, 1):
            with self.assertRaisesRegex(ValueError, "^process 1 is alive$"):
                b.recover(worker)
        self.assertEqual(b.recover(a.worker, even_alive=True), 1)
        with b("read"):
            with self.assertRaises(Lost):
                entry.put(1)
            with self.assertRaisesRegex(Lost, "^activation 0 was finished by others"):
                entry.leave()
        with self.assertRaises(wanzoche.NotInProgress):
            entry.leave()
        with other:
            pass
        with self.assertRaises(Lost):
            with a("write"):
                b.recover(a.worker, even_alive=True)
        self.assertTrue(a.audit())

    def test_a_child_of_a_fork_keeps_nothing_alive(self):
        pids = os.pipe()

        def forks():
            self.holds_a_write()
            child = os.fork()
            if child == 0:
                time.sleep(4 * LONGEST)
            os.write(pids[1], str(child).encode())

        self.dies(forks)
        self.open(BOOK).enter("read", timeout=LONGEST).leave()
        os.kill(int(os.read(pids[0], 20)), signal.SIGKILL)

    def test_a_child_of_a_fork_opens_its_own(self):
        paths = self.open(BOOK)
        entry = paths.enter("read")
        child = os.fork()
        if child == 0:
            told = []
            for call in (entry.leave, paths.report, paths.journal, lambda: paths.enter("read"), lambda: paths.recover(1)):
                try:
                    call()
                except Forked:
                    told.append(True)
            paths.close()
            with self.made(BOOK)("read") as own:
                told.append(own.worker == "process 2")
            os._exit(0 if told == [True] * 6 else 1)
        self.assertEqual(os.waitpid(child, 0)[1], 0)
        entry.leave()
        self.assertEqual(paths.report().live, ())

    def test_a_thread_that_drops_its_entry(self):
        paths = self.open(BOOK)
        with self.assertWarns(ResourceWarning):
            thread = threading.Thread(target=lambda: paths.enter("write") and None)
            thread.start()
            thread.join(LONGEST)
            gc.collect()
        self.open(BOOK).enter("read", timeout=LONGEST).leave()

    def test_closing_finishes(self):
        paths, other = self.open(BOOK), self.open(BOOK)
        entry = paths.enter("write")
        paths.close()
        other.enter("read", timeout=0).leave()
        with self.assertRaises(Closed):
            entry.leave()
