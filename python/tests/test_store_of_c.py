"""One store that processes of C and of this package have open at the same time: here by the library's own calls, in processes of their own."""

import asyncio
import ctypes
import os
import signal
import threading
import unittest

from wanzoche import Blocked, CorruptStore, OtherDeclaration, Paths, Timeout
from wanzoche import _native as native

from .declarations import BOOK
from .limits import LONGEST
from .stores import InFolder

READ, WRITE = 0, 1


class Store:
    """An opening by the library."""

    def __init__(self, path, text=BOOK):
        self.calls = ctypes.CDLL(native._at)
        self.at, self.why = ctypes.c_void_p(), ctypes.create_string_buffer(512)
        for name in ("open", "enter", "enter_with_priority", "leave", "use"):
            getattr(self.calls, "wanzoche_store_" + name).restype = native.Answer
        source, limit = text.encode(), ctypes.c_int64(int(LONGEST * 1000))
        given = ctypes.byref(self.at), path.encode(), source, ctypes.c_size_t(len(source)), None, limit, self.why, ctypes.c_size_t(512)
        self.code = self.calls.wanzoche_store_open(*given).code

    def enter(self, operation, limit=LONGEST, priority=0):
        given = self.at, ctypes.c_uint32(operation), ctypes.c_uint32(priority), ctypes.c_int64(int(limit * 1000))
        return self.calls.wanzoche_store_enter_with_priority(*given)

    def put(self, activation, number):
        return self.calls.wanzoche_store_use(self.at, ctypes.c_uint64(activation), 0, ctypes.c_uint64(number), ctypes.c_int64(-1))

    def leave(self, activation):
        return self.calls.wanzoche_store_leave(self.at, ctypes.c_uint64(activation), ctypes.c_int64(-1)).code

    def close(self):
        self.calls.wanzoche_store_close(self.at, ctypes.c_int64(-1))


class AtOnce(InFolder, unittest.TestCase):
    def c(self):
        store = Store(self.file)
        self.assertEqual(store.code, native.OPENED, store.why.value)
        self.addCleanup(store.close)
        return store

    def test_an_order_holds_over_both(self):
        paths, store = self.open(BOOK), self.c()
        first = store.enter(READ)
        with paths("read") as second:
            self.assertEqual((first.number, second.token), (0, 1))
            self.assertEqual(store.enter(WRITE, 0).code, native.BLOCKED)
            with self.assertRaisesRegex(Timeout, "in progress: read by process 2, read by process 1$|read by process 1, read by process 2$"):
                paths.enter("write", timeout=0.01)
        self.assertEqual(store.leave(0), native.FINISHED)
        third = store.enter(WRITE)
        self.assertEqual(store.put(third.number, 7).code, native.USED)
        self.assertIsNone(paths.try_enter("read"))
        store.leave(third.number)
        with paths("read") as entry:
            self.assertEqual(entry.look(), 7)
        self.assertTrue(paths.audit())

    def test_each_is_woken_by_the_other(self):
        paths, store, turns = self.open("resource slot cell operation deposit, remove path deposit ; remove end end"), None, 100
        store = Store(self.file, "resource slot cell operation deposit, remove path deposit ; remove end end")
        self.addCleanup(store.close)

        def removes():
            for _ in range(turns):
                store.leave(store.enter(1).number)

        thread = threading.Thread(target=removes)
        thread.start()
        for _ in range(turns):
            paths.enter("deposit", timeout=LONGEST).leave()
        thread.join(LONGEST)
        self.assertEqual(paths.journal().count("started"), 2 * turns)

    def test_who_waits_in_c_is_told_in_python(self):
        paths, store, answers = self.open(BOOK, patience=0), self.c(), []
        with paths("read"):
            thread = threading.Thread(target=lambda: answers.append(store.enter(WRITE, priority=3)))
            thread.start()
            self.until(paths.waiting)
            (waiting,) = paths.waiters()
            self.assertEqual((waiting.operation, waiting.worker, waiting.priority, waiting.worker.pid), ("write", "process 2", 3, os.getpid()))
        thread.join(LONGEST)
        store.leave(answers[0].number)

    def test_a_dead_process_of_c(self):
        paths = self.open(BOOK)
        self.dies(lambda: Store(self.file).enter(WRITE))
        paths.enter("read", timeout=LONGEST).leave()
        self.assertEqual(self.lines()[:2], ["2 start write: started 0", "2 finish 0: finished"])

    def test_a_dead_process_of_python(self):
        store = self.c()
        self.dies(lambda: setattr(self, "kept", self.made(BOOK).enter("write")))
        self.assertEqual(store.leave(store.enter(READ).number), native.FINISHED)

    def test_another_declaration(self):
        self.c()
        with self.assertRaises(OtherDeclaration):
            Paths(BOOK.replace("write", "scribble"), store=self.file)

    def test_a_line_that_is_forged_stops_both(self):
        paths, store = self.open(BOOK), self.c()
        with open(self.file, "ab") as file:
            file.write(b"9 start write: started 7\n")
        self.assertEqual(store.enter(READ).code, native.CORRUPT)
        with self.assertRaises(CorruptStore):
            paths.report()


class Storm(InFolder, unittest.TestCase):
    """Processes of both kinds, some of which are killed: no two write at once, as a file says that knows nothing of paths."""

    def works(self, is_c, entries):
        fd = os.open(self.folder + "/witness", os.O_RDWR)
        if is_c:
            store = Store(self.file)
            enter, leave = lambda: store.enter(WRITE).number, store.leave
        else:
            paths = Paths(BOOK, store=self.file, sync=False)
            enter, leave = lambda: paths.enter("write", timeout=LONGEST), lambda entry: entry.leave()
        for _ in range(entries):
            held = enter()
            number = int(os.pread(fd, 20, 0) or b"0")
            os.pwrite(fd, b"%020d" % (number + 1), 0)
            leave(held)
        os._exit(0)

    def test_nothing_is_counted_twice(self):
        open(self.folder + "/witness", "w").close()
        self.made(BOOK, sync=False).close()
        each, children = 150, []
        for number in range(6):
            child = os.fork()
            if not child:
                try:
                    self.works(number % 2 == 0, each)
                finally:
                    os._exit(9)
            children.append(child)
        killed = os.fork()
        if not killed:
            try:
                self.works(False, 1 << 30)
            finally:
                os._exit(9)
        statuses = [os.waitpid(child, 0)[1] for child in children]
        os.kill(killed, signal.SIGKILL)
        os.waitpid(killed, 0)
        self.assertEqual(statuses, [0] * 6)
        with self.open(BOOK) as paths, open(self.folder + "/witness") as witness:
            written = paths.journal().count("start write")
            self.assertLessEqual(abs(written - int(witness.read())), 1)
            self.assertGreaterEqual(written, 6 * each)
            self.assertTrue(paths.audit())
            self.assertIsNone(paths.why("write"))


class Order(InFolder, unittest.TestCase):
    """Who comes next, over processes. Here nobody is passed from the first moment on."""

    def strict(self):
        return self.open(BOOK, patience=0, sync=False)

    def waits(self, paths, operation, told, priority=0):
        def enters():
            entry = paths.enter(operation, LONGEST, priority)
            told.append((operation, priority))
            entry.leave()

        many = len(paths.waiters())
        thread = threading.Thread(target=enters)
        thread.start()
        self.until(lambda: len(paths.waiters()) > many)
        return thread

    def test_a_newcomer_is_withheld(self):
        a, b, c = self.strict(), self.strict(), self.strict()
        told = []
        with a("read"):
            thread = self.waits(b, "write", told)
            self.assertIsNone(c.try_enter("read"))
            self.assertTrue(c.can_start("read"))
            why = c.why("read")
            self.assertIsInstance(why, Blocked)
            self.assertEqual((why.behind.operation, why.behind.worker), ("write", "process 2"))
            for timeout in (0, 0.01):
                with self.assertRaisesRegex(Timeout, "^read is withheld.*: behind write by process 2, which has waited .* s, path 0") as caught:
                    c.enter("read", timeout=timeout)
                self.assertEqual(caught.exception.behind.worker, "process 2")
        thread.join(LONGEST)
        c.enter("read", timeout=LONGEST).leave()

    def test_priorities(self):
        a, b = self.strict(), self.strict()
        told, threads = [], []
        with a("write"):
            for priority in (0, 2, 1):
                threads.append(self.waits(b if priority else a, "write", told, priority))
            self.assertEqual([each.priority for each in a.waiters()], [2, 1, 0])
            self.assertEqual(a.waiters()[0]._replace(waited=0), b.waiters()[0]._replace(waited=0))
            self.assertEqual((a.waiting(), a.metrics()["write"].waiting, b.metrics()["write"].waiting), ({"write": 3}, 1, 2))
        for thread in threads:
            thread.join(LONGEST)
        self.assertEqual(told, [("write", 2), ("write", 1), ("write", 0)])

    def test_without_an_order(self):
        a, b = self.open(BOOK, patience=float("inf")), self.open(BOOK, patience=float("inf"))
        told = []
        with a("read"):
            thread = self.waits(b, "write", told)
            b.enter("read", timeout=0).leave()
        thread.join(LONGEST)

    def test_what_is_no_patience(self):
        for patience, kind in ((-1, ValueError), (float("nan"), ValueError), ("1", TypeError), (True, TypeError)):
            with self.assertRaises(kind):
                self.open(BOOK, patience=patience)
        with self.assertRaisesRegex(ValueError, "^a priority is a number from 0 to 4,294,967,295, not -1$"):
            self.open(BOOK)("read", priority=-1)

    def test_tasks_stand_in_the_same_order(self):
        a, b, told = self.strict(), self.strict(), []

        async def enters(paths, priority):
            async with paths.aio("write", LONGEST, priority):
                told.append(priority)

        async def main():
            async with a.aio("write"):
                tasks = []
                for number, priority in enumerate((0, 2, 1)):
                    tasks.append(asyncio.ensure_future(enters(b if number % 2 else a, priority)))
                    while len(a.waiters()) <= number:
                        await asyncio.sleep(0.001)
            await asyncio.gather(*tasks)

        asyncio.run(asyncio.wait_for(main(), 4 * LONGEST))
        self.assertEqual(told, [2, 1, 0])

    def test_many_tasks_wait_by_one_thread(self):
        paths, other, count = self.open(BOOK, sync=False), self.open(BOOK, sync=False), 300

        async def writes():
            async with paths.aio("write"):
                await asyncio.sleep(0)

        async def main():
            entry = other.enter("read")
            tasks = [asyncio.ensure_future(writes()) for _ in range(count)]
            while len(other.waiters()) < count:
                await asyncio.sleep(0.001)
            listeners = [thread for thread in threading.enumerate() if thread.name == "wanzoche listener"]
            self.assertEqual(len(listeners), 1)
            for task in tasks[::3]:
                task.cancel()
            entry.leave()
            await asyncio.gather(*tasks, return_exceptions=True)

        asyncio.run(asyncio.wait_for(main(), 4 * LONGEST))
        self.assertEqual((paths.journal().count("start write"), paths.waiters()), (count - count // 3, []))
        self.assertTrue(paths.audit())


if __name__ == "__main__":
    unittest.main()
