"""Who comes next over a log in PostgreSQL where one dies, beside a process of an earlier package, and where many enter again and again."""

import asyncio
import os
import signal
import threading
import unittest
from unittest import mock

from wanzoche import _order, _served

from .declarations import BOOK
from .limits import LONGEST
from .servers import needs_server
from .test_postgresql_order import NOBODY_LOOKS, OnLog
from .test_postgresql_segments import Earlier


@needs_server
class Deaths(OnLog, unittest.TestCase):
    grace = 0.5

    def test_a_dead_one_shuts_no_door(self):
        a, b = self.strict(), self.strict()
        entry = a.enter("read")
        child = self.child(lambda: self.made(BOOK, patience=0).enter("write"))
        self.until(lambda: self.rows() == [3])
        self.assertIsNone(b.try_enter("read"))
        os.kill(child, signal.SIGKILL)
        os.waitpid(child, 0)
        self.until(lambda: b.why("read") is None)
        b.enter("read", timeout=LONGEST).leave()
        entry.leave()

    def test_one_that_is_stopped_is_passed_when_its_door_opens(self):
        a, b = self.strict(), self.strict()
        entry = a.enter("write")
        child = self.child(lambda: self.made(BOOK, patience=0).enter("write"))
        self.until(lambda: self.rows() == [3])
        os.kill(child, signal.SIGSTOP)
        with mock.patch.object(_order, "SHUT", 50_000_000):
            waits = self.waits(b, "write")
            entry.leave()
            waits.join(LONGEST)
        os.kill(child, signal.SIGKILL)
        os.waitpid(child, 0)
        self.assertTrue(a.audit())

    def test_one_whose_session_is_ended_keeps_its_place(self):
        patch = mock.patch.object(_served.times, "SELDOM", NOBODY_LOOKS)
        patch.start()
        self.addCleanup(patch.stop)
        a, b, c = self.strict(), self.strict(), self.strict()
        entry = a.enter("write")
        threads = [self.waits(b, "write"), self.waits(c, "write")]
        session = b.served.log.session
        before = session._connection
        told = "select pg_terminate_backend(pid) from wanzoche.worker join wanzoche.log using (log) where name = %s and worker = 2"
        self.server.run(told, self.name)
        self.until(lambda: session._connection not in (None, before) and len(a.waiters()) == 2)
        self.assertEqual([str(each.worker) for each in a.waiters()], ["process 2", "process 3"])
        entry.leave()
        for thread in threads:
            thread.join(LONGEST)
        self.assertEqual([line.split()[0] for line in self.lines() if "start" in line], ["1", "2", "3"])


@needs_server
class FromFour(Earlier, unittest.TestCase):
    """In number 4 nobody stood in order."""

    earlier = 4
    opens = "select l from wanzoche.open(%s, %s, 'finish', 0.5, 16384)"

    def test_an_old_process_goes_on(self):
        """It is woken, wakes others, and shuts no door."""
        old, woken = self.old_process(), []
        old.connection.add_notify_handler(lambda notice: woken.append(notice.payload))
        a, b = self.open(BOOK, patience=0), self.open(BOOK, patience=0)
        self.assertEqual(self.number(), _served.schema.SCHEMA)
        entry = a.enter("read")
        known = len(self.lines())
        mark = self.server.run("select stamp from wanzoche.line order by place desc limit 1")[0][0]
        old.call(b"append", 1, known, mark, None, "{}", "{}", "{1}", "{}", "t")
        self.assertEqual(self.server.run("select operation, worker from wanzoche.waiting where since is not null"), [(1, 1)])
        b.enter("read", timeout=LONGEST).leave()
        entry.leave()
        old.connection.execute("select 1")
        self.assertEqual(set(woken), {"1"})
        mark = self.server.run("select stamp from wanzoche.line order by place desc limit 1")[0][0]
        old.call(b"append", 1, len(self.lines()), mark, "1 start write: started 2", "{}", "{}", "{}", "{1}", "f")
        waits = threading.Thread(target=lambda: a.enter("read", timeout=LONGEST).leave())
        with mock.patch.object(_served.times, "CHECK", NOBODY_LOOKS):
            waits.start()
            self.until(lambda: self.server.run("select 1 from wanzoche.waiter where since is not null"))
            old.call(b"append", 1, 0, None, None, "{2}", "{0,1}", "{}", "{}", "f")
            waits.join(LONGEST)
        self.assertTrue(a.audit())


@needs_server
class Loops(OnLog, unittest.TestCase):
    """Eight that enter one operation again and again: while one of them waits, each of the others begins at most once before it, and once
    more where that was on its way."""

    EACH, ENTRIES = 8, 12

    def noted(self, paths):
        """Notes from now on, of each start that has to wait, how many lines were known when the server knew of it, and its number."""
        clerk, waited = paths.served.clerk, {}
        note, begin, known = clerk.slots.note, clerk.holding.begin, paths.served.log.known

        def notes(wishes, has_left):
            note(wishes, has_left)
            for start in clerk.slots.starts([each.slot for each in wishes.waits]):
                waited[start.held] = known.place.lines

        def begins(held, number, caller):
            if held in waited:
                self.waited.append((waited.pop(held), number))
            begin(held, number, caller)

        clerk.slots.note, clerk.holding.begin = notes, begins

    def setUp(self):
        super().setUp()
        self.waited = []

    def judge(self, lines):
        """Nobody who waited was passed by more."""
        starts = {int(line.rsplit(" ", 1)[1]): place for place, line in enumerate(lines) if " start " in line}
        self.assertEqual(len(starts), 1 + self.EACH * self.ENTRIES)
        self.assertGreater(len(self.waited), self.EACH * self.ENTRIES // 4)
        most = max(sum(place < starts[number] for place in starts.values() if place >= known) for known, number in self.waited)
        self.assertLessEqual(most, 2 * (self.EACH - 1))

    def test_threads(self):
        paths = self.strict("resource r cell operation a path a end end")
        self.noted(paths)
        first = paths.enter("a")

        def loops():
            for _ in range(self.ENTRIES):
                paths.enter("a", timeout=LONGEST).leave()

        threads = [threading.Thread(target=loops) for _ in range(self.EACH)]
        for thread in threads:
            thread.start()
        self.until(lambda: len(self.rows()) == self.EACH)
        first.leave()
        for thread in threads:
            thread.join(LONGEST)
        self.judge(self.lines())

    def test_tasks(self):
        paths = self.strict("resource r cell operation a path a end end")
        self.noted(paths)
        first = paths.enter("a")

        async def loops():
            for _ in range(self.ENTRIES):
                async with paths.aio("a", timeout=LONGEST):
                    pass

        async def main():
            tasks = [asyncio.ensure_future(loops()) for _ in range(self.EACH)]
            while len(self.rows()) < self.EACH:
                await asyncio.sleep(0.01)
            first.leave()
            await asyncio.gather(*tasks)

        asyncio.run(main())
        self.judge(self.lines())

    def loops_in_a_process(self, into):
        """A child that does so."""
        child = os.fork()
        if child == 0:
            try:
                paths = self.made("resource r cell operation a path a end end", patience=0)
                self.noted(paths)
                for _ in range(self.ENTRIES):
                    paths.enter("a", timeout=LONGEST).leave()
                paths.close()
                os.write(into, repr(self.waited).encode())
            finally:
                os._exit(0)
        return child

    def test_processes(self):
        paths = self.strict("resource r cell operation a path a end end")
        first = paths.enter("a")
        pipes = [os.pipe() for _ in range(self.EACH)]
        children = [self.loops_in_a_process(into) for _, into in pipes]
        self.until(lambda: len(self.rows()) == self.EACH)
        first.leave()
        for child, (out, into) in zip(children, pipes):
            os.waitpid(child, 0)
            os.close(into)
            self.waited += eval(os.read(out, 1 << 16))
            os.close(out)
        self.judge(self.lines())


if __name__ == "__main__":
    unittest.main()
