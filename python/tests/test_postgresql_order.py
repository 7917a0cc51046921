"""Who comes next among those who wait over a log in PostgreSQL: the tests of one process, where each thread has an opening of its own, and
what only several processes can show."""

import asyncio
import math
import threading
import time
import unittest
from unittest import mock

from wanzoche import Blocked, Paths, Timeout, _order, _served

from . import test_order
from .declarations import BOOK
from .limits import LONGEST
from .servers import OnServer, needs_server, new_name, the_server
from .test_order import NEVER_OPENS, ONE

STEPS = "resource r cell operation a, b, c path a ; b end path { c } , b end end"
"""Nobody knows when `b` may begin, before `a` has."""
NOBODY_LOOKS = 1000.0
"""So many seconds pass until one who waits looks by itself."""


class OverOpenings(OnServer):
    """For a TestCase of those of one process: each thread enters by an opening of its own. Who may go on is woken, or it waits for ever."""

    shut = NEVER_OPENS

    def setUp(self):
        super().setUp()
        self.openings = {}
        for module, name, value in ((_served.times, "CHECK", NOBODY_LOOKS), (test_order, "Paths", self.opened)):
            patch = mock.patch.object(module, name, value)
            patch.start()
            self.addCleanup(patch.stop)

    def opened(self, text, **options):
        name = new_name()
        paths = self.another(text, name, options)
        self.openings[paths] = (text, name, options)
        return paths

    def another(self, text, name, options):
        paths = Paths(text, store=self.server.url, name=name, grace=float(LONGEST), **options)
        self.addCleanup(paths.close)
        return paths

    def paths_of(self, paths):
        return self.another(*self.openings[paths])

    def stand(self, paths):
        _, name, _ = self.openings[paths]
        told = "select count(*) from wanzoche.waiter join wanzoche.log using (log) where name = %s and since is not null"
        self.until(lambda: self.server.run(told, name) == [(0,)])
        return 0


@needs_server
class Order(OverOpenings, test_order.Order):
    test_a_newcomer_is_withheld_for_a_writer = None  # see Told

    def test_a_higher_priority_comes_first(self):
        paths = self.strict(ONE)
        first = paths.enter("a")
        for name, priority in (("last", 0), ("third", 1), ("first", 7), ("second", 7)):
            self.comes(paths, "b", name, priority=priority)
        told = [(each.operation, str(each.worker), each.priority) for each in paths.waiters()]
        self.assertEqual(told, [("b", "process 4", 7), ("b", "process 5", 7), ("b", "process 3", 1), ("b", "process 2", 0)])
        first.leave()
        for place, name in enumerate(["first", "second", "third", "last"]):
            self.until(lambda: len(self.came) > place)
            self.assertEqual(self.came[-1], name)
            self.leaves(name)
        self.end(paths)

    test_who_asks_again_without_end_is_passed_by_nobody = None  # see Loops


@needs_server
class Wakes(OverOpenings, test_order.Wakes):
    test_when_one_gives_up = test_when_one_is_interrupted = test_when_paths_are_closed = None  # they know how one waits in memory
    test_when_one_that_holds_something_begins_to_wait = test_what_one_holds_who_waits_is_no_reason_to_wait_for_it = None

    def test_when_one_is_late(self):
        paths = self.strict(BOOK)
        self.comes(paths, "read", "holder", waits=False)
        own = self.paths_of(paths)
        late = threading.Thread(target=lambda: self.assertRaises(Timeout, own.enter, "write", timeout=1.0))
        late.start()
        self.until(lambda: paths.waiters())
        if paths.try_enter("read") is None:  # else a second was over
            self.comes(paths, "read", "reader", waits=False)
        late.join(LONGEST)
        self.end(paths)

    def test_when_one_that_holds_something_waits(self):
        """Nobody knows when its read ends: the writer's way isn't clear."""
        paths = self.strict("resource r cell operation read, write, other path { read } , write end path other end end")
        other, holds, go_on, own = paths.enter("other"), threading.Event(), threading.Event(), self.paths_of(paths)

        def reads_and_waits():
            with own("read"):
                holds.set()
                go_on.wait(LONGEST)
                own.enter("other").leave()

        self.threads.append(threading.Thread(target=reads_and_waits, name="holder"))
        self.threads[0].start()
        holds.wait(LONGEST)
        self.comes(paths, "write", "writer")
        self.comes(paths, "read", "reader")
        self.assertEqual(self.came, [])
        go_on.set()
        self.until(lambda: self.came == ["reader"])
        other.leave()
        self.end(paths)

    def test_a_second_read_within_the_first(self):
        paths = self.strict(BOOK)
        own = self.paths_of(paths)
        with own("read"):
            self.comes(paths, "write", "writer")
            with own("read", timeout=LONGEST):
                pass
        self.end(paths)


@needs_server
class Doors(OverOpenings, test_order.Doors):
    shut = 1_000_000
    test_one_that_is_turned_away_for_long_is_told_of_in_the_log = None

    def test_it_opens_for_those_who_came_meanwhile(self):
        """Each 20 milliseconds here; the writer keeps its place."""
        with mock.patch.object(_order, "SHUT", 20_000_000):
            paths = self.strict(BOOK)
            self.comes(paths, "read", "holder", waits=False)
            self.comes(paths, "write", "writer")
            for name in ("first", "second", "third"):
                self.comes(paths, "read", name, waits=False)
            self.assertEqual(paths.waiters()[0].operation, "write")
        self.end(paths)


@needs_server
class Schedules(OverOpenings, test_order.Schedules):
    """Each thread of a script has an opening of its own."""

    test_tasks_end = None

    def test_threads_end(self):
        for case in test_order.cases(12):
            with self.subTest(case=str(case)):
                paths = self.strict(case.gate.text)
                own = [self.paths_of(paths) for _ in case.scripts]
                self.threads = [threading.Thread(target=self.work, args=given) for given in zip(own, case.scripts)]
                for thread in self.threads:
                    thread.start()
                self.end(paths)
                for each in own:
                    each.close()


class OnLog(OnServer):
    """For a TestCase: several openings of one log, where no door opens by itself."""

    def setUp(self):
        super().setUp()
        patch = mock.patch.object(_order, "SHUT", NEVER_OPENS)
        patch.start()
        self.addCleanup(patch.stop)

    def strict(self, text=BOOK, **options):
        return self.open(text, patience=0, **options)

    def rows(self):
        told = "select worker from wanzoche.waiter join wanzoche.log using (log) where name = %s and since is not null order by ticket"
        return [worker for (worker,) in self.server.run(told, self.name)]

    def waits(self, paths, operation, **options):
        """A thread that waits by these paths, when this returns."""
        number = len(self.rows())
        thread = threading.Thread(target=lambda: paths.enter(operation, **{"timeout": LONGEST, **options}).leave())
        thread.start()
        self.until(lambda: len(self.rows()) > number)
        return thread


@needs_server
class Told(OnLog, unittest.TestCase):
    """What one is told who has to wait for another."""

    WORDS = r"behind write by process 2, which has waited \d+\.\d s, path 0 of book: { read } , write; in progress: read by process 1$"

    def test_for_whom(self):
        a, b, c = self.strict(), self.strict(), self.strict()
        entry = a.enter("read")
        writer = self.waits(b, "write")
        self.assertTrue(c.can_start("read"))
        for enters in (lambda: c.enter("read", timeout=0), lambda: asyncio.run(self.task(c, 0))):
            with self.assertRaisesRegex(Timeout, "^read is withheld: " + self.WORDS) as caught:
                enters()
            behind = caught.exception.behind
            self.assertEqual((behind.operation, str(behind.worker), behind.priority), ("write", "process 2", 0))
        for enters in (lambda: c.enter("read", timeout=0.05), lambda: asyncio.run(self.task(c, 0.05))):
            with self.assertRaisesRegex(Timeout, "^read is withheld for 0.05 seconds: " + self.WORDS):
                enters()
        self.assertIsNone(c.try_enter("read"))
        why = c.why("read")
        self.assertEqual((type(why), why.behind.operation), (Blocked, "write"))
        self.assertRegex(str(why), "^read is withheld: " + self.WORDS)
        self.assertIsNone(b.why("write").behind)
        self.assertEqual([(each.operation, str(each.worker)) for each in c.waiters()], [("write", "process 2")])
        self.assertEqual(self.lines(), ["1 start read: started 0"])  # what is withheld is no attempt
        entry.leave()
        writer.join(LONGEST)
        self.assertEqual((c.waiters(), c.why("read")), ([], None))

    async def task(self, paths, seconds):
        async with paths.aio("read", timeout=seconds):
            self.fail("it was let in")

    def test_why_one_waits(self):
        """Who asks for another thread isn't told that it has to wait for that one."""
        a, b, c = self.strict(), self.strict(), self.strict()
        entry = a.enter("read")
        writer, reader = self.waits(b, "write"), self.waits(c, "read")
        self.assertEqual(str(c._why_waits("read").behind.worker), "process 2")
        self.assertIsNone(b._why_waits("write").behind)
        entry.leave()
        writer.join(LONGEST)
        reader.join(LONGEST)
        self.assertIsNone(c._why_waits("read"))

    def test_in_the_program_s_log(self):
        a, b, c = self.strict(), self.strict(), self.strict()
        entry = a.enter("read")
        writer = self.waits(b, "write")
        with mock.patch.object(_served.times, "CHECK", 0.1), self.assertLogs("wanzoche", "INFO") as seen:
            reader = self.waits(c, "read")
            self.until(lambda: any("read is withheld: behind write by process 2" in each for each in seen.output))
        entry.leave()
        writer.join(LONGEST)
        reader.join(LONGEST)


@needs_server
class Patience(OnLog, unittest.TestCase):
    """It is of who waits, and whoever comes keeps to it."""

    def test_endless(self):
        """Nobody is withheld for one who has it, whatever others have."""
        a, b, c = self.strict(), self.open(BOOK, patience=math.inf), self.strict()
        entry = a.enter("read")
        writer = self.waits(b, "write")
        c.try_enter("read").leave()
        c.enter("read", timeout=LONGEST).leave()
        self.assertEqual([each.operation for each in c.waiters()], ["write"])
        entry.leave()
        writer.join(LONGEST)

    def test_who_has_endless_patience_is_withheld_for_others(self):
        a, b, c = self.strict(), self.strict(), self.open(BOOK, patience=math.inf)
        entry = a.enter("read")
        writer = self.waits(b, "write")
        self.assertIsNone(c.try_enter("read"))
        entry.leave()
        writer.join(LONGEST)

    def test_a_newcomer_passes_until_it_is_over(self):
        a, b, c = self.strict(), self.open(BOOK, patience=LONGEST), self.strict()
        entry = a.enter("read")
        writer = self.waits(b, "write")
        c.enter("read", timeout=LONGEST).leave()
        self.server.run("update wanzoche.waiter set shuts = since, told = null where since is not null")  # as if it had waited for so long
        self.assertIsNone(self.strict().try_enter("read"))
        entry.leave()
        writer.join(LONGEST)

    def test_readers_that_overlap(self):
        """However many are in, none comes in behind a writer whose patience is over."""
        for readers in (4, 8, 16):
            with self.subTest(readers):
                self.name = new_name()
                openings = [self.strict() for _ in range(4)]
                held = [openings[number % 4].enter("read") for number in range(readers)]
                writer = self.waits(self.strict(), "write")
                entered = 0
                while held:  # one leaves, and another comes
                    held.pop(0).leave()
                    entered += len(held) > 0 and self.strict().try_enter("read") is not None
                writer.join(LONGEST)
                self.assertEqual(entered, 0)
                self.assertEqual(sum("start read" in line for line in self.lines()), readers)

    def test_one_trip_past_one_whose_way_is_not_clear(self):
        """Who waits for a deposit holds up nobody, and costs a start no second call."""
        a, b = self.strict(STEPS), self.strict(STEPS)
        waits = self.waits(b, "b")
        for _ in range(2):  # the log's first line, and one that learns who waits
            a.enter("c").leave()
        calls, session = [], a.served.log.session
        call = session.call
        with mock.patch.object(session, "call", lambda *given: (calls.append([each.name for each in given[0]]), call(*given))[1]):
            for _ in range(5):
                a.enter("c").leave()
        self.assertEqual(len(calls), 10, calls)
        a.enter("a").leave()
        waits.join(LONGEST)


if __name__ == "__main__":
    unittest.main()
