"""The rows of workers of a log in PostgreSQL: those that are dead go when nothing names them."""

import os
import signal
import unittest

from wanzoche import Lost

from .declarations import BOOK
from .limits import LONGEST
from .servers import SHORT_GRACE, OnServer, Server, needs_server
from .test_postgresql import Cutting

DEAD = (
    "insert into wanzoche.worker (log, worker, process, knows, may_be_gone, pid, role, lock, channel, gone) "
    "select log, 100 + g, '1 away', 4, '1 second', 1, 10, g, 'wanzoche_' || g, now() - interval '1 hour' "
    "from wanzoche.log, generate_series(1, %s) g where name = %s"
)


@needs_server
class Rows(OnServer, unittest.TestCase):
    grace = SHORT_GRACE

    def workers(self):
        told = "select worker from wanzoche.worker join wanzoche.log using (log) where name = %s order by worker"
        return [worker for (worker,) in self.server.run(told, self.name)]

    def waiting(self):
        """How many rows say that another than the first waits or has waited."""
        told = "select count(*) from wanzoche.waiter join wanzoche.log using (log) where name = %s and worker <> 1"
        return self.server.run(told, self.name)[0][0]

    def add_dead(self, count):
        self.server.run(DEAD, count, self.name)
        self.server.run("update wanzoche.log set workers = workers + 100 + %s where name = %s", count, self.name)

    def opens_until(self, wanted):
        """Opens the log and closes it again and again, until these are left."""
        self.until(lambda: self.made(BOOK).close() or self.workers() == wanted)

    def test_who_closes_leaves_none(self):
        kept = self.open(BOOK)
        for _ in range(20):
            paths = self.made(BOOK)
            with paths("read"):
                pass
            paths.close()
        self.assertEqual((self.workers(), self.waiting()), ([1], 0))
        kept.close()
        self.assertEqual(self.workers(), [])

    def test_who_dies_leaves_none(self):
        """Also while it waits, or has something in progress. Its row goes with the next opening behind the grace."""
        a = self.open(BOOK)
        entry = a.enter("write")
        for _ in range(5):
            self.dies(lambda: setattr(self, "kept", self.made(BOOK)))
        child = self.child(lambda: self.made(BOOK).enter("read"))
        self.until(self.waiting)
        os.kill(child, signal.SIGKILL)
        os.waitpid(child, 0)
        entry.leave()
        self.dies(lambda: setattr(self, "kept", self.made(BOOK).enter("write")))
        a.enter("read", timeout=LONGEST).leave()
        self.opens_until([1])
        self.assertEqual(self.waiting(), 0)
        self.assertTrue(a.audit())

    def test_ten_thousand(self):
        """An opening takes a thousand away."""
        a = self.open(BOOK)
        self.add_dead(10000)
        for left in range(9, -1, -1):
            self.made(BOOK).close()
            # One whose session is cut off on a busy machine comes again, and leaves a row, too.
            self.assertIn(len(self.workers()) - 1000 * left, range(1, 10))
        a.enter("read").leave()
        self.opens_until([1])

    def test_ten_thousand_are_removed(self):
        """At a server with few locks, where others open logs meanwhile."""
        self.server = Server(max_locks_per_transaction="10", max_connections="20")
        self.addCleanup(self.server.end)
        self.open(BOOK).close()
        self.add_dead(10000)
        first, self.name = self.name, "another"
        self.open(BOOK).enter("read").leave()
        self.assertEqual(self.server.run("select wanzoche.remove(%s)", first), [(True,)])
        self.open(BOOK).enter("read").leave()
        self.assertEqual(self.server.run("select count(*) from wanzoche.worker"), [(2,)])

    def test_what_is_named_stays(self):
        """Whose operation is kept in progress."""
        a = self.open(BOOK, lost="keep")
        self.dies(lambda: setattr(self, "kept", self.made(BOOK).enter("write")))
        self.dies(lambda: setattr(self, "kept", self.made(BOOK)))
        self.opens_until([1, 2])
        self.until(lambda: a.report().lost)
        self.assertRegex(a.served.process_of(2), "^[0-9]+ ")
        self.assertEqual(a.recover(2), 1)
        self.assertEqual(self.workers(), [1])

    def test_one_that_has_begun_something_since(self):
        """Who sweeps knows all lines before its last start."""
        a = self.open(BOOK)
        a.enter("read").leave()
        known, log = len(self.lines()), a.served.log.calls.log.decode()
        self.dies(lambda: setattr(self, "kept", self.made(BOOK).enter("read")))
        sweep = "select wanzoche.sweep(%s, %s, '{}', '1 second')"
        is_dead = "select 1 from wanzoche.worker where log = %s and worker = 2 and gone + interval '1 second' < clock_timestamp()"
        self.until(lambda: self.server.run(sweep, log, known) and (self.server.run(is_dead, log) or 2 not in self.workers()))
        self.server.run(sweep, log, known)
        self.assertEqual(self.workers(), [1, 2])
        self.server.run(sweep, log, known + 1)
        self.assertEqual(self.workers(), [1])

    def test_one_that_comes_back(self):
        """In time it is the same; later its row is gone, and it is another."""
        self.grace = 2.0
        proxy = Cutting(self.server.port)
        self.addCleanup(proxy.close)
        b, a = self.open(BOOK), self.open(BOOK, store=self.server.tcp_url(port=proxy.port))
        entry = a.enter("read")
        self.server.run("select pg_terminate_backend(pid) from wanzoche.worker join wanzoche.log using (log) where name = %s and worker = 2", self.name)
        self.made(BOOK).close()
        self.assertEqual((entry.look(), a.worker), (0, "process 2"))
        proxy.is_open = False
        proxy.cut()
        b.enter("write", timeout=LONGEST).leave()
        self.assertEqual(self.workers(), [1])
        proxy.is_open = True
        self.assertRaises(Lost, entry.leave)
        a.enter("read", timeout=LONGEST).leave()
        self.assertEqual((a.worker, self.workers()), ("process 4", [1, 4]))
        self.assertTrue(a.audit())


if __name__ == "__main__":
    unittest.main()
