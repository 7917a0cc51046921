"""How often a process asks a server for an entry to a log in PostgreSQL, and that what saves a call loses nothing: starts and finishes that go
behind lines which their process hasn't read, and notifications that bring what is new."""

import fcntl
import os
import threading
import time
import unittest
from unittest import mock

from wanzoche import Lost, StoreError, _order, _served

from .declarations import BOOK
from .limits import LONGEST
from .servers import OnServer, Server, needs_server, the_server
from .test_order import NEVER_OPENS
from .test_postgresql_faults import CANCELLED, CUT, Disturbed, Enters, Failing
from .test_postgresql_order import NOBODY_LOOKS, OnLog
from .test_postgresql_segments import Earlier

LIBRARY = """resource book cell
operation read, write, look, note
path { read } , write end
path look end
path { note } end
end
"""
"""A look and a note have nothing to do with reads and writes."""
BURST = """resource book cell
operation read, close, look
path { read } ; close end
path look end
end
"""
"""Behind the last of several reads that overlap a read has to wait for a close."""


class Counting(OnServer):
    """For a TestCase of what a process calls."""

    def calls_of(self, paths):
        """The names of what a process calls, a list for each trip, from now on."""
        session, trips = paths.served.log.session, []

        def calls(given, until):
            trips.append([each.name.decode() for each in given])
            return _served.session.Session.call(session, given, until)

        session.call = calls
        return trips

    def met(self, text):
        """Two processes of a log, of which the first knows that it isn't alone, and has read all."""
        a, b = self.open(text), self.open(text)
        b.enter("look").leave()
        a.enter("look").leave()
        b.enter("look").leave()
        a.enter("look").leave()
        return a, b


@needs_server
class Starts(Counting, unittest.TestCase):
    ONE_TRIP = [["start", "line_lasts"]]

    def test_behind_lines_of_other_paths(self):
        """Starts, finishes and uses: its number is higher by the starts."""
        a, b = self.met(LIBRARY)
        with b("note"):
            kept = a.enter("read")  # knows of a note in progress
        for _ in range(3):
            with b("look") as entry:
                entry.put(7)
                entry.look()
        trips = self.calls_of(a)
        entry = a.enter("read")
        self.assertEqual(trips, self.ONE_TRIP)
        self.assertEqual(self.lines()[-1], "1 start read: started {}".format(entry.token))
        for each in (entry, kept):
            each.leave()
        self.assertTrue(a.audit() and b.audit())

    def test_not_behind_a_start_of_its_paths(self):
        a, b = self.met(LIBRARY)
        entry, before = b.enter("write"), len(self.lines())
        self.assertIsNone(a.try_enter("read"))
        self.assertIsNone(a.try_enter("write"))
        self.assertEqual(len(self.lines()), before)
        entry.leave()
        a.enter("write").leave()
        self.assertTrue(a.audit() and b.audit())

    def test_not_behind_a_finish_of_its_paths(self):
        """Nobody may read again before it was closed."""
        a, b = self.met(BURST)
        first = b.enter("read")
        a.enter("read").leave()
        with b("look"):
            first.leave()
            before = len(self.lines())
            self.assertIsNone(a.try_enter("read"))
            self.assertEqual(len(self.lines()), before)
        a.enter("close").leave()
        a.enter("read").leave()
        self.assertTrue(a.audit() and b.audit())

    def test_not_behind_more_than_it_is_told_of(self):
        """It comes later by a trip where much is in progress, or many lines were appended."""
        a, b = self.met(LIBRARY)
        with a("note"), mock.patch.object(_served.drafts, "FEW", 0):
            b.enter("look").leave()
            trips = self.calls_of(a)
            a.enter("read").leave()
        self.assertEqual([trip[0] for trip in trips], ["start", "start", "finish", "finish"])
        for _ in range(501):
            b.enter("look").leave()
        trips = self.calls_of(a)
        a.enter("read").leave()
        self.assertEqual([trip[0] for trip in trips], ["start", "start", "finish"])
        self.assertTrue(a.audit() and b.audit())

    def test_who_is_answered_by_another_session(self):
        """It finds its line, whatever number that has, and has it once."""
        a, b = self.met(LIBRARY)
        session = a.served.log.session
        for code in (CANCELLED, CUT):
            for behind in (0, 1, None):
                with self.subTest(code=code, behind=behind):
                    with b("look"), mock.patch.object(session, "call", Failing(session, 1, behind, [code])):
                        entry = a.enter("read", timeout=LONGEST)
                    self.assertEqual([each.activation for each in b.report().live], [entry.token])
                    entry.leave()
                    self.assertEqual(b.report().live, ())
                    b.enter("look").leave()
                    a.enter("look").leave()
        self.assertTrue(a.audit() and b.audit())


@needs_server
class Finishes(Counting, unittest.TestCase):
    ONE_TRIP = [["finish", "lasts"]]

    def test_behind_all_lines(self):
        a, b = self.open(BOOK), self.open(BOOK)
        for lines in (0, 1, 50):
            entry = a.enter("read")
            for _ in range(lines):
                b.enter("read").leave()
            trips = self.calls_of(a)
            entry.leave()
            self.assertEqual(trips, self.ONE_TRIP)
        self.assertTrue(a.audit() and b.audit())

    def test_one_that_another_has_finished(self):
        a, b = self.open(BOOK), self.open(BOOK)
        entry = a.enter("read")
        self.assertEqual(b.recover("process 1", even_alive=True), 1)
        b.enter("read").leave()
        trips = self.calls_of(a)
        self.assertRaises(Lost, entry.leave)
        self.assertEqual(trips, self.ONE_TRIP)
        self.assertEqual(sum("finish 0:" in line for line in self.lines()), 1)

    def test_one_whose_next_line_was_moved(self):
        a, b = self.open(BOOK), self.open(BOOK)
        entry = a.enter("read")
        b.enter("read").leave()
        b.rotate()
        entry.leave()
        a.enter("write").leave()
        self.assertTrue(a.audit() and b.audit())


@needs_server
class Order(OnLog, unittest.TestCase):
    def test_who_waits_is_not_passed_behind_lines_of_others(self):
        """Though the starter hasn't heard of it."""
        a, b, c = self.strict(LIBRARY), self.strict(LIBRARY), self.strict(LIBRARY)
        reads = b.enter("read")
        b.enter("look").leave()
        a.enter("look").leave()
        writer = self.waits(c, "write")
        b.enter("look").leave()
        before = self.lines()
        self.assertIsNone(a.try_enter("read"))
        self.assertEqual(self.lines(), before)
        self.assertEqual(str(a.why("read").behind.worker), "process 3")
        b.enter("look").leave()
        a.enter("look").leave()  # the writer isn't in its way
        reads.leave()
        writer.join(LONGEST)
        self.assertTrue(a.audit())


@needs_server
class Woken(OnLog, Counting, unittest.TestCase):
    """Nobody looks by itself here."""

    def setUp(self):
        super().setUp()
        never = LONGEST * 1_000_000_000
        for module, name, value in ((_served.times, "CHECK", NOBODY_LOOKS), (_served.order, "LATEST", never), (_served.order, "EARLIEST", -never)):
            patch = mock.patch.object(module, name, value)
            patch.start()
            self.addCleanup(patch.stop)

    def test_it_begins_in_one_trip(self):
        a, b, c = self.strict(LIBRARY), self.strict(LIBRARY), self.strict(LIBRARY)
        entry = a.enter("write")
        waits = self.waits(b, "write")
        for _ in range(10):
            c.enter("look").leave()
        trips = self.calls_of(b)
        entry.leave()
        waits.join(LONGEST)
        self.assertEqual([trip[0] for trip in trips], ["start", "finish"])
        self.assertTrue(b.audit())

    def test_one_that_is_woken_in_vain_asks_nothing(self):
        a, b, c = self.strict(BOOK), self.strict(BOOK), self.strict(BOOK)
        reads = [a.enter("read"), a.enter("read")]
        waits = self.waits(b, "write")
        trips, log = self.calls_of(b), b.served.log
        known = log.known.place.lines
        reads.pop().leave()
        self.until(lambda: log.known.place.lines > known)
        self.assertEqual(trips, [])
        reads.pop().leave()
        waits.join(LONGEST)
        self.assertEqual([trip[0] for trip in trips], ["start", "finish"])
        c.close()

    def test_one_that_has_missed_more_than_a_notification_brings(self):
        a, b, c = self.strict(LIBRARY), self.strict(LIBRARY), self.strict(LIBRARY)
        entry = a.enter("write")
        waits = self.waits(b, "write")
        for _ in range(60):
            c.enter("look").leave()
        trips = self.calls_of(b)
        with mock.patch.object(b.served.log.known, "forget", side_effect=AssertionError("it is read anew")):
            entry.leave()
            waits.join(LONGEST)
        self.assertEqual([trip[0] for trip in trips], ["lines_and_waiters", "start", "finish"])

    def test_readers_wake_one_another(self):
        """A finish wakes the first, and all of them are in at once."""
        a, openings, met = self.strict(BOOK), [self.strict(BOOK) for _ in range(4)], []

        def reads(paths, inside):
            with paths("read", timeout=LONGEST):
                inside.wait()
                met.append(paths)

        for _ in range(3):
            entry, inside, readers = a.enter("write"), threading.Barrier(4, timeout=LONGEST), []
            for each in openings:
                readers.append(threading.Thread(target=reads, args=(each, inside)))
                readers[-1].start()
                self.until(lambda: len(self.rows()) == len(readers))
            entry.leave()
            for each in readers:
                each.join(LONGEST)
        self.assertEqual(len(met), 12)
        self.assertTrue(a.audit())

    def forged(self, paths, told):
        """Notifies one who waits by its own channel, as nobody may who doesn't append."""
        self.server.run("select pg_notify(channel, %s) from wanzoche.worker join wanzoche.log using (log) where name = %s and worker = %s",
                        told, self.name, int(str(paths.worker).split()[1]))  # fmt: skip

    def test_a_notification_that_is_wrong(self):
        """Its lines aren't owed, or aren't those of the log, or nobody can read it."""
        a, b = self.strict(BOOK), self.strict(BOOK)
        entry = a.enter("write")
        waits = self.waits(b, "write")
        now = "{}".format(self.server.run("select wanzoche.microseconds(clock_timestamp())")[0][0])
        for told in (
            "1 1 7\n1 finish 5: finished\n\n" + now,
            "1 1 7\nhello\n\n" + now,
            "1 1 7\n+1 finish 0: finished\n\n" + now,
            "1 1 7\n1 finish 0: finished\n\n" + now,  # which hasn't happened
            "1 1 7\n1 finish 0: finished\n\n" + now + "\nhello",
            "1 1 7\n1 finish 0: finished\n\n1",
            "1 1 7\n1 finish 0: finished",
            "1 9 7\n1 finish 0: finished\n\n" + now,
            "1 1 {}\n1 finish 0: finished\n\n{}".format("9" * 5000, now),
            "1 1 7", "1 1", "1", "\n", " ", "x",
        ):  # fmt: skip
            self.forged(b, told)
        self.assertEqual(b.report().live[0].worker, "process 1")
        self.assertEqual([str(each.worker) for each in a.waiters()], ["process 2"])
        self.assertEqual(len(self.lines()), 1)
        entry.leave()
        waits.join(LONGEST)
        self.assertEqual(self.lines()[1:], ["1 finish 0: finished", "2 start write: started 1", "2 finish 1: finished"])
        self.assertTrue(a.audit() and b.audit())

    def test_one_that_tells_too_late_who_waits(self):
        """A clock was set, or the process was stopped: it looks."""
        a, b = self.strict(BOOK), self.strict(BOOK)
        entry = a.enter("write")
        waits = self.waits(b, "write")
        trips, told = self.calls_of(b), self.server.run("select pg_get_functiondef('wanzoche.wake'::regproc)")[0][0]
        wrong = told.replace("wanzoche.microseconds(clock_timestamp())", "wanzoche.microseconds(clock_timestamp() - interval '1 day')")
        self.assertNotEqual(wrong, told)
        self.addCleanup(self.server.run, told)
        self.server.run(wrong)
        entry.leave()
        waits.join(LONGEST)
        self.assertEqual([trip[0] for trip in trips], ["lines_and_waiters", "start", "finish"])


class Librarian(Enters):
    """Looks and notes stand beside the witness of reads and writes: a look has one of its own."""

    def body(self, operation, token):
        if operation in ("read", "write"):
            return super().body(operation, token)
        if operation == "look":
            with open(self.round.folder + "/looks", "a") as witness:
                try:
                    fcntl.lockf(witness, fcntl.LOCK_EX | fcntl.LOCK_NB)
                except OSError:
                    self.note("breach", token)
                time.sleep(0.0005)


class Sent(unittest.TestCase):
    """Who waits, as a notification says it."""

    RIGHT = b"7 1 2 0 1 0 5000000 -1 3,4"

    def test_rows(self):
        """All of them can be read, or none is taken."""
        line, now = _served.order.ServedLine(None), 5_000_000_000_000
        line.take(b"5000000000", 1, now)
        self.assertTrue(line.take_sent(b"5000000000\n" + self.RIGHT, 1, now))
        self.assertEqual((len(line.others), line.known), (1, b"{7}"))
        for wrong in (b"hello", b"", b"7 1 2", self.RIGHT + b" 5", self.RIGHT.replace(b"3,4", b"3,x"), self.RIGHT.replace(b"7", b"-7")):
            self.assertFalse(line.take_sent(b"5000000000\n" + self.RIGHT + b"\n" + wrong, 1, now), wrong)
        self.assertEqual((len(line.others), line.known), (1, b"{7}"))


class Library(Disturbed):
    worker = Librarian


@needs_server
class Faults(unittest.TestCase):
    """Statements are cancelled and sessions ended at any moment: each call has one fate, and nobody is beside another."""

    TOLD = (
        "select case when random() < 0.7 then pg_cancel_backend(pid) else pg_terminate_backend(pid) end from (select pid from pg_stat_activity "
        "where application_name = 'wanzoche' order by state = 'idle', random() limit 1) x"
    )

    def disturbs(self, chance):
        import psycopg

        with psycopg.connect(the_server().url, autocommit=True, gssencmode="disable") as connection:
            for _ in range(200):
                connection.execute(self.TOLD)
                time.sleep(chance.random() * 0.02)

    def test_a_library(self):
        round = Library(self.disturbs, text=LIBRARY)
        wrong = round.run()
        self.assertEqual((wrong, round.lost), ([], 0), wrong)


@needs_server
class Sessions(OnServer, unittest.TestCase):
    def setUp(self):
        super().setUp()
        self.left, prepare = 1, _served.session.Session.prepare

        def prepares(session, *given):
            if self.left:
                self.left -= 1
                session._connection.finish()
            return prepare(session, *given)

        patch = mock.patch.object(_served.session.Session, "prepare", prepares)
        patch.start()
        self.addCleanup(patch.stop)

    def test_one_that_ends_while_it_is_prepared(self):
        """Another is begun."""
        self.open(BOOK).enter("write").leave()
        self.assertEqual(self.left, 0)

    def test_all_that_do(self):
        self.left = 1000
        with mock.patch.object(_served.times, "OPENING", 0.5), self.assertRaisesRegex(StoreError, "the server doesn't answer"):
            self.made(BOOK)


@needs_server
class FromFive(Earlier, unittest.TestCase):
    """In number 5 a notification had the number of an operation in it, and nothing else."""

    earlier = 5
    opens = "select l from wanzoche.open(%s, %s, 'finish', 0.5, 16384)"
    WAIT = (
        "insert into wanzoche.waiter (log, worker, slot, operation, priority, holds, since, shuts) "
        "select %s, %s, 0, 1, 0, '{}', t.now, t.now from (select clock_timestamp() as now from wanzoche.turn where log = %s for update) t"
    )

    def test_an_old_process_goes_on(self):
        """It is woken as ever, also beside another, and stands in the order."""
        old, woken = self.old_process(), []
        old.connection.add_notify_handler(lambda notice: woken.append(notice.payload))
        a, b = self.open(BOOK, patience=0), self.open(BOOK, patience=0)
        entry = a.enter("read")
        with mock.patch.object(_order, "SHUT", NEVER_OPENS):
            old.connection.execute("select wanzoche.listen(%s, %s)", (self.log, old.worker))
            old.connection.execute(self.WAIT, (self.log, old.worker, self.log))
            self.assertIsNone(b.try_enter("read"))
            self.assertEqual(str(b.why("read").behind.worker), "process 1")
            self.assertEqual([(each.operation, str(each.worker)) for each in b.waiters()], [("write", "process 1")])
            waits = threading.Thread(target=lambda: b.enter("read", timeout=LONGEST).leave())
            waits.start()
            self.until(lambda: self.server.run("select count(*) from wanzoche.waiter where since is not null") == [(2,)])
            entry.leave()
            old.connection.execute("select 1")
            self.assertEqual(woken, ["1"])
            old.connection.close()
            waits.join(LONGEST)
        self.assertTrue(a.audit() and b.audit())


if __name__ == "__main__":
    unittest.main()
