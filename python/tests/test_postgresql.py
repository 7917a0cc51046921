"""One log in PostgreSQL and few processes: what is shared, what death leaves, what is refused, and what an outage does."""

import asyncio
import copy
import gc
import os
import random
import signal
import sys
import threading
import time
import unittest
from unittest import mock

import wanzoche
from wanzoche import (
    Closed,
    CorruptStore,
    DeclarationError,
    Lost,
    OtherDeclaration,
    Paths,
    StoreError,
    Timeout,
    _served,
)

from . import both_stores
from .declarations import BOOK, LINE, SLOT
from .interrupts import Alarms, Interrupt, at_instruction, ends_a_hang, interrupt
from .limits import LONGEST
from .servers import SHORT_GRACE, OnServer, Server, needs_server
from .stores import THOROUGH


class Cutting:
    """A proxy before a server, which may hold connections up, cut them, or lose an answer."""

    def __init__(self, port):
        import socket

        self._socket, self._port = socket, port
        self._listens = socket.create_server(("127.0.0.1", 0), backlog=64)
        self.port = self._listens.getsockname()[1]
        self._ends = set()
        self.loses_answer = threading.Event()
        """The next bytes from the server are lost, and the connection is cut behind them."""
        self.is_open = True
        self.is_held = False
        """Nothing goes through, either way, and no connection ends."""
        self._goes_on = threading.Event()
        self._goes_on.set()
        self.left, self._forgotten = None, 0
        self._is_over = False
        threading.Thread(target=self._serve, daemon=True).start()

    def _serve(self):
        while not self._is_over:
            try:
                client = self._listens.accept()[0]
            except OSError:
                return
            if not self.is_open:
                client.close()
                continue
            try:
                there = self._socket.create_connection(("127.0.0.1", self._port))
            except OSError:
                client.close()
                continue
            self._ends |= {client, there}
            threading.Thread(target=self._pump, args=(client, there, False), daemon=True).start()
            threading.Thread(target=self._pump, args=(there, client, True), daemon=True).start()

    def _pump(self, source, goal, is_answer):
        generation = self._forgotten
        try:
            while True:
                data = source.recv(65536)
                self._pass(data, is_answer)
                if self._forgotten != generation:
                    break
                if not data or is_answer and self.loses_answer.is_set():
                    self.loses_answer.clear()
                    time.sleep(0.05)  # until the rest of a packet has gone the other way
                    break
                goal.sendall(data)
        except OSError:
            pass
        for end in (source, goal):
            self._cut(end)
        source.close()

    def _pass(self, data, is_answer):
        """Waits as long as the link is held."""
        if self.left is not None and is_answer:
            self.left -= len(data)
            if self.left < 0:
                self.hold()
        self._goes_on.wait()

    def hold(self):
        self.is_held = True
        self._goes_on.clear()

    def hold_behind(self, bytes):
        """From now on it is held when so many bytes have come from the server."""
        self.left = bytes

    def forget(self):
        """What is held never comes through, and its connection is cut."""
        self._forgotten += 1
        self.release()

    def release(self):
        self.left, self.is_held = None, False
        self._goes_on.set()

    def _cut(self, end):
        try:
            end.shutdown(self._socket.SHUT_RDWR)
        except OSError:
            pass

    def cut(self):
        """Cuts all connections."""
        for end in list(self._ends):
            self._cut(end)
        self._ends.clear()

    def close(self):
        self._is_over = True
        self._listens.close()
        self.release()
        self.cut()


@needs_server
class Sharing(both_stores.Sharing, OnServer, unittest.TestCase):
    def test_a_priority_is_a_small_number(self):
        with self.assertRaisesRegex(ValueError, "^a priority is a number from 0 to 4,294,967,295, not -1$"):
            self.open(BOOK)("read", priority=-1)

    def test_who_waits_is_woken(self):
        """By a notification: nobody looks by itself so soon."""
        with mock.patch.object(_served.times, "CHECK", 1000.0):
            a, b = self.open(SLOT), self.open(SLOT)
            got = []

            def remove():
                for _ in range(100):
                    with b("remove", timeout=LONGEST):
                        got.append(1)

            thread = threading.Thread(target=remove)
            thread.start()
            for _ in range(100):
                a.enter("deposit", timeout=LONGEST).leave()
            thread.join(LONGEST)
            self.assertEqual(len(got), 100)

    def test_a_leave_wakes_one_of_each_operation(self):
        """Eight wait to write; each leave wakes one process, and each of the others is woken by who came before it."""
        with mock.patch.object(_served.times, "CHECK", 1000.0):
            all_paths = [self.open(BOOK) for _ in range(9)]
            woken = [0] * 9
            threads = []
            entry = all_paths[0].enter("write")
            for number, paths in enumerate(all_paths[1:], 1):
                session = paths.served.log.session
                take, notices = session._take_notices, session.notices

                def counts(number=number, take=take, notices=notices):
                    take()
                    woken[number] += len(notices)

                session._take_notices = counts
                threads.append(threading.Thread(target=lambda paths=paths: paths.enter("write", timeout=LONGEST).leave()))
                threads[-1].start()
                self.until(lambda: len(self.waiters()) == number)
            entry.leave()
            for thread in threads:
                thread.join(LONGEST)
            self.assertEqual(all_paths[0].journal().count("started"), 9)
            self.assertEqual(woken[1:], [1] * 8)

    def waiters(self):
        told = "select worker from wanzoche.waiter join wanzoche.log using (log) where name = %s and since is not null"
        return self.server.run(told, self.name)

    def test_who_begins_to_wait_does_so_in_a_turn(self):
        """So whoever appends behind it knows, and what was appended before it is read."""
        a, b = self.open(BOOK), self.open(BOOK)
        turn = "begin; select from wanzoche.turn join wanzoche.log using (log) where name = '{}' for update of turn".format(self.name)
        with a("write"):
            self.assertRaises(Timeout, b.enter, "read", timeout=0.01)  # the first time it begins to listen, too
            self.until(lambda: not self.waiters())
            import psycopg

            with psycopg.connect(self.server.url, autocommit=True, gssencmode="disable") as other:
                other.execute(turn)
                waits = threading.Thread(target=lambda: b.enter("read", timeout=LONGEST).leave())
                waits.start()
                self.until(lambda: self.server.run("select 1 from pg_locks where locktype in ('tuple', 'transactionid') and not granted"))
                self.assertEqual(self.waiters(), [])
                other.execute("rollback")
            self.until(lambda: len(self.waiters()) == 1)
        waits.join(LONGEST)
        self.until(lambda: not self.waiters())
        self.assertEqual(a.journal().count("started"), 2)

    def test_threads_that_wait_begin_in_one_append(self):
        """Each of them stands in order, and several lines go in one append."""
        a, b = self.open(BOOK), self.open(BOOK)
        entry = a.enter("write")
        threads = [threading.Thread(target=lambda: b.enter("read", timeout=LONGEST).leave()) for _ in range(10)]
        for thread in threads:
            thread.start()
        self.until(lambda: b.waiting() == {"read": 10} and len(self.waiters()) == 10)
        calls = []
        call = b.served.log.session.call
        b.served.log.session.call = lambda *given: (calls.append(given[0][0]), call(*given))[1]
        entry.leave()
        for thread in threads:
            thread.join(LONGEST)
        self.assertEqual(a.journal().count("started"), 11)
        started = [(each.given[4] or b"").count(b"start read") for each in calls if each.name == b"append"]
        self.assertGreater(max(started), 1)
        self.assertEqual((b.waiting(), self.waiters()), ({}, []))

    def test_who_has_nothing_to_do_sleeps(self):
        """Also behind a wait, for which it was going to look for the dead."""
        a, b = self.open(BOOK), self.open(BOOK)
        with a("write"):
            self.assertRaises(Timeout, b.enter, "read", timeout=0.01)
            waits = threading.Thread(target=lambda: b.enter("read", timeout=LONGEST).leave())
            waits.start()
            self.until(lambda: len(self.waiters()) == 1)
        waits.join(LONGEST)
        time.sleep(1.5 * _served.times.CHECK)
        sleeps, sleep = [], b.served.clerk._sleep
        b.served.clerk._sleep = lambda: (sleeps.append(1), sleep())
        b.served.clerk.desk.ring()
        time.sleep(0.3)
        self.assertLess(len(sleeps), 4)

    def test_an_attempt_that_meets_nobody_is_one_round_trip(self):
        paths = self.open(BOOK)
        calls = []
        call = paths.served.log.session.call
        paths.served.log.session.call = lambda *given: (calls.append(1), call(*given))[1]
        for _ in range(5):
            with paths("write"):
                pass
        self.assertEqual(len(calls), 10)

    def test_a_start_that_came_too_late_waits_for_no_disk(self):
        a, b = self.open(BOOK), self.open(BOOK)
        a.enter("write").leave()
        self.until(lambda: a.served.clerk.desk.is_asleep)
        session, waited = a.served.log.session, []
        call = session.call

        def calls(given, until):
            found = call(given, until)
            waited.extend(len(rows) for each, rows in zip(given, found) if each.name.endswith(b"lasts"))
            return found

        session.call = calls
        with b("write"):
            self.assertIsNone(a.try_enter("write"))
            self.assertEqual(waited, [0])
        a.enter("write").leave()
        self.assertEqual(waited, [0, 1, 1])

    def test_what_is_refused_is_not_written(self):
        a, b = self.open(BOOK), self.open(BOOK)
        with a("write"):
            self.assertIsNone(b.try_enter("read"))
            with self.assertRaises(Timeout):
                b.enter("read", timeout=0.05)
        self.assertEqual(self.lines(), ["1 start write: started 0", "1 finish 0: finished"])

    def test_tasks_that_are_cancelled(self):
        """Whatever has started is finished, and nobody waits any more."""
        paths = self.open(BOOK)

        async def reads(steps):
            tasks = [asyncio.ensure_future(self.read(paths)) for _ in range(3)]
            for _ in range(steps):
                await asyncio.sleep(0.0003)
            for task in tasks:
                task.cancel()
            await asyncio.wait(tasks)

        for steps in range(12):
            asyncio.run(reads(steps))
            self.assertEqual((paths.report().live, paths.waiting()), ((), {}))
        self.assertTrue(paths.audit())

    @staticmethod
    async def read(paths):
        async with paths.aio("read"):
            await asyncio.sleep(0.001)

    def test_options_are_checked(self):
        url = self.server.url
        for options in ({"log": []}, {"journal": False}, {"room": 0}, {"lost": "maybe"}, {"grace": -1}, {"name": ""}, {"name": None}):
            with self.assertRaises(ValueError, msg=options):
                Paths(SLOT, store=url, **{"name": "none", **options})
        with self.assertRaises(TypeError):
            Paths(SLOT, store=url, name="none", sink=1)
        with self.assertRaises(TypeError):
            Paths(SLOT, name="none")
        with self.assertRaises(DeclarationError):
            Paths("resource", store=url, name="none")
        with self.assertRaisesRegex(StoreError, "^this isn't a URL of PostgreSQL: "):
            Paths(SLOT, store="postgresql://localhost/none?nonsense=1", name="none")
        self.assertEqual(self.server.run("select count(*) from wanzoche.log where name = 'none'"), [(0,)])

    def test_many_lines_are_read_in_parts(self):
        with mock.patch.object(_served.known, "MOST", 20000):
            a = self.open(BOOK)
            a.enter("read").leave()
            told = (
                "insert into wanzoche.line (log, place, line, by) select log, 2 + x, '9 ' || case when x %% 2 = 0 then 'start read: started '"
                " || (x / 2 + 1) else 'finish ' || (x / 2 + 1) || ': finished' end, 9 from wanzoche.log, generate_series(0, 49999) x where name = %s"
            )
            self.server.run(told, self.name)
            b = self.open(BOOK)
            with a("read") as first, b("read") as second:
                self.assertEqual((first.token, second.token), (25001, 25002))
            self.assertEqual(b.journal().count("\n"), 50006)
            self.assertTrue(a.audit())


@needs_server
class AtTheDesk(OnServer, unittest.TestCase):
    """A thread does itself what it wants, where nobody else wants anything."""

    def setUp(self):
        super().setUp()
        guard = ends_a_hang()
        guard.__enter__()
        self.addCleanup(guard.__exit__, None, None, None)

    def around_calls(self, paths, before=None, behind=None):
        """Does that around each call at the server; the threads that made one."""
        session, threads = paths.served.log.session, []
        call = session.call

        def calls(*given):
            threads.append(threading.current_thread())
            if before:
                before()
            found = call(*given)
            if behind:
                behind()
            return found

        session.call = calls
        self.addCleanup(setattr, session, "call", call)
        return threads

    def test_who_calls(self):
        a, b = self.open(LINE), self.open(LINE)
        self.sleeps(a)
        threads = self.around_calls(a)
        with a("put") as entry:
            entry.put(3)
            self.assertIsNone(a.try_enter("put"))
        a.report()
        self.assertEqual(set(threads), {threading.current_thread()})
        with b("put"):
            threads.clear()
            waits = threading.Thread(target=lambda: a.enter("put", timeout=LONGEST).leave())
            waits.start()
            self.until(lambda: a.waiting() == {"put": 1} and waits in threads)
            self.assertEqual(a.journal().count("started"), 2)
            self.assertEqual(set(threads), {waits, a.served.clerk.thread})
        waits.join(LONGEST)
        self.assertTrue(a.audit())

    def sleeps(self, paths):
        """Waits until the clerk sleeps."""
        self.until(lambda: paths.served.clerk.desk.is_asleep)

    def test_a_handler_that_comes_between(self):
        """It can't wait for the thread that it interrupts. What it drops is finished all the same."""
        a, b = self.open(BOOK), self.open(BOOK)
        self.sleeps(a)
        kept, told = [a.enter("read")], []

        def asks():
            for call in (a.report, a.close, lambda: a.enter("read"), lambda: a.try_enter("read"), kept[0].leave if kept else a.journal):
                with self.assertRaisesRegex(RuntimeError, "^this thread is using the log log .* already"):
                    call()
                    told.append(call)
            kept.clear()

        self.around_calls(a, asks)
        a.enter("read").leave()
        self.assertEqual(told, [])
        self.until(lambda: b.report().live == ())
        self.assertTrue(b.audit())

    def test_an_interrupt_costs_nobody_else_anything(self):
        """Before a call, behind one, and in one whose answer hasn't come, each while another thread wants something, too."""
        for when in ("before", "behind", "in"):
            for wanted in ("enter", "leave", "report"):
                with self.subTest(when + " " + wanted):
                    self.interrupts(when, wanted)

    def interrupts(self, when, wanted):
        self.name += "'"
        a, b, found = self.open(BOOK), self.open(BOOK), []
        self.sleeps(a)
        entry = a.enter("read") if wanted == "leave" else None
        other = threading.Thread(target=lambda: found.append(a.enter("read", timeout=LONGEST)))
        session = a.served.log.session

        def comes():
            if threading.current_thread() is not other and not found:
                other.start()
                self.until(lambda: a.served.clerk.wanted.inbox)
                del session.call, session._read
                found.append("interrupted")
                interrupt()

        call, read = session.call, session._read
        session.call = lambda *given: (when == "before" and comes(), call(*given), when == "behind" and comes())[1]
        session._read = lambda *given: (when == "in" and comes(), read(*given))[1]
        with self.assertRaises(Interrupt):
            {"enter": lambda: a.enter("read"), "leave": lambda: entry.leave(), "report": a.report}[wanted]()
        other.join(LONGEST)
        self.assertEqual((len(found), found[0], a.worker), (2, "interrupted", "process 1"))
        if entry:
            with self.assertRaises(wanzoche.NotInProgress):
                entry.leave()
        self.until(lambda: [each.activation for each in b.report().live] == [found[1].activation])
        found[1].leave()
        self.assertEqual(a.report().live, ())
        b.enter("write", timeout=0).leave()
        self.assertTrue(a.audit())

    def waits_itself(self, paths, work):
        """A thread that does this, and waits at its own process for the session."""
        waits = threading.Thread(target=work)
        waits.start()
        self.until_it_waits(paths)
        return waits

    def test_who_waits_makes_its_calls(self):
        """From the first to the last. Another thread that wants something gets it by the clerk, which makes the others, too, then."""
        a, b = self.open(BOOK), self.open(BOOK)
        threads = self.around_calls(a)
        for wants in (False, True):
            self.sleeps(a)
            entry = b.enter("write")
            threads.clear()
            waits = self.waits_itself(a, lambda: a.enter("write", timeout=LONGEST).leave())
            if wants:
                self.assertEqual(a.report().live[0].operation, "write")
            entry.leave()
            waits.join(LONGEST)
            self.assertEqual(set(threads), {waits, a.served.clerk.thread} if wants else {waits})
        self.assertTrue(a.audit())

    def test_who_waits_looks_for_the_dead(self):
        self.grace = SHORT_GRACE
        a = self.open(BOOK)
        self.sleeps(a)
        threads = self.around_calls(a)
        held = []
        self.dies(lambda: held.append(self.made(BOOK).enter("write")))
        threads.clear()
        self.waits_itself(a, lambda: a.enter("write", timeout=LONGEST).leave()).join(LONGEST)
        self.assertEqual(len(set(threads)), 1)
        self.assertEqual(a.report().live, ())
        self.assertTrue(a.audit())

    def test_who_waits_has_a_time_limit(self):
        """By itself: nothing else wakes it so soon."""
        with mock.patch.object(_served.times, "CHECK", 1000.0):
            a, b = self.open(BOOK), self.open(BOOK)
            with b("write"):
                for seconds in (0.05, 0.4, 1.3):
                    self.sleeps(a)
                    began = time.monotonic()
                    self.assertRaises(Timeout, a.enter, "read", timeout=seconds)
                    self.assertTrue(seconds <= time.monotonic() - began < _served.times.CHECK)
        self.until(lambda: a.waiting() == {} and not self.waiting_rows(a))
        a.enter("read").leave()
        self.assertTrue(a.audit())

    def test_a_session_that_is_cut_while_a_thread_waits(self):
        """The clerk begins another, and does the rest."""
        for cut in (self.ends_session_of, lambda paths: paths.served.clerk.desk.ring()):
            self.name += "'"
            a, b = self.open(BOOK), self.open(BOOK)
            self.sleeps(a)
            entry, got = b.enter("write"), []
            waits = self.waits_itself(a, lambda: got.append(a.enter("read", timeout=LONGEST)))
            cut(a)
            entry.leave()
            waits.join(LONGEST)
            self.assertEqual((len(got), a.worker), (1, "process 1"))
            got[0].leave()
            self.assertTrue(a.audit())

    def ends_session_of(self, paths):
        """And waits until it has another."""
        told = "select {} from wanzoche.worker join wanzoche.log using (log) where worker = %s and name = %s"
        before = self.server.run(told.format("pid"), paths.served.worker, self.name)
        self.server.run(told.format("pg_terminate_backend(pid)"), paths.served.worker, self.name)
        self.until(lambda: self.server.run(told.format("pid"), paths.served.worker, self.name) != before)

    def test_a_close_while_a_thread_waits(self):
        with mock.patch.object(_served.times, "CHECK", 1000.0):
            a, b, told = self.open(BOOK), self.open(BOOK), []

            def enters():
                with self.assertRaises(Closed) as raised:
                    a.enter("read")
                told.append(raised.exception)

            with b("write"):
                self.sleeps(a)
                waits = self.waits_itself(a, enters)
                a.close()
                waits.join(LONGEST)
                self.assertEqual(len(told), 1)
        self.assertTrue(b.audit())

    def test_an_interrupt_while_a_thread_waits(self):
        """It costs no session and no reading of the log."""
        patched = mock.patch.object(_served.times, "CHECK", 1000.0)  # so that it does nothing else meanwhile
        patched.start()
        self.addCleanup(patched.stop)
        a, b, alarms = self.open(BOOK), self.open(BOOK), Alarms(self)
        session = a.served.log.session

        def waits():
            time.sleep(random.uniform(0, 0.02))
            if not self.waits_now(a):
                return False
            with a.served.clerk.desk.lock:  # it has left the desk then
                return True

        for _ in range(20):
            self.sleeps(a)
            with b("write"):
                number = session.fileno()
                self.assertTrue(alarms.cut_off_waiting(lambda: a.enter("read", timeout=LONGEST), waits))
                self.until(lambda: a.waiting() == {} and not self.waiting_rows(a))
            a.enter("read", timeout=LONGEST).leave()
            self.assertEqual((session.fileno(), a.report().live), (number, ()))
        self.assertTrue(a.audit())

    def test_one_turn_is_taken_for_many_defeats(self):
        """One that was blocked in it tries without one again, since a turn keeps all others waiting."""
        a, b = self.open(BOOK), self.open(BOOK)
        a.enter("read").leave()
        self.sleeps(a)
        a.served.clerk.trips.beaten = _served.trips.BEATEN
        entries, names, session = [b.enter("write")], [], a.served.log.session
        call = session.call

        def calls(*given):
            names.extend(each.name for each in given[0])
            if names.count(b"turn") == 1 == len(entries):
                entries.append(b.enter("write", timeout=LONGEST))  # which comes between
            return call(*given)

        session.call = calls
        self.addCleanup(setattr, session, "call", call)
        waits = self.waits_itself(a, lambda: a.enter("write", timeout=LONGEST).leave())
        entries[0].leave()
        self.until(lambda: b"rollback" in names)
        entries[1].leave()
        waits.join(LONGEST)
        self.assertEqual(names.count(b"turn"), 1)
        self.assertTrue(a.audit())

    def test_a_session_that_is_cut_under_a_thread(self):
        a, b = self.open(BOOK), self.open(BOOK)
        for _ in range(5):
            self.sleeps(a)
            a.served.log.session._connection.finish()
            with a("write") as entry:
                self.assertEqual(entry.worker, "process 1")
                self.assertIsNone(b.try_enter("read"))
        self.assertEqual(a.journal().count("started"), 5)


@needs_server
class Libpq(OnServer, unittest.TestCase):
    """The calls of libpq by their addresses, and psycopg's own."""

    def each(self, test):
        for calls in (_served.session.direct, lambda pq, connection: connection):
            self.name += "'"
            with self.subTest(calls.__name__), mock.patch.object(_served.session, "direct", calls):
                test()

    def test_both_do_the_same(self):
        self.each(self.same)

    def same(self):
        a, b = self.open(SLOT), self.open(SLOT)
        thread = threading.Thread(target=lambda: [b.enter("remove", timeout=LONGEST).leave() for _ in range(20)])
        thread.start()
        for _ in range(20):
            a.enter("deposit", timeout=LONGEST).leave()
        thread.join(LONGEST)
        self.assertIsNone(a.try_enter("remove"))
        self.assertEqual(a.journal().count("finished"), 40)
        self.assertTrue(b.audit())

    def test_what_the_server_says(self):
        self.open(SLOT)
        self.each(self.says)

    def says(self):
        session, until = _served.session.Session(self.server.url), time.monotonic() + LONGEST
        self.addCleanup(session.close)
        _served.beginning.begin(session, until)
        session.prepare(_served.statements.STATEMENTS, until)
        with self.assertRaisesRegex(_served.session.Complaint, '^invalid input syntax for type integer: "x"') as told:
            session.call([_served.session.Call(b"process", (b"x", b"1"))], until)
        self.assertEqual(told.exception.code, "22P02")
        lines = [_served.session.Call(b"lines", (b"0", b"%d" % place, b"3" if place else None)) for place in (0, 7)]
        self.assertEqual(session.call(lines[:1] * 2, until), [[[None, b"-1", None]]] * 2)
        with self.assertRaisesRegex(_served.session.Complaint, "^line 6 isn't the one") as told:
            session.call(lines, until)
        self.assertEqual((told.exception.code, told.exception.detail), ("WZ001", ""))
        self.assertEqual(session.call([_served.session.Call(b"begin"), _served.session.Call(b"rollback")], until), [[], []])
        session._connection.finish()
        self.assertRaises(_served.connecting.Cut, session.call, lines, until)

    def test_no_memory_is_lost(self):
        """psycopg 3.1 in Python doesn't give a notification's memory back."""
        patched = mock.patch.object(_served.times, "CHECK", 1000.0)  # so that each is woken by a notification
        patched.start()
        self.addCleanup(patched.stop)
        a, b = self.open(SLOT), self.open(SLOT)
        calls = b.served.log.session._calls
        if not isinstance(calls, _served.libpq.Direct):
            self.skipTest("psycopg is in C here")
        library, taken, given_back = calls._library, [], []
        calls._library = copy.copy(library)
        calls._library.notice = lambda at: (taken.append(library.notice(at)), taken[-1])[1]
        calls._library.free = lambda at: given_back.append(library.free(at))
        for _ in range(5):
            entry = a.enter("deposit", timeout=LONGEST)
            thread = threading.Thread(target=lambda: b.enter("remove", timeout=LONGEST).leave())
            thread.start()
            self.until_it_waits(b)
            entry.leave()
            thread.join(LONGEST)
        self.assertGreaterEqual(len(given_back), 5)
        self.assertEqual(len(given_back), sum(map(bool, taken)))


@needs_server
class Deaths(both_stores.Deaths, OnServer, unittest.TestCase):
    grace = SHORT_GRACE

    def test_a_process_that_is_stopped_is_alive(self):
        a = self.open(BOOK)
        ready, going = os.pipe(), os.pipe()

        def holds():
            entry = self.made(BOOK).enter("write")
            os.write(ready[1], b"x")
            os.read(going[0], 1)
            entry.leave()

        child = self.child(holds)
        os.read(ready[0], 1)
        os.kill(child, signal.SIGSTOP)
        with self.assertRaises(Timeout):
            a.enter("read", timeout=3 * self.grace)
        os.kill(child, signal.SIGCONT)
        os.write(going[1], b"x")
        a.enter("read", timeout=LONGEST).leave()
        os.waitpid(child, 0)

    def test_paths_that_are_collected_are_closed(self):
        paths, other = self.made(BOOK), self.open(BOOK)
        thread = paths.served.clerk.thread
        del paths
        gc.collect()
        thread.join(LONGEST)
        self.assertFalse(thread.is_alive())
        self.assertEqual(
            self.server.run("select is_over from wanzoche.worker join wanzoche.log using (log) where name = %s order by worker", self.name),
            [(False,)],
        )
        self.assertTrue(other.audit())

    def test_a_dead_one_that_waited_holds_nobody_up(self):
        """Its place in the queue is passed over by the next leave."""
        a, b = self.open(BOOK), self.open(BOOK)
        entry = a.enter("write")
        child = self.child(lambda: self.made(BOOK).enter("write"))
        told = "select count(*) from wanzoche.waiter join wanzoche.log using (log) where name = %s and since is not null"
        self.until(lambda: self.server.run(told, self.name) == [(1,)])
        os.kill(child, signal.SIGKILL)
        os.waitpid(child, 0)
        alive = "select cardinality(wanzoche.alive(log)) from wanzoche.log where name = %s"
        with mock.patch.object(_served.times, "CHECK", 1000.0):
            thread = threading.Thread(target=lambda: b.enter("write", timeout=LONGEST).leave())
            thread.start()
            self.until(lambda: self.server.run(told, self.name) == [(2,)])
            self.until(lambda: self.server.run(alive, self.name) == [(2,)])  # its session has ended
            entry.leave()
            thread.join(LONGEST)
        self.assertFalse(thread.is_alive())


@needs_server
class Outages(OnServer, unittest.TestCase):
    def setUp(self):
        super().setUp()
        self.proxy = Cutting(self.server.port)
        self.addCleanup(self.proxy.close)
        self.through = self.server.tcp_url(port=self.proxy.port)

    def test_a_session_that_is_cut_comes_back(self):
        a, b = self.open(BOOK, store=self.through), self.open(BOOK)
        for _ in range(5):
            with a("write") as entry:
                self.proxy.cut()
                with self.assertRaises(Timeout):
                    b.enter("read", timeout=0.2)
                self.assertEqual(entry.put(3), entry.look() and 3 if _ else 0)
            self.proxy.cut()
        self.assertEqual((a.worker, a.report().live), ("process 1", ()))
        self.assertTrue(a.audit())

    def test_a_session_that_the_server_ends(self):
        a, b = self.open(BOOK), self.open(BOOK)
        for number in range(5):
            with a("write"):
                self.end_sessions()
                self.assertIsNone(b.try_enter("read"))
            with b("read"):
                self.end_sessions()
        self.assertEqual((a.worker, b.worker), ("process 1", "process 2"))
        self.assertTrue(a.audit())

    def end_sessions(self):
        self.server.run(
            "select pg_terminate_backend(pid) from pg_stat_activity where application_name = 'wanzoche' and pid <> pg_backend_pid()"
        )

    def test_an_answer_that_is_lost_is_found_again(self):
        a, b = self.open(LINE, store=self.through), self.open(LINE)
        for number in range(4):
            self.proxy.loses_answer.set()
            entry = a.enter("put", timeout=LONGEST)
            self.proxy.loses_answer.set()
            self.assertEqual(entry.put(number), 1)
            self.proxy.loses_answer.set()
            entry.leave()
            with b("get") as other:
                self.assertEqual(other.take(), number)
        self.assertEqual(b.journal().count("\n"), 24)
        self.assertTrue(b.audit())

    def test_several_lines_whose_answer_is_lost(self):
        a = self.open(BOOK, store=self.through)
        for _ in range(3):
            self.proxy.cut()
            entries = []
            threads = [threading.Thread(target=lambda: entries.append(a.enter("read", timeout=LONGEST))) for _ in range(6)]
            for thread in threads:
                thread.start()
            time.sleep(0.01)
            self.proxy.loses_answer.set()
            for thread in threads:
                thread.join(LONGEST)
            self.assertEqual(len(entries), 6)
            for entry in entries:
                entry.leave()
        self.assertEqual(a.report().live, ())
        self.assertTrue(a.audit())

    def test_one_who_stays_away_has_lost(self):
        self.grace = SHORT_GRACE
        a, b = self.open(BOOK, store=self.through), self.open(BOOK)
        entry, left = a.enter("write"), a("write")
        self.proxy.is_open = False
        self.proxy.cut()
        with b("write", timeout=LONGEST):  # when the grace is over
            self.proxy.is_open = True
            for call in (entry.look, entry.leave):
                with self.assertRaisesRegex(Lost, "^activation 0 was finished by others"):
                    call()
            self.assertIsNone(a.try_enter("read"))
        with left as again:
            self.assertEqual((again.worker, again.token), ("process 3", 2))
        self.assertTrue(a.audit())

    def test_no_request_is_lost_when_a_session_is_cut(self):
        """One that doesn't wait, while it is looked whether a dead worker is in its way; and questions behind one that is cut off."""
        a, b = self.open(BOOK), self.open(BOOK)
        clerk, cuts = b.served.clerk, [1, 1]
        bury = clerk.burying.bury_dead

        def is_cut():
            if cuts:
                cuts.pop()
                b.served.log.session.close()
                raise _served.connecting.Cut("as if")
            return bury()

        with a("write"):
            with mock.patch.object(clerk.burying, "bury_dead", is_cut):
                told = []
                threads = [threading.Thread(target=lambda: told.append(b.try_enter("read"))) for _ in range(3)]
                threads += [threading.Thread(target=lambda: told.append(b.why("read"))) for _ in range(3)]
                for thread in threads:
                    thread.start()
                for thread in threads:
                    thread.join(LONGEST)
        self.assertEqual((len(told), told.count(None), cuts), (6, 3, []))

    def test_a_server_that_is_away(self):
        """Whoever asks is told after some time, and what is in progress stays so."""
        a = self.open(BOOK, store=self.through, outage=0.5, grace=60)
        entry = self.answered(lambda: a.enter("write"))
        self.proxy.is_open = False
        self.proxy.cut()
        for call in (a.report, entry.leave, lambda: a.enter("write"), lambda: a.enter("read", timeout=0.1), entry.look):
            with self.assertRaisesRegex(StoreError, "the server doesn't answer: "):
                call()
        self.proxy.is_open = True
        self.until(lambda: a.served.clerk.trouble.away is None)
        self.assertEqual(self.answered(entry.look), 0)
        self.answered(entry.leave)
        self.assertEqual(self.answered(a.report).live, ())
        self.assertTrue(self.answered(a.audit))

    def test_a_close_while_the_server_is_away(self):
        self.grace = SHORT_GRACE
        a, b = self.open(BOOK, store=self.through), self.open(BOOK, store=self.through)
        entry = a.enter("write")
        self.proxy.is_open = False
        self.proxy.cut()
        with mock.patch.object(_served.times, "CLOSING", 1.0):
            with self.assertRaisesRegex(StoreError, "the server doesn't answer: "):
                a.close()
            b.close()  # it has nothing to say
        self.assertTrue(entry)
        self.open(BOOK).enter("read", timeout=LONGEST).leave()

    def test_a_worker_that_comes_back_ends_its_old_session(self):
        """As when the network was cut and the server doesn't know yet."""
        a = self.open(BOOK)
        entry = a.enter("write")
        session = a.served.log.session
        kept = session._connection  # which stays open

        def forgets(session):
            session._connection, session._is_in_pipeline = None, False

        with mock.patch.object(type(session), "close", forgets):
            a.served.clerk.submit(_served.requests.Question(lambda: None, self.once(self.cuts)))
            self.until(lambda: session._connection is not kept and session.fileno() >= 0 and a.served.clerk.trouble.away is None)
        self.assertEqual(entry.look(), 0)
        entry.leave()
        self.assertEqual(a.worker, "process 1")
        kept.finish()

    @staticmethod
    def cuts():
        raise _served.connecting.Cut("as if")

    @staticmethod
    def once(does):
        """Asked again, it does nothing."""
        left = [does]
        return lambda: left and left.pop()()

    def test_a_turn_that_is_held_too_long_is_taken_away(self):
        a, b = self.open(BOOK), self.open(BOOK)
        log, begun, over = a.served.log, threading.Event(), threading.Event()
        self.addCleanup(over.set)

        def stalls():
            log.appends.turn()
            begun.set()
            over.wait()  # longer than the server lets it
            log.appends.end_turn()

        question = _served.requests.Question(lambda: None, self.once(stalls))
        a.served.clerk.submit(question)
        self.assertTrue(begun.wait(LONGEST))
        b.enter("write", timeout=LONGEST).leave()
        self.assertEqual(self.server.run("select wanzoche.alive(log) from wanzoche.log where name = %s", self.name), [([2],)])
        over.set()
        a.enter("write", timeout=LONGEST).leave()
        self.assertTrue(a.audit())


@needs_server
class Crashes(OnServer, unittest.TestCase):
    """Of the server itself, which is another one for each test."""

    def setUp(self):
        super().setUp()
        self.server = Server(wal_writer_delay="10s")
        self.addCleanup(self.server.end)

    def test_clients_go_on(self):
        a, b = self.open(BOOK), self.open(BOOK)
        with a("write") as entry:
            self.server.kill()
            self.server.start()
            self.assertIsNone(b.try_enter("read"))
            self.assertEqual(entry.put(3), 0)
        waits = threading.Thread(target=lambda: b.enter("read", timeout=LONGEST).leave())
        with a("write"):
            waits.start()
            self.until(lambda: b.waiting() == {"read": 1})
            self.server.kill()
            self.server.start()
        waits.join(LONGEST)
        self.assertFalse(waits.is_alive())
        self.assertEqual((a.worker, b.worker), ("process 1", "process 2"))
        self.assertTrue(a.audit())

    def test_a_server_that_has_lost_its_last_second(self):
        """Whoever waited for the disk has its lines; the others have lost what they had, and are told so."""
        a, b = self.open(BOOK), self.open(BOOK, sync=False)
        with a("read"):
            pass
        first = a.enter("read")
        self.server.run("checkpoint")
        self.server.stop_writing()
        entry = b.enter("read")
        self.assertEqual(len(a.report().live), 2)  # a knows what will be gone
        self.server.kill()
        self.server.start()
        with self.assertRaises(Lost):
            entry.leave()
        self.assertEqual([live.worker for live in a.report().live], ["process 1"])
        with b("read") as again:
            self.assertEqual(again.token, 2)  # so it is given again: see what is promised
        first.leave()
        self.assertEqual(a.report().live, ())
        self.assertTrue(a.audit() and b.audit())

    def test_lines_that_are_gone_in_a_turn(self):
        """The turn is ended, and the log read anew in the same session."""
        a = self.open(BOOK)
        a.enter("read").leave()
        self.server.run("update wanzoche.line set stamp = stamp + 1")
        entries = []
        threads = [threading.Thread(target=lambda: entries.append(a.enter("read", timeout=LONGEST))) for _ in range(3)]
        with a.served.clerk.desk.lock:  # so that all go in one turn
            for thread in threads:
                thread.start()
            self.until(lambda: len(a.served.clerk.wanted.inbox) == 3)
        for thread in threads:
            thread.join(LONGEST)
        self.assertEqual(len(entries), 3)
        for entry in entries:
            entry.leave()
        self.assertTrue(a.audit())

    def test_what_was_answered_is_there(self):
        a = self.open(BOOK)
        entries = [a.enter("read") for _ in range(20)]
        self.server.kill()
        self.server.start()
        self.assertEqual(len(self.open(BOOK).report().live), 20)
        for entry in entries:
            entry.leave()
        self.assertTrue(a.audit())


@needs_server
class Refusals(OnServer, unittest.TestCase):
    def refused(self, kind, told, text=BOOK):
        with self.assertRaisesRegex(kind, told) as caught:
            self.made(text)
        return caught.exception

    def forge(self, line, place):
        told = "insert into wanzoche.line (log, place, line, by) select log, %s, %s, 9 from wanzoche.log where name = %s"
        self.server.run(told, place, line, self.name)

    def test_another_declaration(self):
        self.open(BOOK)
        told = "behind `book cell operation read,` it has `write path { read`, and this one `store path { read`$"
        self.refused(OtherDeclaration, told, BOOK.replace("write", "store"))
        with self.made(" ".join(BOOK.split())):
            pass  # the same in another layout

    def test_lines_that_are_not_owed(self):
        cases = [
            ("5 start write: started 1", 1, 1, "`5 start write: started 1`, where `blocked 0` is owed"),
            ("5 start read: started 7", 1, 1, "`5 start read: started 7`, where `started 1` is owed"),
            ("5 start steal: started 1", 1, 1, "`5 start steal: started 1`, where `undeclared` is owed"),
            ("5 finish 0: finished", 1, 1, "`5 finish 0: finished`, where `not yours` is owed"),
            ("hello", 1, 1, "`hello` isn't a line of a journal"),
            ("+5 start read: started 1", 1, 1, "a line has a mark"),
            ("5 start read: started 1\n5 finish 1: finished", 1, 3, "a line isn't one line"),
            ("5 start read: started 1", 4, 1, "there is no line"),
        ]
        for line, place, wrong, why in cases:
            with self.subTest(line):
                self.name += "'"
                a, b = self.open(BOOK), self.open(BOOK)
                entry = a.enter("read")
                b.report()
                self.forge(line, place)
                told = "^the log log .* at place {}: {}$".format(wrong, why.replace("`", "."))
                for paths in (a, b):
                    for call in (paths.report, paths.journal, lambda: paths.enter("read"), lambda: paths("read").__enter__()):
                        with self.assertRaisesRegex(CorruptStore, told) as caught:
                            call()
                        self.assertEqual(caught.exception.line, wrong)
                with self.assertRaises(CorruptStore):
                    entry.leave()
                self.refused(CorruptStore, told)
                a.close()
                b.close()

    def test_a_forged_line_ends_a_wait(self):
        a, b = self.open(BOOK), self.open(BOOK)
        told = []

        def waits():
            try:
                b.enter("write")
            except CorruptStore as error:
                told.append(error.line)

        entry = a.enter("read")
        thread = threading.Thread(target=waits)
        thread.start()
        self.until(lambda: b.waiting() == {"write": 1})
        self.forge("hello", 1)
        thread.join(LONGEST)
        self.assertEqual(told, [1])
        with self.assertRaises(CorruptStore):
            entry.leave()

    def test_a_second_finish_cannot_be_written(self):
        a = self.open(BOOK)
        a.enter("read").leave()
        with self.assertRaisesRegex(Exception, "line_finishes"):
            self.forge("1 finish 0: finished", 2)
        self.assertTrue(a.audit())

    def test_another_schema(self):
        self.open(BOOK).close()
        self.server.run("update wanzoche.schema set number = 7")
        self.addCleanup(self.server.run, "update wanzoche.schema set number = {}".format(_served.schema.SCHEMA))
        self.refused(StoreError, "^the schema wanzoche is number 7, and this package has {}$".format(_served.schema.SCHEMA))

    def test_a_server_that_is_not_there(self):
        with mock.patch.object(_served.times, "OPENING", 0.3):
            with self.assertRaisesRegex(StoreError, "the server doesn't answer: .*refused"):
                Paths(BOOK, store=self.server.tcp_url(port=1), name="x")

    def test_a_role_without_rights(self):
        self.server.run("create role guest login")
        self.addCleanup(self.server.run, "drop role guest")
        self.open(BOOK)
        url = self.server.url.replace("postgres@", "guest@")
        with self.assertRaisesRegex(StoreError, "the schema wanzoche can't be made or read: permission denied"):
            Paths(BOOK, store=url, name="x")

    def test_a_log_is_removed_when_nobody_has_it(self):
        a = self.open(BOOK)
        a.enter("read").leave()
        self.assertEqual(self.server.run("select wanzoche.remove(%s)", self.name), [(False,)])
        a.close()
        self.until(lambda: self.server.run("select wanzoche.remove(%s)", self.name) == [(True,)])
        self.assertEqual(self.lines(), [])
        b = self.open(SLOT)
        self.assertEqual((b.worker, b.journal()), ("process 1", ""))


@needs_server
@unittest.skipUnless(THOROUGH, "it takes long")
class Interrupts(OnServer, unittest.TestCase):
    """An exception before each instruction of the package, one after another."""

    def each(self, call, stride=1, before=lambda: None):
        guard = ends_a_hang()
        guard.__enter__()
        self.addCleanup(guard.__exit__, None, None, None)
        paths, other = self.open(BOOK, sync=False), self.open(BOOK, sync=False)
        number, goes_on = 0, True
        while goes_on:
            before()
            goes_on = self.comes_to(number, paths, call)
            gc.collect()
            self.assertEqual((paths.report().live, paths.waiting()), ((), {}), number)
            number += stride
        other.enter("write", timeout=0).leave()
        self.assertTrue(other.audit())
        self.assertGreater(number, 200)

    def comes_to(self, number, paths, call):
        """Whether a call has come to the instruction of this number, where it was cut off. The clerk may take some of its work away now and
        then, so it is tried several times."""
        for _ in range(5):
            self.until(lambda: paths.served.clerk.desk.is_asleep)
            if at_instruction(number, interrupt, lambda: call(paths)):
                return True
        return False

    def test_with(self):
        def call(paths):
            with paths("write") as entry:
                entry.put(7)

        self.each(call, 17)

    def test_a_time_limit(self):
        def call(paths):
            with paths("read"):
                try:
                    paths.enter("write", timeout=0.002).leave()
                except Timeout:
                    pass

        self.each(call, 41)

    def test_try_enter(self):
        def call(paths):
            entry = paths.try_enter("write")
            entry.leave()

        self.each(call, 17)

    def test_lines_that_are_moved(self):
        """By itself, and before by another, whose segments it reads."""
        mover = self.open(BOOK, sync=False)

        def moves():
            mover.enter("read").leave()
            mover.rotate()

        def call(paths):
            paths.enter("read").leave()
            paths.rotate()

        self.each(call, 61, moves)
        self.assertEqual(mover.journal(), self.open(BOOK).journal())

    def test_signals_at_random_moments(self):
        """Also in psycopg, while another thread and another process want something, too."""
        guard = ends_a_hang()
        guard.__enter__()
        self.addCleanup(guard.__exit__, None, None, None)
        alarms = Alarms(self)
        unraisable = mock.patch.object(sys, "unraisablehook", lambda what: None)  # of psycopg's finalizers
        unraisable.start()
        self.addCleanup(unraisable.stop)
        paths, other, entries, is_over = self.open(BOOK, sync=False, grace=60), self.open(BOOK, sync=False, grace=60), [0, 0], threading.Event()

        def enters(number, of):
            while not is_over.wait(0.02):
                with of("read", timeout=LONGEST):
                    entries[number] += 1

        threads = [threading.Thread(target=enters, args=given) for given in ((0, paths), (1, other))]
        def write():
            with paths("write", timeout=LONGEST):
                pass

        for thread in threads:
            thread.start()
        for _ in range(400):
            alarms.cut_off(write, 1e-4, 6e-3)
        self.until(lambda: min(entries))
        is_over.set()
        for thread in threads:
            thread.join(LONGEST)
        gc.collect()
        self.assertEqual((paths.report().live, paths.waiting(), paths.worker), ((), {}, "process 1"))
        other.enter("write", timeout=0).leave()
        self.assertTrue(other.audit())


if __name__ == "__main__":
    unittest.main()
