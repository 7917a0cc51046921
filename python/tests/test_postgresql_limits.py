"""Each call comes back within its limit while nothing comes through to the server, nor back: the link stays held until it has."""

import asyncio
import os
import signal
import threading
import time
import unittest
from unittest import mock

from wanzoche import Paths, StoreError, Timeout, _served

from .declarations import BOOK
from .limits import LONGEST
from .servers import OnServer, Server, needs_server
from .test_postgresql import Cutting

LIMIT = 0.4
"""Of a call; nothing else ends it."""
NEVER = 4.0 * LONGEST
SILENT = "^the log .*: the server doesn't answer"


class Held(OnServer):
    """Paths over a link that can be held."""

    outage = NEVER

    def setUp(self):
        super().setUp()
        for kind, name, value in ((_served.times, "SPARE", 0.1), (_served.times, "ANSWER", NEVER), (_served.times, "CONNECTING", NEVER)):
            patched = mock.patch.object(kind, name, value)
            patched.start()
            self.addCleanup(patched.stop)
        self.proxy = Cutting(self.server.port)
        self.addCleanup(self.proxy.close)
        libpq = {**_served.connecting.FOR_LIBPQ, "tcp_user_timeout": str(1000 * LONGEST), "keepalives": "0"}
        with mock.patch.object(_served.connecting, "FOR_LIBPQ", libpq):
            self.a = self.open(BOOK, store=self.server.tcp_url(port=self.proxy.port), outage=self.outage)
        self.b = self.open(BOOK)
        self.addCleanup(self.proxy.release)

    def hold(self):
        self.until(lambda: self.a.served.clerk.desk.is_asleep)
        self.proxy.hold()

    def comes_back(self, call):
        """What it raises, while the link is held."""
        self.hold()
        told, thread = [], None

        def calls():
            try:
                told.append(call())
            except BaseException as error:
                told.append(error)

        thread = threading.Thread(target=calls, daemon=True)
        thread.start()
        thread.join(LONGEST)
        self.assertEqual(len(told), 1, "it never comes back")
        return told[0]

    def is_silent(self, call):
        error = self.comes_back(call)
        self.assertIsInstance(error, StoreError)
        self.assertRegex(str(error), SILENT)

    def goes_on(self):
        """Nothing is left of what was given up, and the session goes on."""
        session = self.a.served.log.session.fileno()
        self.proxy.release()
        for paths in (self.a, self.b):
            self.answered(self.answered(lambda: paths.enter("write", timeout=LONGEST)).leave)
        self.assertEqual((self.b.report().live, self.a.worker), ((), "process 1"))
        self.assertEqual(self.a.served.log.session.fileno(), session)
        self.assertTrue(self.b.audit())

    async def enters(self):
        async with self.a.aio("write", timeout=LIMIT):
            pass


@needs_server
class OwnLimits(Held, unittest.TestCase):
    """Of the call itself, where an outage may last long."""

    def test_a_start(self):
        for _ in range(3):
            self.is_silent(lambda: self.a.enter("write", timeout=LIMIT))
            self.goes_on()

    def test_a_task(self):
        for _ in range(3):
            self.is_silent(lambda: asyncio.run(self.enters()))
            self.goes_on()

    def test_a_start_of_a_thread_while_another_has_no_limit(self):
        """One waits at the server for its turn, and looks for the dead there while the link is held."""
        with self.b("write"):
            waits = threading.Thread(target=lambda: self.a.enter("read", timeout=LONGEST).leave())
            waits.start()
            self.until_it_waits(self.a)
            self.proxy.hold()
            self.until(lambda: self.a.served.log.session.asked_at is not None)
            self.is_silent_now(lambda: self.a.enter("read", timeout=LIMIT))
            self.is_silent_now(lambda: asyncio.run(self.enters()))
        self.proxy.release()
        waits.join(LONGEST)
        self.goes_on()

    def is_silent_now(self, call):
        with mock.patch.object(self, "hold"):
            self.is_silent(call)

    def test_a_start_that_waited_for_its_turn(self):
        """It is told what was in its way."""
        with self.b("write"):
            self.until(lambda: self.a.served.clerk.desk.is_asleep)
            told = []

            def enters():
                try:
                    self.a.enter("read", timeout=4 * LIMIT)
                except Exception as error:
                    told.append(error)

            with mock.patch.object(_served.times, "CHECK", 1000.0):
                waits = None
                while waits is None or told:  # again, where its time was over before it waited
                    told.clear()
                    waits = threading.Thread(target=enters)
                    waits.start()
                    self.until(lambda: told or self.waits_now(self.a))
                self.proxy.hold()
                waits.join(LONGEST)
            self.assertTrue(self.proxy.is_held)
            self.assertIsInstance(told[0], Timeout)
            self.assertEqual([operation for operation, _ in told[0].in_progress], ["write"])
        self.goes_on()

    def test_a_close(self):
        entry = self.a.enter("write")
        with mock.patch.object(_served.times, "CLOSING", LIMIT):
            self.is_silent(self.a.close)
        self.assertTrue(entry)
        self.proxy.release()

    def test_a_close_while_a_thread_is_in_a_call(self):
        entry, told = self.a.enter("read"), []

        def enters():
            try:
                self.a.enter("write")
            except Exception as error:
                told.append(error)

        self.hold()
        waits = threading.Thread(target=enters)
        waits.start()
        self.until(lambda: self.a.served.log.session.asked_at is not None)
        with mock.patch.object(_served.times, "CLOSING", LIMIT), mock.patch.object(self, "hold"):
            self.is_silent(self.a.close)
        waits.join(LONGEST)
        self.assertEqual((len(told), bool(entry)), (1, True))
        self.proxy.release()

    def test_an_opening(self):
        """At each step: the link is held when so many bytes have come from the server."""
        whole = self.opened_behind(1 << 30)
        for eighth in range(8):
            with self.subTest(eighth), mock.patch.object(_served.times, "OPENING", LIMIT):
                with self.assertRaisesRegex(StoreError, SILENT):
                    self.opened_behind(eighth * whole // 8)

    def opened_behind(self, bytes):
        """How many bytes come from the server while paths are opened."""
        proxy = Cutting(self.server.port)
        self.addCleanup(proxy.close)
        proxy.hold_behind(bytes)
        paths = Paths(BOOK, store=self.server.tcp_url(port=proxy.port), name=self.name)
        passed = bytes - proxy.left
        paths.close()
        return passed

    def test_a_server_that_is_stopped(self):
        """Its process takes what is sent, and says nothing."""
        told = "select pid from wanzoche.worker join wanzoche.log using (log) where name = %s and worker = 1"
        ((pid,),) = self.server.run(told, self.name)
        self.until(lambda: self.a.served.clerk.desk.is_asleep)
        os.kill(pid, signal.SIGSTOP)
        try:
            for call in (lambda: self.a.enter("write", timeout=LIMIT), lambda: asyncio.run(self.enters())):
                self.is_silent_now(call)
        finally:
            os.kill(pid, signal.SIGCONT)
        self.goes_on()


@needs_server
class Outages(Held, unittest.TestCase):
    """Of the paths, where a call has no limit of its own."""

    outage = LIMIT

    def test_each_call(self):
        entry = self.answered(lambda: self.a.enter("write"))
        starts = [lambda: self.a.try_enter("read"), lambda: self.a.enter("read"), lambda: asyncio.run(self.reads())]
        starts += [lambda: self.a.enter("read", timeout=0), lambda: self.a.enter("read", timeout=LONGEST)]
        for call in (*starts, self.a.report, self.a.journal, lambda: self.a.why("read"), entry.look, entry.leave):
            self.is_silent(call)
            self.proxy.release()
            self.until(lambda: self.a.served.clerk.trouble.away is None and self.a.served.log.session.asked_at is None)
        self.answered(entry.leave)
        self.goes_on()

    async def reads(self):
        async with self.a.aio("read"):
            pass

    def test_who_waits_for_its_turn(self):
        """It asks each second, and is told that nothing comes back."""
        told = []

        def enters():
            try:
                self.a.enter("read")
            except Exception as error:
                told.append(error)

        with self.b("write"):
            waits = threading.Thread(target=enters)
            waits.start()
            self.until_it_waits(self.a)
            self.proxy.hold()
            waits.join(LONGEST)
            self.assertRegex(str(told), SILENT[1:])
            self.assertTrue(self.proxy.is_held)
        self.goes_on()

    def test_a_leave_that_was_done(self):
        """It is left again, and nobody else is told that it was others."""
        for _ in range(3):
            entry = self.answered(lambda: self.a.enter("write"))
            self.is_silent(entry.leave)
            self.proxy.release()
            self.until(lambda: self.b.report().live == ())
            self.answered(entry.leave)
        self.goes_on()

    def test_a_use_that_nobody_waits_for_is_not_made_later(self):
        """Behind a new session it isn't sent again."""
        entry = self.answered(lambda: self.a.enter("write"))
        self.is_silent(lambda: entry.put(7))
        self.proxy.forget()
        self.until(lambda: self.a.served.clerk.trouble.away is None)
        self.assertEqual(self.answered(entry.look), 0)
        self.answered(entry.leave)
        self.b.enter("write", timeout=LONGEST).leave()
        self.assertTrue(self.b.audit())

    def test_no_loop_is_held_up(self):
        """A task goes on while others enter, leave, are late and are told that the server is silent."""
        self.hold()
        ticks = asyncio.run(self.ticks_beside())
        self.assertGreater(ticks, 2)
        self.goes_on()

    async def ticks_beside(self):
        ticks, tasks = 0, [asyncio.ensure_future(call()) for call in 5 * [self.enters, self.reads]]
        while not all(task.done() for task in tasks):
            ticks += 1
            await asyncio.sleep(0.001)
        for task in tasks:
            self.assertRegex(str(task.exception()), SILENT)
        return ticks


@needs_server
class Sessions(OnServer, unittest.TestCase):
    def test_limits_of_the_role_are_for_others(self):
        """The session has its own."""
        name, _ = "role{}".format(os.getpid()), self.open(BOOK)
        self.server.run("create role {} login superuser".format(name))
        self.addCleanup(self.server.run, "drop role {}".format(name))
        for each in ("statement_timeout", "lock_timeout", "idle_session_timeout", "idle_in_transaction_session_timeout"):
            self.server.run("alter role {} set {} = '1ms'".format(name, each))
        a = self.open(BOOK, store=self.server.url.replace("postgres@", name + "@"))
        session = a.served.log.session.fileno()
        time.sleep(0.2)
        with a("write") as entry:
            self.assertEqual(entry.put(3), 0)
        self.assertEqual(a.served.log.session.fileno(), session)
        self.assertTrue(a.audit())

    def test_who_is_denied_a_session_is_told_at_once(self):
        """OPENING is long here."""
        server = Server()
        self.addCleanup(server.end)
        for told in ("create role secret login password 'x'", "create role nologin", "create role app login", "create database closed"):
            server.run(told)
        server.run("revoke connect on database closed from public")
        path = server.folder + "/data/pg_hba.conf"
        with open(path) as file:
            told = file.read()
        with open(path, "w") as file:
            file.write("host all secret 127.0.0.1/32 scram-sha-256\n" + told)
        server.kill()
        server.start()
        url = "postgresql://{}@127.0.0.1:{}/{}"
        cases = (
            (url.format("secret:y", server.port, "postgres"), "password authentication failed for user"),
            (url.format("secret", server.port, "postgres"), "no password supplied"),
            (url.format("postgres", server.port, "none"), 'database "none" does not exist'),
            (url.format("nobody", server.port, "postgres"), 'role "nobody" does not exist'),
            (url.format("app", server.port, "closed"), 'permission denied for database "closed"'),
            (url.format("app", server.port, "postgres?options=-c%20nonsense%3D1"), "unrecognized configuration parameter"),
            ("postgresql://app@127.0.0.1:1,127.0.0.1:{}/none".format(server.port), 'database "none" does not exist'),
        )
        for tells in (_served.session.tells_codes, lambda pq, connection: None):
            for url, told in cases:
                if tells is not _served.session.tells_codes and "parameter" in told:
                    continue  # nothing but a code says that this stays so
                with self.subTest(told), mock.patch.object(_served.session, "tells_codes", tells):
                    with self.assertRaisesRegex(StoreError, "(?s)^the log x: there is no session: .*" + told) as raised:
                        Paths(BOOK, store=url, name="x")
                    self.assertNotIn("LOCATION", str(raised.exception))

    def test_who_may_be_let_in_later_asks_again(self):
        server = Server(max_connections="5", superuser_reserved_connections="0", max_wal_senders="0")
        self.addCleanup(server.end)
        import psycopg

        kept = [psycopg.connect(server.url, gssencmode="disable") for _ in range(5)]
        opened = []
        opens = threading.Thread(target=lambda: opened.append(self.open(BOOK, store=server.url)))
        opens.start()
        time.sleep(0.3)
        self.assertEqual(opened, [])
        for each in kept:
            each.close()
        opens.join(LONGEST)
        opened[0].enter("write").leave()


if __name__ == "__main__":
    unittest.main()
