"""Others at the same PostgreSQL server: a role that may connect and has no right, which takes every lock and sends every notification that it
can, and one that may only look."""

import os
import subprocess
import threading
import time
import unittest
from unittest import mock

from wanzoche import StoreError, _served

from .declarations import BOOK
from .limits import LONGEST
from .servers import COMMAND, SHORT_GRACE, OnServer, Server, needs_server

LOCK = "do $$ begin lock table wanzoche.line in exclusive mode; end $$"
PAYLOADS = ("x", "", "-1", "2", "99999999999999999999", "0_1", " 1", "0", "1")


def connected(url):
    import psycopg

    return psycopg.connect(url, autocommit=True, gssencmode="disable")


class Stranger:
    """Sessions of a role without any right."""

    def __init__(self, test, url):
        self._test, self.url = test, url
        self.connection = self.connected()

    def connected(self):
        connection = connected(self.url)
        self._test.addCleanup(connection.close)
        return connection

    def take_keys(self):
        """Each lock that number 3 of the schema had, or could get: of schemas and logs, and of workers."""
        told = "select count(*) from generate_series(0, 20) l, generate_series(0, 40) w "
        self.connection.execute(told + "where pg_try_advisory_lock((22391::bigint << 48) | (l::bigint << 28) | w)")

    def take_what_others_have(self):
        """It waits for each lock that anybody has, each in a session of its own, and gets it when that one dies."""
        for (key,) in self.locks():
            connection = self.connected()
            thread = threading.Thread(target=self._take, args=(connection, key), daemon=True)
            thread.start()
            self._test.until(lambda: self.waits_for(key))

    def _take(self, connection, key):
        try:
            connection.execute("select pg_advisory_lock(%s)", [key])
        except Exception:
            pass  # its connection is closed at the end

    def locks(self):
        told = "select distinct (classid::bigint << 32) | objid::bigint from pg_locks where locktype = 'advisory' and pid <> pg_backend_pid()"
        return self.connection.execute(told).fetchall()

    def waits_for(self, key):
        told = "select from pg_locks where locktype = 'advisory' and (classid::bigint << 32) | objid::bigint = %s and not granted"
        return self.connection.execute(told, [key]).rowcount

    def has(self, key):
        told = "select from pg_locks where locktype = 'advisory' and (classid::bigint << 32) | objid::bigint = %s and granted"
        return self.connection.execute(told, [key]).rowcount

    def flood(self, is_over):
        """Notifies all that can be guessed."""
        connection, told = self.connected(), "select pg_notify('wanzoche_' || l || '_' || w, %s) from generate_series(1, 20) l, generate_series(1, 40) w"

        def floods():
            while not is_over.is_set():
                for payload in PAYLOADS:
                    connection.execute(told, [payload])

        thread = threading.Thread(target=floods)
        thread.start()
        self._test.addCleanup(thread.join, LONGEST)
        self._test.addCleanup(is_over.set)


class AtOwnServer(OnServer):
    grace = SHORT_GRACE

    def setUp(self):
        super().setUp()
        self.server = Server()
        self.addCleanup(self.server.end)

    def all_enter(self, *all_paths):
        for paths in all_paths:
            paths.enter("write", timeout=LONGEST).leave()

    def url_of(self, role):
        return self.server.url.replace("postgres@", role + "@")


@needs_server
class Strangers(AtOwnServer, unittest.TestCase):
    def setUp(self):
        super().setUp()
        self.server.run("create role stranger login")
        self.stranger = Stranger(self, self.url_of("stranger"))

    def test_all_its_locks_and_a_flood(self):
        """The schema and a log are made, processes come, enter, wait, are woken, come back and go, and the log is removed."""
        self.stranger.take_keys()
        self.stranger.flood(threading.Event())
        a, b = self.open(BOOK), self.open(BOOK)
        self.stranger.take_what_others_have()
        self.all_enter(a, b, a)
        with mock.patch.object(_served.times, "CHECK", 1000.0):  # nobody looks by itself so soon
            entry = a.enter("write")
            waits = threading.Thread(target=lambda: b.enter("read", timeout=LONGEST).leave())
            waits.start()
            self.until_it_waits(b)
            entry.leave()
            waits.join(LONGEST)
        a.rotate()
        self.server.run("select pg_terminate_backend(pid) from pg_stat_activity where application_name = 'wanzoche' and usename = 'postgres'")
        self.all_enter(a, b)
        self.assertEqual((a.worker, b.worker), ("process 1", "process 2"))
        self.assertTrue(a.audit())
        a.close()
        b.close()
        self.until(lambda: self.server.run("select wanzoche.remove(%s)", self.name) == [(True,)])
        self.all_enter(self.open(BOOK))

    def test_the_dead_stay_dead(self):
        """Somebody waits for the lock of each, gets it, and keeps it; also if its process at the server has the number of the dead one's."""
        a = self.open(BOOK)
        for number in (2, 3):
            goes, go = os.pipe()
            ready, says = os.pipe()

            def holds():
                self.kept = self.made(BOOK).enter("write")
                os.write(says, b"x")
                os.read(goes, 1)

            child = self.child(holds)
            os.read(ready, 1)
            ((key,),) = self.server.run("select lock from wanzoche.worker where worker = %s", number)
            self.stranger.take_what_others_have()
            os.write(go, b"x")
            os.waitpid(child, 0)
            self.until(lambda: self.stranger.has(key))
            if number == 3:
                told = "update wanzoche.worker set pid = (select pid from pg_locks where locktype = 'advisory' and granted "
                self.server.run(told + "and (classid::bigint << 32) | objid::bigint = %s) where worker = 3", key)
            self.all_enter(a)
        self.assertTrue(a.audit())

    def test_a_dead_one_that_waited_is_passed_over(self):
        """Though somebody keeps its lock: who waits beside it sees that it is dead, and the next leave wakes that one."""
        a, b = self.open(BOOK), self.open(BOOK)
        entry = a.enter("write")
        child = self.child(lambda: self.made(BOOK).enter("write"))
        waiting = "select count(*) from wanzoche.waiter where since is not null"
        self.until(lambda: self.server.run(waiting) == [(1,)])
        ((key,),) = self.server.run("select lock from wanzoche.worker where worker = 3")
        self.stranger.take_what_others_have()
        os.kill(child, 9)
        os.waitpid(child, 0)
        self.until(lambda: self.stranger.has(key))
        waits = threading.Thread(target=lambda: b.enter("write", timeout=LONGEST).leave())
        waits.start()
        told = "select worker from wanzoche.waiter where since is not null"
        self.until(lambda: self.server.run(told) == [(2,)])
        self.assertTrue(self.stranger.has(key))
        entry.leave()
        waits.join(LONGEST)
        self.assertTrue(b.audit())

    def test_a_flood_costs_nothing(self):
        """Nobody can guess by which channel a process is notified."""
        a, b = self.open(BOOK), self.open(BOOK)
        with b("write"):
            self.assertRaises(TimeoutError, a.enter, "read", timeout=0.05)  # from now on it listens
        session, calls = a.served.log.session, []
        self.until(lambda: a.served.clerk.desk.is_asleep)
        with mock.patch.object(session, "call", lambda *given: calls.append(1)):
            for payload in PAYLOADS:
                told = "select pg_notify('wanzoche_' || l || '_' || w, %s) from generate_series(1, 20) l, generate_series(1, 40) w"
                self.stranger.connection.execute(told, [payload])
            time.sleep(0.3)
        self.assertEqual(calls, [])
        self.all_enter(a, b)

    def test_it_has_no_right(self):
        """Of what the schema has it can do nothing."""
        self.open(BOOK)
        for told in ("select * from wanzoche.line", "select wanzoche.alive(1)", "select from wanzoche.turn for update", LOCK):
            with self.subTest(told), self.assertRaisesRegex(Exception, "permission denied"):
                self.stranger.connection.execute(told)


@needs_server
class Lookers(AtOwnServer, unittest.TestCase):
    """A role that may only look."""

    def setUp(self):
        super().setUp()
        self.server.run("create role watcher login")
        self.a = self.open(BOOK)
        with open(os.path.join(os.path.dirname(_served.schema.SCRIPT), "look.sql")) as file:
            self.server.run(file.read().replace(':"role"', "watcher"))
        self.url = self.url_of("watcher")

    def runs(self, command, *words):
        words = [*COMMAND, command, "--store", self.url, "--name", self.name, *words]
        ended = subprocess.run(words, stdin=subprocess.DEVNULL, stdout=subprocess.PIPE, stderr=subprocess.PIPE, timeout=LONGEST)
        return ended.stdout.decode(), ended.stderr.decode(), ended.returncode

    def standing(self):
        """All that a writer could have changed."""
        tables = ("log", "line", "segment", "worker", "waiter", "waiting", "turn")
        return [self.server.run("select x::text from wanzoche.{} x order by 1".format(table)) for table in tables]

    def test_what_it_may(self):
        entry = self.a.enter("read")
        self.a.rotate()
        before = self.standing()
        self.assertRegex(self.runs("status")[0], "^startable read\nblocked write 0\n(.*\n)*process 1 {} ".format(os.getpid()))
        told, why, status = self.runs("status", "--json")
        self.assertIn('"in_progress": 1', told)
        self.assertEqual((why, status), ("", 0))
        self.assertEqual(self.runs("log"), (self.a.journal(), "", 0))
        self.assertEqual(self.runs("audit"), ("sound\n", "", 0))
        self.assertEqual(self.standing(), before)
        entry.leave()

    def test_it_sees_the_dead(self):
        self.dies(lambda: setattr(self, "kept", self.made(BOOK).enter("write")))
        self.until(lambda: "lost 0 2 write" in self.runs("status")[0])

    def test_what_it_may_not(self):
        before = self.standing()
        for words in (("exec", "read", "--", "true"), ("recover", "1"), ("pass", "read")):
            with self.subTest(words):
                self.assertRegex(self.runs(*words)[1], "permission denied for table log")
        with self.assertRaisesRegex(StoreError, "permission denied for table log"):
            self.made(BOOK, store=self.url)
        looks = connected(self.url)
        self.addCleanup(looks.close)
        for told in (
            "select from wanzoche.turn for update",
            "select from wanzoche.log for update",
            "select channel from wanzoche.worker",
            "insert into wanzoche.line (log, place, line, by) values (1, 0, '', 1)",
            "select wanzoche.hold(1, 1)",
            "select wanzoche.remove('{}')".format(self.name),
            "select * from wanzoche.append(1, 1, 0, null, '1 start read: started 0', '{}', '{}', '{}', '{}', false)",
            "delete from wanzoche.line",
            LOCK,
        ):
            with self.subTest(told), self.assertRaisesRegex(Exception, "permission denied"):
                looks.execute(told)
        self.assertEqual(self.standing(), before)

    def test_a_log_that_is_not_there(self):
        self.name = "none"
        self.assertIn("there is no log none", self.runs("status")[1])


if __name__ == "__main__":
    unittest.main()
