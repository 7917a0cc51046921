"""What belongs to a log in PostgreSQL: `lost`, `grace` and `room`. Who makes it writes them, and all others keep to them."""

import re
import subprocess
import threading
import time
import unittest
from unittest import mock

from wanzoche import Paths, StoreError, Timeout, _served

from .declarations import BOOK, SLOT
from .limits import LONGEST
from .servers import COMMAND, SHORT_GRACE, OnServer, needs_server
from .test_postgresql_segments import Earlier, OldProcess

USUAL = ("finish", 5.0, 16384)


class OfALog(OnServer):
    def made(self, text, **options):
        """Nothing is given that isn't said."""
        return super().made(text, **{"grace": None, **options})

    def settings(self):
        (found,) = self.server.run("select lost, grace, room from wanzoche.log where name = %s", self.name)
        return found

    def known(self, paths):
        return tuple(paths.served.log.settings)


@needs_server
class Settings(OfALog, unittest.TestCase):
    def test_the_first_writes_them(self):
        cases = (
            ({}, USUAL),
            ({"lost": "keep"}, ("keep", 5.0, 16384)),
            ({"grace": 0.1}, ("finish", 0.1, 16384)),
            ({"grace": 7}, ("finish", 7.0, 16384)),
            ({"room": 12}, ("finish", 5.0, 12)),
            ({"lost": "finish", "grace": 1 / 3, "room": 1}, ("finish", 1 / 3, 1)),
        )
        for given, wanted in cases:
            with self.subTest(given):
                self.name += "'"
                for options in (given, {}, given, dict(zip(("lost", "grace", "room"), wanted))):
                    paths = self.open(BOOK, **options)
                    self.assertEqual((self.settings(), self.known(paths)), (wanted, wanted))

    def test_others_are_told(self):
        """With both values, and nothing is changed."""
        self.open(BOOK, grace=2.5)
        told = "^the log {} was made with {}, and not with {}: give the same, or nothing$"
        cases = (
            ({"lost": "keep"}, "lost='finish'", "lost='keep'"),
            ({"grace": 2}, "grace=2.5", "grace=2.0"),
            ({"room": 10}, "room=16384", "room=10"),
            ({"lost": "finish", "grace": 2.5, "room": 16383}, "room=16384", "room=16383"),
        )
        for given, own, other in cases:
            with self.subTest(given), self.assertRaisesRegex(StoreError, told.format(re.escape(self.name), re.escape(own), re.escape(other))):
                self.made(BOOK, **given)
        self.assertEqual(self.settings(), ("finish", 2.5, 16384))
        (count,) = self.server.run("select workers from wanzoche.log where name = %s", self.name)
        self.assertEqual(count, (1,))

    def test_many_make_it_at_once(self):
        """Those of one count."""
        found, graces = [], [1.0, 2.0, 3.0]

        def opens(grace):
            try:
                found.append(self.made(BOOK, grace=grace))
            except StoreError as error:
                found.append(error)

        threads = [threading.Thread(target=opens, args=(grace,)) for grace in 3 * graces]
        for thread in threads:
            thread.start()
        for thread in threads:
            thread.join(LONGEST)
        grace = self.settings()[1]
        self.assertIn(grace, graces)
        opened = [each for each in found if isinstance(each, Paths)]
        self.assertEqual((len(found), len(opened)), (9, 3))
        for each in found:
            if each in opened:
                self.assertEqual(self.known(each)[1], grace)
                each.close()
            else:
                self.assertIn("was made with grace={}, and not with grace=".format(grace), str(each))

    def test_who_gives_nothing_keeps_to_them(self):
        """One that makes nothing of a log that keeps, moves lines by the log's room, and takes others for dead by the log's grace."""
        with self.open(BOOK, lost="keep", grace=SHORT_GRACE, room=4):
            pass
        self.dies(lambda: setattr(self, "kept", self.made(BOOK).enter("write")))
        a = self.open(BOOK)
        self.until(lambda: a.report().lost)
        self.assertRaises(Timeout, a.enter, "read", timeout=0.05)
        self.assertEqual(a.recover(2), 1)
        told = "select count(*) from wanzoche.segment join wanzoche.log using (log) where name = %s"
        with mock.patch.object(_served.segments, "KEPT", 1):
            a.served.log.segments.due = 0
            while self.server.run(told, self.name) == [(0,)]:
                a.enter("read").leave()
        self.assertTrue(a.audit())

    def test_another_declaration_writes_nothing(self):
        self.open(BOOK).close()
        self.server.run("update wanzoche.log set lost = null, grace = null, room = null where name = %s", self.name)
        with self.assertRaisesRegex(StoreError, "is of another declaration"):
            self.made(SLOT, grace=9)
        self.assertEqual(self.settings(), (None, None, None))
        self.open(BOOK, grace=9)
        self.assertEqual(self.settings(), ("finish", 9.0, 16384))

    def test_a_name_with_a_zero(self):
        with self.assertRaisesRegex(ValueError, "needs the log's name"):
            Paths(BOOK, store=self.server.url, name="a\0b")

    def test_a_command(self):
        """`exec` keeps to the log, and is told, too; the others finish nothing, whatever the log has."""
        self.open(BOOK, lost="keep", grace=SHORT_GRACE).close()
        self.dies(lambda: setattr(self, "kept", self.made(BOOK).enter("write")))
        self.until(lambda: "lost 0 2 write" in self.runs("status")[0])
        self.assertEqual(self.runs("exec", "--nonblock", "--quiet", "read", "--", "true")[2], 1)
        told = "wanzoche: the log {} was made with lost='keep', and not with lost='finish': give the same, or nothing\n".format(self.name)
        self.assertEqual(self.runs("exec", "--lost", "finish", "read", "--", "true")[1:], (told, 125))
        self.assertEqual(self.runs("recover", "2")[0], "finished 1\n")
        self.assertEqual(self.runs("exec", "--lost", "keep", "--nonblock", "read", "--", "true")[1:], ("", 0))

    def runs(self, command, *words):
        words = [*COMMAND, command, "--store", self.server.url, "--name", self.name, *words]
        ended = subprocess.run(words, stdin=subprocess.DEVNULL, stdout=subprocess.PIPE, stderr=subprocess.PIPE, timeout=LONGEST)
        return ended.stdout.decode(), ended.stderr.decode(), ended.returncode


@needs_server
class FromThree(OfALog, Earlier, unittest.TestCase):
    """In number 3 each process had its own."""

    earlier = 3

    def old_process(self):
        old = super().old_process()
        self.server.run("update wanzoche.worker set knows = 3 where worker = %s", old.worker)
        return old

    def test_the_first_opening_writes_them(self):
        self.open(BOOK, lost="keep", room=9)
        self.assertEqual((self.number(), self.settings()), (_served.schema.SCHEMA, ("keep", 5.0, 9)))
        with self.assertRaisesRegex(StoreError, "was made with room=9, and not with room=8"):
            self.made(BOOK, room=8)

    def test_an_old_process_goes_on(self):
        """It is alive as long as its session, its appends take their turn, and it may come back."""
        old, told = self.old_process(), []
        mark = old.call(b"append", 1, 0, None, "1 start read: started 0", "{}", "{}", "{}", "{}", "f")[0][2]
        a = self.open(BOOK, grace=SHORT_GRACE)
        self.until(lambda: a.report().live)
        time.sleep(2 * SHORT_GRACE)
        self.assertEqual((a.report().lost, a.try_enter("write")), ((), None))
        holds = self.connection()
        holds.execute("begin; select from wanzoche.turn for update")
        puts = threading.Thread(target=lambda: told.append(old.call(b"put", 1, 1, mark, "1 start read: started 1")))
        puts.start()
        self.until(lambda: self.server.run("select 1 from pg_locks where locktype in ('tuple', 'transactionid') and not granted") or told)
        self.assertEqual((told, len(self.lines())), ([], 1))
        holds.execute("commit")
        puts.join(LONGEST)
        self.assertEqual(len(self.lines()), 2)
        back = OldProcess(self.server.url, self.log, 3)
        self.addCleanup(back.connection.close)
        self.assertEqual(back.call(b"hold", 1), [("t",)])
        time.sleep(2 * SHORT_GRACE)
        self.assertEqual((a.report().lost, a.try_enter("write")), ((), None))
        back.connection.close()
        a.enter("write", timeout=LONGEST).leave()
        self.assertTrue(a.audit())

    def connection(self):
        import psycopg

        connection = psycopg.connect(self.server.url, autocommit=True, gssencmode="disable")
        self.addCleanup(connection.close)
        return connection

    def test_it_is_brought_up(self):
        """Its grace is the usual one, which takes some seconds."""
        with mock.patch.object(OfALog, "made", lambda self, text, **options: OnServer.made(self, text, **options)):
            super().test_it_is_brought_up()


if __name__ == "__main__":
    unittest.main()
