"""Logs in PostgreSQL whose older lines are moved into segments: each line is in one place, and nobody misses one."""

import os
import signal
import subprocess
import tempfile
import threading
import time
import unittest
from unittest import mock

import wanzoche
from wanzoche import CorruptStore, Lost, StoreError, _served

from .declarations import BOOK, LINE, SLOT
from .limits import LONGEST
from .servers import NEEDED, SHORT_GRACE, OnServer, Server, needs_server
from .test_postgresql import Cutting

OLD_PUT = """insert into wanzoche.line (log, place, line, by) select $1::int, $3::bigint, $5, $2::int
    from (select pg_advisory_xact_lock(wanzoche.key($1::int, 0)) offset 0) turn where $3::bigint = 0
    or exists (select from wanzoche.line x where x.log = $1::int and x.place = $3::bigint - 1 and x.stamp = $4::bigint)
    on conflict do nothing returning stamp"""
"""As a package of number 1 appends a line."""


class Rotating(OnServer):
    def segments(self):
        """The places at which the segments begin, and how many lines each has."""
        told = "select place, lines from wanzoche.segment join wanzoche.log using (log) where name = %s order by segment"
        return self.server.run(told, self.name)

    def standing(self):
        """All lines, as they stand in segments and in the table; each in one of them."""
        told = "select place, text from wanzoche.segment join wanzoche.log using (log) where name = %s"
        told += " union all select place, line from wanzoche.line join wanzoche.log using (log) where name = %s order by 1"
        lines = []
        for place, text in self.server.run(told, self.name, self.name):
            self.assertEqual(place, len(lines))
            lines += text.split("\n")
        return lines

    def run_on_log(self, told, *values):
        """A statement about the log, whose number stands for `{}`."""
        log = "(select log from wanzoche.log where name = '{}')".format(self.name.replace("'", "''"))
        return self.server.run(told.replace("{}", log), *values)

    def enters(self, paths, count, operation="read"):
        for _ in range(count):
            paths.enter(operation, timeout=LONGEST).leave()

    def moves(self, paths, count=3):
        """Appends lines, and moves all but the last."""
        self.enters(paths, count)
        paths.rotate()

    def rotated(self, paths):
        """Moves all lines but the last, if that can be now."""
        try:
            paths.rotate()
            return True
        except StoreError:
            return False

    def asks(self, paths, question):
        """What a question gives at the desk."""
        return paths.served.ask(question)


@needs_server
class Segments(Rotating, unittest.TestCase):
    def test_by_hand(self):
        a = self.open(BOOK)
        a.rotate()
        self.assertEqual(self.segments(), [])
        kept = a.enter("read")
        a.rotate()
        self.assertEqual(self.segments(), [])  # the last line stays
        self.enters(a, 3)
        lines = self.lines()
        a.rotate()
        self.assertEqual((self.segments(), self.lines()), ([(0, 6)], lines[-1:]))
        a.rotate()
        self.assertEqual(self.segments(), [(0, 6)])
        with a("read") as entry:
            self.assertEqual(entry.token, 4)
        a.rotate()
        self.assertEqual((self.segments(), len(self.lines())), ([(0, 6), (6, 2)], 1))
        self.assertEqual(self.standing()[:7], lines)
        self.assertEqual(a.journal().splitlines(), self.standing())
        self.assertTrue(a.audit() and a.audit(a.journal()))
        self.assertEqual([each.activation for each in a.report().live], [0])
        kept.leave()

    def test_a_long_table_goes_into_several(self):
        a = self.open(BOOK, room=8)
        with mock.patch.object(a.served.log.segments, "due", 1000):
            self.enters(a, 15)
        a.rotate()
        self.assertEqual(self.segments(), [(0, 8), (8, 8), (16, 8), (24, 5)])
        b = self.open(BOOK)
        self.assertEqual((b.journal(), b.report()), (a.journal(), a.report()))
        self.assertEqual(len(self.standing()), 30)

    def test_by_itself(self):
        with mock.patch.object(_served.segments, "KEPT", 3):
            a, b = self.open(BOOK, room=10), self.open(BOOK, room=10)
            for _ in range(20):
                self.enters(a, 1, "write")
                self.enters(b, 1)
            self.until(lambda: len(self.lines()) < 13)
            self.assertEqual(self.segments(), [(10 * each, 10) for each in range(len(self.segments()))])
            self.assertGreaterEqual(len(self.lines()), 3)
        self.assertEqual(len(self.standing()), 80)
        c = self.open(BOOK)
        self.assertEqual(c.journal().splitlines(), self.standing())
        self.assertTrue(a.audit() and b.audit() and c.audit())
        with c("write") as entry:
            self.assertEqual(entry.token, 40)

    def test_a_long_table_holds_nobody_up(self):
        """It is moved bit by bit, without anybody's call, and what somebody wants comes between."""
        with mock.patch.object(_served.segments, "KEPT", 1):
            a = self.open(BOOK, room=4)
            log, clerk, names = a.served.log, a.served.clerk, []
            log.segments.due = 1000
            self.enters(a, 40)
            call = log.session.call
            log.session.call = lambda calls, until: (names.append(calls[0].name), call(calls, until))[1]
            waits = [threading.Thread(target=self.enters, args=(a, 1)) for _ in range(3)]
            with clerk.desk.lock:
                for thread in waits:
                    thread.start()
                self.until(lambda: len(clerk.wanted.inbox) == 3)
                log.segments.due = 5
            for thread in waits:
                thread.join(LONGEST)
            self.until(lambda: len(self.lines()) < 5)
        self.assertLess(names.index(b"begin"), 3)
        self.assertGreater(names.count(b"rotate"), 15)
        self.assertEqual(len(self.standing()), 86)
        self.assertTrue(a.audit())

    def test_two_at_once(self):
        """Each moves what the other hasn't."""
        both = [self.open(BOOK, room=4), self.open(BOOK, room=4)]
        for _ in range(5):
            self.enters(both[0], 20)
            both[1].report()
            threads, ended = [], []
            for paths in both:
                threads.append(threading.Thread(target=lambda paths=paths: (paths.rotate(), ended.append(1))))
            for thread in threads:
                thread.start()
            for thread in threads:
                thread.join(LONGEST)
            self.assertEqual((len(ended), len(self.lines())), (2, 1))
        self.assertEqual(len(self.standing()), 200)
        self.assertTrue(both[0].audit() and both[1].audit())

    def test_what_is_in_progress_stays_so(self):
        a, b = self.open(LINE), self.open(LINE)
        with a("put") as first:
            first.put(7)
            a.rotate()
            self.assertIsNone(b.try_enter("put"))
        self.moves(b, 0)
        c = self.open(LINE)
        with c("get") as entry:
            self.assertEqual((entry.take(), entry.token), (7, 1))
        self.assertTrue(c.audit())

    def test_who_was_asleep(self):
        """One that knows no line, and ones that know some; behind one rotation, and behind two. Each goes on with something else."""
        steps = {
            "with": lambda paths: self.enters(paths, 1),
            "report": lambda paths: paths.report(),
            "journal": lambda paths: paths.journal(),
            "why": lambda paths: paths.why("write"),
            "rotate": lambda paths: paths.rotate(),
            "several": self.enters_together,
            "tries": lambda paths: paths.try_enter("write").leave(),
        }
        for rotations in (1, 2):
            for knows in (0, 1, 4):
                for name, step in steps.items():
                    with self.subTest("{} {} {}".format(rotations, knows, name)):
                        self.name += "'"
                        a, b = self.open(BOOK), self.open(BOOK)
                        self.enters(a, knows)
                        b.report()
                        for _ in range(rotations):
                            self.moves(a)
                        step(b)
                        self.assertEqual(b.journal().splitlines(), self.standing())
                        self.assertTrue(b.audit() and a.audit())
                        self.assertEqual((b.worker, a.report().live, b.report().live), ("process 2", (), ()))
                        a.close()
                        b.close()

    def enters_together(self, paths):
        threads = [threading.Thread(target=self.enters, args=(paths, 3)) for _ in range(6)]
        with paths.served.clerk.desk.lock:  # so that they begin in one turn
            for thread in threads:
                thread.start()
            self.until(lambda: len(paths.served.clerk.wanted.inbox) == 6)
        for thread in threads:
            thread.join(LONGEST)

    def test_who_was_asleep_and_has_something_in_progress(self):
        a, b = self.open(BOOK), self.open(BOOK)
        entries = [b.enter("read") for _ in range(3)]
        self.moves(a)
        entries[0].leave()
        self.moves(a)
        self.assertEqual(entries[1].look(), 0)
        self.moves(a)
        threads = [threading.Thread(target=entry.leave) for entry in entries[1:]]
        for thread in threads:
            thread.start()
        for thread in threads:
            thread.join(LONGEST)
        self.assertEqual((a.report().live, b.report().live), ((), ()))
        self.assertEqual(len(self.standing()), 6 + 18 + 1)
        self.assertTrue(a.audit() and b.audit())

    def test_who_waits_behind_a_rotation(self):
        with mock.patch.object(_served.times, "CHECK", 1000.0):
            a, b = self.open(SLOT), self.open(SLOT)
            for _ in range(3):
                waits = threading.Thread(target=lambda: b.enter("remove", timeout=LONGEST).leave())
                waits.start()
                self.until(lambda: b.waiting() == {"remove": 1})
                with a("deposit"):
                    a.rotate()
                waits.join(LONGEST)
                self.assertFalse(waits.is_alive())
                a.rotate()
        self.assertTrue(a.audit() and b.audit())

    def test_who_was_asleep_may_bury(self):
        """What it thinks is in progress was finished meanwhile, and that line is in a segment."""
        a, b = self.open(BOOK), self.open(BOOK)
        entry = b.enter("read")
        self.assertEqual(len(a.report().live), 1)
        found = self.asks(a, lambda: a.served.log.replica.live())
        entry.leave()
        self.moves(b)
        self.assertTrue(a.served.log.known.place.lines < len(self.standing()))

        def buries():
            # as if the log had been followed before
            return [a.served.clerk.burying.bury(2, found, True)]

        with mock.patch.object(a.served.clerk.following, "follow", lambda: None):
            self.assertEqual(self.asks(a, buries), [True])
        self.assertEqual(sum("finish 0" in line for line in self.standing()), 1)
        self.assertTrue(a.audit() and b.audit())
        self.enters(a, 1, "write")

    def test_a_lost_one_is_told_so_behind_a_rotation(self):
        a, b = self.open(BOOK), self.open(BOOK)
        entries = [a.enter("read"), a.enter("read")]
        self.assertEqual(b.recover(a.worker, even_alive=True), 2)
        self.moves(b)
        for entry in entries:
            with self.assertRaises(Lost):
                entry.leave()
        self.assertEqual(self.run_on_log("select buried from wanzoche.segment where log = {}"), [([0, 1],)])
        self.assertTrue(a.audit() and b.audit())

    def test_many_finishes_of_which_some_are_others(self):
        a, b = self.open(BOOK), self.open(BOOK)
        entries, told = [a.enter("read") for _ in range(4)], []
        found = self.asks(b, lambda: b.served.log.replica.live())[:2]
        self.assertTrue(self.asks(b, lambda: b.served.clerk.burying.bury(1, found, True)))
        self.moves(b)

        def leaves(entry):
            try:
                entry.leave()
                told.append("left")
            except Lost:
                told.append("lost")

        clerk = a.served.clerk
        with clerk.desk.lock:  # so that all go in one call
            threads = [threading.Thread(target=leaves, args=(entry,)) for entry in entries]
            for thread in threads:
                thread.start()
            self.until(lambda: len(clerk.wanted.inbox) == 4)
        for thread in threads:
            thread.join(LONGEST)
        self.assertEqual(sorted(told), ["left", "left", "lost", "lost"])
        self.assertEqual(a.report().live, ())
        self.assertTrue(a.audit() and b.audit())

    def test_own_finishes_are_known_when_all_is_read_anew(self):
        a, b = self.open(BOOK), self.open(BOOK)
        own, others, lives = [a.enter("read") for _ in range(3)]
        log = a.served.log
        given = (log.calls.log, b"1", b"3", log.known.place.stamp, None, b"{0}", b"{}", b"{}")
        self.asks(a, lambda: log.calls.call(_served.session.Call(b"append", given)))
        self.asks(b, lambda: b.served.log.dead.bury(1, [1], [], True))
        self.moves(b)
        a.served.clerk.trouble.is_unsure = True
        a.served.clerk.desk.ring()
        own.leave()
        with self.assertRaises(Lost):
            others.leave()
        self.assertEqual([each.activation for each in a.report().live], [2])
        lives.leave()
        self.assertTrue(a.audit() and b.audit())

    def test_options(self):
        self.open(BOOK, room=_served.segments.MOST_IN_SEGMENT)
        for room in (0, _served.segments.MOST_IN_SEGMENT + 1, 1 << 20):
            with self.assertRaisesRegex(ValueError, "^the room (of a log in PostgreSQL )?is 1 to "):
                self.made(BOOK, room=room)

    def test_a_log_with_segments_is_removed(self):
        a = self.open(BOOK)
        self.moves(a)
        ((number,),) = self.run_on_log("select {}")
        a.close()
        self.until(lambda: self.server.run("select wanzoche.remove(%s)", self.name) == [(True,)])
        self.assertEqual(self.server.run("select count(*) from wanzoche.segment where log = %s", number), [(0,)])
        self.assertEqual((self.open(BOOK).journal(), self.segments()), ("", []))

    def test_segments_are_journals(self):
        """A function gives one as a text that `pathsys` and the package audit."""
        pathsys = os.path.join(os.path.dirname(os.environ.get("WANZOCHE_LIBRARY", "/")), "..", "bin", "pathsys")
        if not os.path.exists(pathsys) and not NEEDED:
            self.skipTest("pathsys isn't built")
        a = self.open(LINE, room=7)
        kept = a.enter("put")
        kept.put(3)
        kept.leave()
        for _ in range(5):
            with a("put") as entry:
                entry.put(4)
            self.enters(a, 1, "get")
        a.enter("put")
        a.rotate()
        self.enters(a, 2, "get")
        texts = [self.server.run("select wanzoche.journal(%s, %s)", self.name, each)[0][0] for each in (1, 2, 3, None)]
        self.assertEqual(self.server.run("select wanzoche.journal(%s, 99)", self.name), [(None,)])
        whole = "".join(text.partition("\n")[2] + "\n" for text in self.all_texts())
        self.assertEqual(whole, a.journal())
        self.assertTrue(all(text.startswith("journal 2 room 1048576\n") for text in texts))
        with tempfile.TemporaryDirectory() as folder:
            files = []
            for number, text in enumerate(self.all_texts()):
                files.append("{}/log.{}".format(folder, number))
                with open(files[-1], "w") as file:
                    file.write(text + "\n")  # as psql does
            with open(folder + "/declaration", "w") as file:
                file.write(LINE)
            words = [pathsys, "audit", folder + "/declaration"]
            self.assertEqual(subprocess.run(words + files, stdout=subprocess.PIPE).stdout, b"sound\n")
            self.assertNotEqual(subprocess.run(words + files[1:], stdout=subprocess.PIPE, stderr=subprocess.PIPE).returncode, 0)

    def all_texts(self):
        count = len(self.segments())
        return [self.server.run("select wanzoche.journal(%s, %s)", self.name, each)[0][0] for each in list(range(1, count + 1)) + [None]]


@needs_server
class Answers(Rotating, unittest.TestCase):
    """That are lost, while others append and move lines before the process comes back."""

    def setUp(self):
        super().setUp()
        self.proxy = Cutting(self.server.port)
        self.addCleanup(self.proxy.close)
        self.a, self.b = self.open(BOOK, store=self.server.tcp_url(port=self.proxy.port)), self.open(BOOK)
        self.enters(self.b, 1)
        self.a.report()
        self.does = None
        log = self.a.served.log
        come_back = log.come_back

        def comes_back(until):
            does, self.does = self.does, None
            if does:
                does()
            return come_back(until)

        log.come_back = comes_back

    def loses_answer(self):
        """Of the next call. When it is done, others move its lines."""
        before = len(self.standing())

        def moves():
            self.until(lambda: len(self.standing()) > before)
            self.moves(self.b)

        self.does = moves
        self.proxy.loses_answer.set()

    def judge(self):
        self.assertIsNone(self.does)
        lines = self.standing()
        self.assertEqual(len(set(lines)), len(lines))
        self.assertEqual(self.a.worker, "process 1")
        self.assertTrue(self.a.audit() and self.b.audit())
        self.assertEqual(self.a.report().live, ())

    def test_a_start(self):
        self.loses_answer()
        entry = self.a.enter("read", timeout=LONGEST)
        self.assertEqual(entry.token, 1)
        entry.leave()
        self.judge()

    def test_a_use(self):
        with self.a("read") as entry:
            self.loses_answer()
            self.assertEqual(entry.put(7), 0)
            self.assertEqual(entry.look(), 7)
        self.judge()
        self.assertEqual(sum("put" in line for line in self.standing()), 1)

    def test_a_finish(self):
        entry = self.a.enter("read")
        self.loses_answer()
        entry.leave()
        self.judge()

    def test_a_finish_that_others_made_meanwhile(self):
        entry = self.a.enter("read")
        told = []

        def buries():
            told.append(self.b.recover(self.a.worker, even_alive=True))
            self.moves(self.b)

        self.does = buries
        self.proxy.cut()
        with self.assertRaises(Lost):
            entry.leave()
        self.assertEqual(told, [1])
        self.judge()

    def test_several_lines(self):
        entries = []
        threads = [threading.Thread(target=lambda: entries.append(self.a.enter("read", timeout=LONGEST))) for _ in range(6)]
        with self.a.served.clerk.desk.lock:  # so that all go in one call
            for thread in threads:
                thread.start()
            self.until(lambda: len(self.a.served.clerk.wanted.inbox) == 6)
            call, names = self.a.served.log.session.call, []

            def calls(given, until):
                if given[0].name == b"append":
                    names.append(given[0].name)
                    if len(names) == 1:
                        self.loses_answer()
                return call(given, until)

            self.a.served.log.session.call = calls
        for thread in threads:
            thread.join(LONGEST)
        self.assertEqual(len({entry.token for entry in entries}), 6)
        self.leave_together(entries)
        self.judge()
        self.assertEqual(sum("1 start" in line for line in self.standing()), 6)

    def leave_together(self, entries):
        """And lose the answer."""
        threads = [threading.Thread(target=entry.leave) for entry in entries]
        with self.a.served.clerk.desk.lock:
            for thread in threads:
                thread.start()
            self.until(lambda: len(self.a.served.clerk.wanted.inbox) == len(entries))
            self.loses_answer()
        for thread in threads:
            thread.join(LONGEST)

    def test_a_rotation(self):
        self.enters(self.b, 3)
        self.a.report()
        self.proxy.loses_answer.set()
        self.a.rotate()
        self.assertEqual(len(self.lines()), 1)
        self.enters(self.a, 1)
        self.judge()


@needs_server
class Forged(Rotating, unittest.TestCase):
    """Segments that somebody has written to. All that read them refuse to go on, with the place."""

    def forged(self, place, why, told):
        """Behind 14 lines, of which 12 are in segments of 4: one process knows all, and one knows 6."""
        self.name += "'"
        a, b = self.open(BOOK, room=4), self.open(BOOK)
        self.enters(a, 3)
        b.report()
        self.enters(a, 4)
        a.rotate()
        self.assertEqual(self.segments(), [(0, 4), (4, 4), (8, 4), (12, 1)])
        self.run_on_log(told)
        why = "^the log log .* at place {}: {}$".format(place, why)
        with self.assertRaisesRegex(CorruptStore, why) as caught:
            self.made(BOOK)
        self.assertEqual(caught.exception.line, place)
        if place >= 6:
            for call in (b.report, b.journal, lambda: b.enter("read")):
                with self.assertRaisesRegex(CorruptStore, why):
                    call()
        return a

    def test_lines(self):
        change = "update wanzoche.segment set text = replace(text, '%s', '%s') where log = {}"
        for old, new, place, why in (
            ("finish 1: finished", "finish 1: stale", 3, "`1 finish 1: stale`, where `finished` is owed"),
            ("start read: started 5", "start read: started 4", 10, "`1 start read: started 4`, where `started 5` is owed"),
            ("start read: started 5", "hello", 10, "`1 hello` isn't a line of a journal"),
        ):
            with self.subTest(new):
                a = self.forged(place, why.replace("`", "."), change % (old, new))
                self.assertEqual(a.audit().wrong_line, place)

    def test_places(self):
        for told, place, why in (
            ("delete from wanzoche.segment where segment = 1 and log = {}", 0, "there is no line"),
            ("delete from wanzoche.segment where segment = 3 and log = {}", 8, "there is no line"),
            ("delete from wanzoche.segment where segment = 4 and log = {}", 12, "there is no line"),
            ("update wanzoche.segment set place = 9 where segment = 3 and log = {}", 8, "there is no line"),
            ("update wanzoche.segment set lines = 3 where segment = 3 and log = {}", 12, "a segment has other lines than it says"),
            ("update wanzoche.segment set lines = 5 where segment = 4 and log = {}", 13, "a segment has other lines than it says"),
            ("update wanzoche.segment set text = '' where segment = 3 and log = {}", 8, ".. isn't a line of a journal"),
            ("update wanzoche.segment set text = split_part(text, E'\\n', 1) where segment = 3 and log = {}", 9, "a segment has other .*"),
            ("delete from wanzoche.line where place = 13 and log = {}", 13, "there is no line"),
        ):
            with self.subTest(told):
                if "wanzoche.line" in told:
                    told += "; insert into wanzoche.line (log, place, line, by) values ({}, 14, '1 start read: started 7', 1)"
                self.forged(place, why, told)

    def test_a_journal_with_a_gap(self):
        a = self.forged(8, "there is no line", "delete from wanzoche.segment where segment = 3 and log = {}")
        with self.assertRaisesRegex(CorruptStore, "at place 8: there is no line$"):
            a.journal()

    def test_a_stamp_that_is_not_known(self):
        """As behind a crash of which others knew before: all is read anew."""
        a, b = self.open(BOOK), self.open(BOOK)
        self.enters(a, 2)
        kept = b.enter("read")
        self.moves(a)
        self.run_on_log("update wanzoche.segment set stamps[5] = stamps[5] + 1 where log = {}")
        reads = []
        forget = b.served.log.known.forget
        b.served.log.known.forget = lambda: (reads.append(1), forget())
        self.assertEqual([each.activation for each in b.report().live], [2])
        self.assertEqual(reads, [1])
        kept.leave()
        self.assertTrue(a.audit() and b.audit())


@needs_server
class Inserts(Rotating, unittest.TestCase):
    """A quick insert looks at the log as it was when it began."""

    def connection(self):
        import psycopg

        connection = psycopg.connect(self.server.url, autocommit=True, gssencmode="disable")
        self.addCleanup(connection.close)
        return connection

    def test_a_late_one(self):
        """It takes its turn when its place was filled and moved: it isn't appended a second time."""
        a, b = self.open(BOOK), self.open(BOOK)
        self.enters(a, 2)
        b.report()
        place, stamp = self.asks(a, lambda: a.served.log.known.place)
        # The same statement, but that it is held up on its way to its turn.
        put, holds = _served.statements.PUT.format("", "").replace("from (select from", "from (select pg_advisory_xact_lock(4711) from"), self.connection()
        holds.execute("select pg_advisory_lock(4711)")
        connection, found = self.connection().pgconn, []
        connection.prepare(b"put", put.encode())
        log = a.served.log.calls.log
        given = [log, b"9", b"%d" % place, stamp, b"9 start read: started 2"]
        late = threading.Thread(target=lambda: found.append(connection.exec_prepared(b"put", given).ntuples))
        late.start()
        self.until(lambda: self.server.run("select 1 from pg_locks where objid = 4711 and not granted"))
        self.enters(b, 4)
        moves = threading.Thread(target=lambda: self.until(lambda: self.rotated(b)))
        moves.start()
        sleeps = "select 1 from pg_stat_activity where wait_event = 'PgSleep'"  # as who waits for inserts that are under way
        self.until(lambda: self.server.run(sleeps) or not moves.is_alive())
        holds.execute("select pg_advisory_unlock(4711)")
        for thread in (moves, late):
            thread.join(LONGEST)
        self.assertEqual(len(self.lines()), 1)
        self.assertEqual(found, [0])
        self.assertEqual(len(self.standing()), 12)
        self.assertTrue(a.audit() and b.audit())

    def test_one_that_slept_on_its_way(self):
        """It knows only lines that are moved while it waits for its turn, and began behind all that has to be waited for."""
        a, b = self.open(BOOK), self.open(BOOK)
        self.enters(a, 2)
        place, stamp = self.asks(a, lambda: a.served.log.known.place)
        self.enters(b, 4)
        connection, found = self.connection().pgconn, []
        connection.prepare(b"put", _served.statements.PUT.format("", "").encode())
        log = a.served.log.calls.log
        given = [log, b"9", b"%d" % place, stamp, b"9 start read: started 2"]
        late = threading.Thread(target=lambda: found.append(connection.exec_prepared(b"put", given).ntuples))
        with mock.patch.object(b.served.log.segments, "move", self.while_locked(b, late)):
            b.rotate()
        late.join(LONGEST)
        self.assertEqual(found, [0])
        self.assertEqual(len(self.standing()), 12)
        self.assertTrue(a.audit() and b.audit())

    def while_locked(self, paths, late):
        """Moves lines in a transaction that has its turn until the late thread waits for something, or has ended."""
        log = paths.served.log

        def moves(lines, known):
            other = self.connection()
            other.execute("begin")
            stamp = int(log.known.place.stamp)
            told = "select wanzoche.rotate(%s, %s, %s, %s, %s, '1 second')"
            other.execute(told, (int(log.calls.log), log.known.place.lines, stamp, log.segments.moved, lines))
            late.start()
            self.until(lambda: self.server.run("select 1 from pg_locks where not granted") or not late.is_alive())
            other.execute("commit")
            log.segments.know(log.segments.moved + lines)

        return moves

    def test_a_finish_that_waits_for_a_rotation(self):
        """For one that is taken for dead, which has made it itself, in a line that is being moved: it isn't made a second time."""
        a, b = self.open(BOOK), self.open(BOOK)
        entry = b.enter("read")
        self.assertEqual(len(a.report().live), 1)
        found, told = self.asks(a, lambda: a.served.log.replica.live()), []
        entry.leave()
        self.enters(b, 1)
        late = threading.Thread(target=lambda: told.append(self.asks(a, lambda: a.served.clerk.burying.bury(2, found, True))))
        with mock.patch.object(a.served.clerk.following, "follow", lambda: None):  # as if it had been followed before
            with mock.patch.object(b.served.log.segments, "move", self.while_locked(b, late)):
                b.rotate()
            late.join(LONGEST)
        self.assertEqual(told, [True])
        self.assertEqual(sum("finish 0" in line for line in self.standing()), 1)
        self.assertTrue(a.audit() and b.audit())

    def test_one_that_knows_what_was_moved(self):
        a = self.open(BOOK)
        self.enters(a, 2)
        log = a.served.log
        place = self.asks(a, lambda: log.known.place)
        self.moves(a)
        for known in (place, _served.wishes.Place(1, None), _served.wishes.Place(0, None)):
            given = (log.calls.log, b"9", b"%d" % known.lines, known.stamp, b"9 start read: started 5")
            self.assertEqual(self.asks(a, lambda: log.calls.call(_served.session.Call(b"put_finish", (*given, b"{}"))))[0], [])
        self.assertEqual(len(self.standing()), 10)

    def test_a_transaction_that_stays_open(self):
        """Lines are moved when it has ended."""
        a = self.open(BOOK, room=8)
        self.enters(a, 3)
        connection = self.connection()
        connection.execute("begin")
        connection.execute("insert into wanzoche.line (log, place, line, by) values (-1, 0, '', 1)")
        with self.assertRaisesRegex(StoreError, "^the log .*: somebody has been inserting lines for too long$"):
            a.rotate()
        self.enters(a, 1)
        with mock.patch.object(_served.segments, "KEPT", 1):
            a.served.log.segments.due = 8
            self.enters(a, 1)
            self.until(lambda: a.served.log.segments.due > 8)  # it was tried, and will be again
            self.assertEqual(self.segments(), [])
            connection.execute("rollback")
            self.enters(a, 8)
            self.until(lambda: self.segments())
        self.assertTrue(a.audit())

    def test_another_isolation(self):
        """Of the database: the package's own is what it needs."""
        self.server.run("alter database postgres set default_transaction_isolation = 'serializable'")
        self.addCleanup(self.server.run, "alter database postgres reset default_transaction_isolation")
        a = self.open(BOOK)
        self.moves(a)
        told = "show transaction_isolation"
        with mock.patch.dict(_served.statements.STATEMENTS, {b"isolation": told}):
            b = self.open(BOOK)
        found = self.asks(b, lambda: b.served.log.calls.call(_served.session.Call(b"isolation")))
        self.assertEqual(found, [[[b"read committed"]]])


@needs_server
class Deaths(Rotating, unittest.TestCase):
    def test_a_process_that_is_killed_while_it_moves_lines(self):
        """At random moments: while it waits for its turn, or does so, or behind it."""
        a = self.open(BOOK, room=4)
        for number in range(12):
            self.enters(a, 5)

            def moves():
                paths = self.made(BOOK, room=4)
                while True:
                    self.moves(paths, 2)

            child = self.child(moves)
            if number % 2:
                self.until(lambda: len(self.segments()) > number)
            time.sleep(0.005 * number)
            os.kill(child, signal.SIGKILL)
            os.waitpid(child, 0)
            self.enters(a, 1)
        self.assertTrue(a.audit())
        self.assertEqual(a.journal().splitlines(), self.standing())
        a.rotate()
        with self.open(BOOK) as b:
            self.assertEqual(b.journal().splitlines(), self.standing())


@needs_server
class Crashes(Rotating, unittest.TestCase):
    """Of the server itself, which is another one for each test. It may take long to start."""

    def setUp(self):
        super().setUp()
        self.server = Server(wal_writer_delay="10s")
        self.addCleanup(self.server.end)

    def test_in_the_midst(self):
        """When the segment is made, and when the lines are deleted."""
        a = self.open(BOOK)
        self.enters(a, 4)
        self.server.run(
            "create function sleeps() returns trigger language plpgsql as $$ begin perform pg_sleep(0.5); return null; end $$; "
            "create trigger sleeps after insert on wanzoche.segment execute function sleeps(); "
            "create trigger sleeps after delete on wanzoche.line execute function sleeps()"
        )
        for wait in (0.0, 0.6):
            before = len(self.standing())
            moves = threading.Thread(target=lambda: a.rotate())
            moves.start()
            self.until(lambda: self.server.run("select 1 from pg_stat_activity where wait_event = 'PgSleep'"))
            time.sleep(wait)
            self.server.kill()
            self.server.start()
            self.assertEqual(len(self.standing()), before)
            moves.join(LONGEST)
            self.assertEqual((len(self.lines()), len(self.standing())), (1, before))  # it is asked again
            self.enters(a, 2)
        self.assertTrue(a.audit())

    def test_behind_it(self):
        """What was moved is on the disk, also if nobody waited for that before."""
        a, b = self.open(BOOK, sync=False), self.open(BOOK, sync=False)
        self.server.run("checkpoint")
        kept = a.enter("read")
        for _ in range(3):
            self.enters(b, 2)
            b.rotate()
            before = self.standing()
            self.server.kill()
            self.server.start()
            self.assertEqual(self.standing(), before)
        kept.leave()
        self.assertTrue(a.audit() and b.audit())

    def test_a_server_that_has_lost_its_last_second(self):
        """Of which somebody knew; then others append and move other lines."""
        a, b = self.open(BOOK), self.open(BOOK, sync=False)
        self.enters(a, 1)
        first = a.enter("read")
        self.server.run("checkpoint")
        self.server.stop_writing()
        entry = b.enter("read")
        self.assertEqual(len(a.report().live), 2)  # a knows what will be gone
        with a.served.clerk.desk.lock:
            self.server.kill()
            self.server.start()
            c = self.open(BOOK)
            self.moves(c, 4)
        with self.assertRaises(Lost):
            entry.leave()
        self.assertEqual([live.worker for live in a.report().live], ["process 1"])
        first.leave()
        self.assertTrue(a.audit() and b.audit() and c.audit())
        self.assertEqual(a.journal().splitlines(), self.standing())


class OldProcess:
    """What a package of number 1 or 2 does at the server, by the statements that it prepared then."""

    STATEMENTS = {
        b"arrive": "select wanzoche.arrive($1, $2)",
        b"arrive_as_2": "select wanzoche.arrive($1, $2, 2)",
        b"bury_as_2": "select wanzoche.bury($1, $2, $3, $4, $5, $6, $7, $8)",
        b"rotate": "select wanzoche.rotate($1, $2, $3, $4, $5, $6)",
        b"hold": "select wanzoche.hold($1, $2)",
        b"lines": "select * from wanzoche.lines($1, $2, $3)",
        b"put": OLD_PUT,
        b"append": "select * from wanzoche.append($1, $2, $3, $4, $5, $6, $7, $8, $9, $10)",
        b"turn": "select * from wanzoche.turn($1, $2, $3)",
        b"bury": "select wanzoche.bury($1, $2, $3, $4, $5, $6, $7)",
        b"dead": "select wanzoche.dead($1, $2, $3)",
    }

    def __init__(self, url, log, number=1):
        import psycopg

        self.log = log
        self.connection = psycopg.connect(url, autocommit=True, gssencmode="disable")
        self.connection.execute("set plan_cache_mode = force_generic_plan")
        for name, text in self.STATEMENTS.items():
            if number > 1 or name not in (b"arrive_as_2", b"bury_as_2", b"rotate"):
                self.connection.pgconn.prepare(name, text.encode())

    def call(self, name, *given):
        """The rows of a statement. Raises AssertionError with what the server says."""
        texts = [None if each is None else str(each).encode() for each in (self.log, *given)]
        result = self.connection.pgconn.exec_prepared(name, texts)
        if result.error_message:
            raise AssertionError(result.error_message.decode())
        columns = range(result.nfields)
        return [tuple((result.get_value(row, column) or b"").decode() for column in columns) for row in range(result.ntuples)]


class Earlier(Rotating):
    """A schema of an earlier number, which another server has."""

    grace = SHORT_GRACE
    earlier: int
    opens = "select l from wanzoche.open(%s, %s)"

    def setUp(self):
        super().setUp()
        self.server = Server()
        self.addCleanup(self.server.end)
        with open(os.path.join(os.path.dirname(os.path.abspath(__file__)), "schema{}.sql".format(self.earlier))) as file:
            self.server.run(file.read())
        self.log = self.server.run(self.opens, self.name, self.declaration())[0][0]

    def declaration(self):
        """As the library spells it."""
        replica = wanzoche._replica.Replica(BOOK.encode(), wanzoche._native.Handle())
        replica.open()
        try:
            return replica.declaration()
        finally:
            replica.close()

    def number(self):
        return self.server.run("select number from wanzoche.schema")[0][0]

    def old_process(self):
        old = OldProcess(self.server.url, self.log, self.earlier)
        self.addCleanup(old.connection.close)
        old.worker = int(old.call(b"arrive" if self.earlier == 1 else b"arrive_as_2", "old")[0][0])
        return old

    def test_it_is_brought_up(self):
        old = self.old_process()
        old.call(b"append", 1, 0, None, "1 start read: started 0", "{}", "{}", "{}", "{}", "f")
        old.connection.close()
        a = self.open(BOOK)
        self.assertEqual((self.number(), a.worker), (_served.schema.SCHEMA, "process 2"))
        self.enters(a, 2, "write")  # what the dead one had is finished
        self.until(lambda: self.server.run("select worker from wanzoche.worker") == [(2,)])
        a.rotate()
        self.assertEqual((self.segments(), len(self.standing())), ([(0, 5)], 6))
        self.assertTrue(a.audit() and self.open(BOOK).audit())


@needs_server
class FromOne(Earlier, unittest.TestCase):
    """Number 1 had no segments."""

    earlier = 1

    def test_an_old_process_goes_on(self):
        """And lines are moved when it has ended."""
        old = self.old_process()
        told = old.call(b"put", 1, 0, None, "1 start read: started 0")
        a = self.open(BOOK, room=4)
        self.assertEqual(self.number(), _served.schema.SCHEMA)
        old.call(b"append", 1, 1, told[0][0], None, "{0}", "{}", "{}", "{}", "f")
        self.enters(a, 2)
        news, final, mark = old.call(b"lines", 0, None)[0]
        self.assertEqual((news.split("\n"), final), (self.standing(), "5"))
        self.assertEqual(len(old.call(b"put", 1, 6, mark, "1 start read: started 3")), 1)
        self.assertEqual(old.call(b"dead", "{1}", "1 second"), [])
        with self.assertRaisesRegex(StoreError, "^the log .*: process 1 is of a package that reads no segments, and may be alive$"):
            a.rotate()
        with mock.patch.object(_served.segments, "KEPT", 1):
            a.served.log.segments.due = 8
            self.enters(a, 3)
            self.until(lambda: a.served.log.segments.due > 8)
        self.assertEqual(self.segments(), [])
        kept = a.enter("read")
        self.assertEqual(old.call(b"bury", 1, 2, "{%d}" % kept.token, "{}", "1 second", "t"), [("t",)])
        self.assertEqual(len(old.call(b"turn", 0, None)), 1)
        old.connection.close()
        self.until(lambda: self.rotated(a))
        self.assertEqual(len(self.lines()), 1)
        self.assertRaises(Lost, kept.leave)
        self.assertTrue(a.audit() and self.open(BOOK).audit())

    def test_an_old_process_that_comes_back(self):
        """In time it keeps its worker. Later, and where there are segments, it is refused."""
        old = self.old_process()
        a = self.open(BOOK, grace=1.5)
        self.enters(a, 3)
        self.assertFalse(self.rotated(a))
        old.connection.close()
        told = "select 1 from pg_locks where locktype = 'advisory' and objid::bigint & 268435455 = 1"
        self.until(lambda: not self.server.run(told))
        self.assertFalse(self.rotated(a))  # it may come back
        back = OldProcess(self.server.url, self.log)
        self.assertEqual(back.call(b"hold", 1), [("t",)])
        for _ in range(2):
            time.sleep(2)
            self.assertFalse(self.rotated(a))
        back.connection.close()
        self.until(lambda: self.rotated(a))
        late = OldProcess(self.server.url, self.log)
        self.addCleanup(late.connection.close)
        self.assertEqual(late.call(b"hold", 1), [("f",)])
        with self.assertRaisesRegex(AssertionError, "the log has segments, which this package doesn't read: take a later one"):
            late.call(b"arrive", "old")
        self.enters(a, 1)

    def test_roles(self):
        """Whoever may use the lines may use the segments. Only the owner brings the schema up."""
        for role in ("app", '"odd Name"'):
            self.server.run("create role {} login".format(role))
            self.server.run("grant usage on schema wanzoche to {}".format(role))
            self.server.run("grant select, insert, update, delete on all tables in schema wanzoche to {}".format(role))
        url = self.server.url.replace("postgres@", "app@")
        told = "^the schema wanzoche is number 1, and can't be brought to {}, so its owner has to run schema.sql: permission denied for"
        with self.assertRaisesRegex(StoreError, told.format(_served.schema.SCHEMA)):
            self.made(BOOK, store=url)
        self.open(BOOK).close()
        a = self.open(BOOK, store=url)
        self.moves(a)
        self.assertTrue(self.open(BOOK, store=self.server.url.replace("postgres@", "odd%20Name@")).audit())


@needs_server
class FromTwo(Earlier, unittest.TestCase):
    """Number 2 looked for functions and operators wherever the session did, and knew no grace."""

    earlier = 2

    def test_an_old_process_goes_on(self):
        """It reads segments, so lines are moved beside it."""
        old = self.old_process()
        old.call(b"append", 1, 0, None, "1 start read: started 0", "{}", "{}", "{}", "{}", "f")
        a = self.open(BOOK)
        self.assertEqual(self.number(), _served.schema.SCHEMA)
        old.call(b"append", 1, 1, old.call(b"lines", 0, None)[0][2], None, "{0}", "{}", "{}", "{}", "f")
        self.moves(a)
        news, final, mark = old.call(b"lines", len(self.standing()) - 1, self.stamps()[-1])[0]
        self.assertEqual(news, self.lines()[-1])
        kept = a.enter("read")
        count = len(self.standing())
        self.assertEqual(old.call(b"bury_as_2", 1, 2, "{%d}" % kept.token, "{}", "1 second", "t", count), [("t",)])
        self.assertRaises(Lost, kept.leave)
        found = old.call(b"rotate", count + 1, self.server.run("select stamp from wanzoche.line order by place desc limit 1")[0][0], 7, 1, "1 second")
        self.assertEqual(found, [("8",)])
        late = OldProcess(self.server.url, self.log, 2)
        self.addCleanup(late.connection.close)
        self.assertEqual(late.call(b"arrive_as_2", "late"), [("3",)])
        self.assertTrue(a.audit() and self.open(BOOK).audit())

    def test_it_may_be_brought_up_by_hand_and_twice(self):
        with open(_served.schema.SCRIPT) as file:
            script = file.read()
        for _ in range(2):
            self.server.run(script)
            self.assertEqual(self.number(), _served.schema.SCHEMA)
            self.moves(self.open(BOOK), 2)
        self.server.run("update wanzoche.schema set number = 9")
        with self.assertRaisesRegex(Exception, "the schema wanzoche is number 9, and this makes {}".format(_served.schema.SCHEMA)):
            self.server.run(script)

    def test_many_bring_it_up_at_once(self):
        found = []
        threads = [threading.Thread(target=lambda: found.append(self.open(BOOK))) for _ in range(6)]
        for thread in threads:
            thread.start()
        for thread in threads:
            thread.join(LONGEST)
        self.assertEqual((len(found), self.number()), (6, _served.schema.SCHEMA))
        self.moves(found[0])
        self.assertTrue(all(each.audit() for each in found))

    def stamps(self):
        return [stamp for stamps, in self.server.run("select stamps from wanzoche.segment order by place") for stamp in stamps]


if __name__ == "__main__":
    unittest.main()
