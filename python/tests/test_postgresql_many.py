"""Many processes over one log in PostgreSQL, which are killed, cut off, or see their server die: nothing is lost, and nobody is stuck
(witness.py). WANZOCHE_ROUNDS makes more rounds, and WANZOCHE_SEED repeats one.
"""

import os
import random
import re
import sys
import threading
import time
import unittest
from unittest import mock

import wanzoche
from wanzoche import Lost, Paths, Timeout, _served

from . import witness
from .declarations import BOOK, SLOT
from .limits import LONGEST
from .servers import Server, needs_server, new_name, the_server
from .stores import THOROUGH
from .test_postgresql import Cutting
from .witness import BUFFER, ROUNDS


class Worker(witness.Worker):
    """One process of a round."""

    def opened(self):
        until = time.monotonic() + LONGEST
        while True:
            try:
                return self.round.open()
            except wanzoche.CorruptStore:
                raise
            except wanzoche.StoreError:
                if time.monotonic() > until:
                    raise
                time.sleep(0.1)  # the server is away

    def run(self, entries):
        paths = self.opened()
        if self.round.kills:
            self.dies_around(_served.session.Session, "call", 0.002)
        is_book = self.round.text == BOOK
        for each in range(entries):
            operation = random.choice(paths.operations) if is_book else paths.operations[each % 2]
            try:
                entry = paths.enter(operation, timeout=LONGEST if is_book else 0.3)
            except Timeout:
                if is_book:
                    raise
                self.note("late")
                continue  # the partners may be dead
            except wanzoche.StoreError as error:
                if is_book or isinstance(error, wanzoche.CorruptStore):
                    raise
                self.note("away")
                continue  # the time was over while the server couldn't be reached
            token = entry.token
            self.note("entered", token, operation)
            self.body(operation, token)
            try:
                entry.leave()
                self.note("left", token)
            except Lost:
                self.note("lost", token)
        paths.close()


class Round(witness.Round):
    """Processes over one log."""

    worker = Worker

    def __init__(
        self, text, processes, entries, *, server, kills=0.0, disturb=None, url=None, grace=1.0, patience=LONGEST, sync=True, room=None
    ):
        super().__init__(text, processes, entries if THOROUGH else entries // 2, kills=kills, patience=patience, disturb=disturb)
        self.server, self.grace, self.url, self.sync, self.room = server, grace, url or server.url, sync, room
        self.name = new_name()

    def open(self, url=None):
        """Opens the log, at a server or beside it."""
        return Paths(self.text, store=url or self.url, name=self.name, grace=self.grace, outage=LONGEST, sync=self.sync, room=self.room)

    def again(self):
        return self.open(self.server.url)

    def judge_journal(self, journal):
        """Each line of the journal stands in one place, of a segment or of the table, and some were moved."""
        if not self.room:
            return
        told = "select place, {} from wanzoche.{} join wanzoche.log using (log) where name = %s"
        found = self.server.run(told.format("text", "segment"), self.name)
        moved = sum(text.count("\n") + 1 for _, text in found)
        found += self.server.run(told.format("line", "line"), self.name)
        lines = [(place + n, line) for place, text in found for n, line in enumerate(text.split("\n"))]
        if sorted(lines) != list(enumerate(journal.splitlines())):
            self.wrong.append("lines are missing, or stand twice")
        if not moved:
            self.wrong.append("none of {} lines was moved".format(len(lines)))


def restarts(server, count):
    """Kills the server and starts it again, so often."""

    def disturb(over, chance, noted, round):
        for _ in range(count):
            if over.wait(0.5 + chance.random()):
                return
            server.kill()
            time.sleep(chance.random() * 0.3)
            server.start()

    return disturb


def waits_for_progress(over, noted):
    """Until somebody has got on, or all is over: a busy machine needs long to connect again."""
    before = noted()
    while noted() == before and not over.wait(0.01):
        pass


def ends_sessions(server, pause):
    """The server ends sessions, one after another."""
    told = (
        "select pg_terminate_backend(pid) from (select pid from pg_stat_activity where application_name = 'wanzoche' "
        "order by random() limit 1) x"
    )

    def disturb(over, chance, noted, round):
        while not over.wait(pause * chance.random()):
            server.run(told)
            waits_for_progress(over, noted)

    return disturb


def moves_lines(server, pause, beside=None):
    """Another process moves all lines but the last now and then, beside something else."""

    def disturb(over, chance, noted, round):
        if beside:
            other = threading.Thread(target=beside, args=(over, chance, noted, round))
            other.start()
        with round.open(server.url) as paths:
            while not over.wait(pause * chance.random()):
                try:
                    paths.rotate()
                except wanzoche.CorruptStore as error:
                    round.wrong.append(str(error))
                    break
                except wanzoche.StoreError:
                    pass  # the server is away
        if beside:
            other.join()

    return disturb


def cuts(proxy, pause):
    """The network cuts all connections now and then, or loses an answer."""

    def disturb(over, chance, noted, round):
        while not over.wait(pause * chance.random()):
            waits_for_progress(over, noted)
            if chance.random() < 0.2:
                proxy.cut()
            else:
                proxy.loses_answer.set()

    return disturb


@needs_server
class Many(unittest.TestCase):
    def rounds(self, *given, **named):
        killed = 0
        for _ in range(ROUNDS):
            round = Round(*given, **{"server": the_server(), **named})
            wrong = round.run()
            self.assertEqual(wrong, [], wrong)
            self.assertEqual(round.lost, 0)
            killed += round.killed
        if named.get("kills"):
            print("{} processes were killed".format(killed), file=sys.stderr)

    def test_a_book(self):
        self.rounds(BOOK, 8, 40)

    def test_a_slot(self):
        self.rounds(SLOT, 4, 60)

    def test_a_buffer(self):
        self.rounds(BUFFER, 6, 40)

    def test_a_book_with_deaths(self):
        self.rounds(BOOK, 6, 60, kills=0.01)

    def test_a_slot_with_deaths(self):
        self.rounds(SLOT, 6, 60, kills=0.01)

    def test_a_buffer_with_deaths(self):
        self.rounds(BUFFER, 6, 60, kills=0.01)

    def test_sessions_that_the_server_ends(self):
        self.rounds(BOOK, 6, 60, disturb=ends_sessions(the_server(), 0.05), grace=LONGEST)

    def test_connections_that_are_cut(self):
        proxy = Cutting(the_server().port)
        self.addCleanup(proxy.close)
        url = the_server().tcp_url(port=proxy.port)
        for text in (BOOK, BUFFER):
            self.rounds(text, 4, 60, disturb=cuts(proxy, 0.3), url=url, grace=LONGEST)

    def test_a_server_that_dies(self):
        server = Server(wal_writer_delay="10s")
        self.addCleanup(server.end)
        self.rounds(BOOK, 6, 100, server=server, disturb=restarts(server, 3), grace=LONGEST)

    def moving(self, *given, **named):
        """While lines are moved, by who appends and by another, too."""
        with mock.patch.object(_served.segments, "KEPT", 3):
            self.rounds(*given, **{"room": 20, "disturb": moves_lines(the_server(), 0.05), **named})

    def test_lines_that_are_moved(self):
        for text in (BOOK, BUFFER):
            self.moving(text, 6, 60)
        self.moving(BOOK, 6, 60, disturb=None)

    def test_lines_that_are_moved_with_deaths(self):
        self.moving(BOOK, 6, 60, kills=0.01)
        self.moving(SLOT, 6, 60, kills=0.01, disturb=None)

    def test_lines_that_are_moved_and_connections_that_are_cut(self):
        proxy = Cutting(the_server().port)
        self.addCleanup(proxy.close)
        url = the_server().tcp_url(port=proxy.port)
        self.moving(BOOK, 4, 60, disturb=moves_lines(the_server(), 0.05, cuts(proxy, 0.3)), url=url, grace=LONGEST)

    def test_lines_that_are_moved_at_a_server_that_dies(self):
        server = Server(wal_writer_delay="10s")
        self.addCleanup(server.end)
        self.moving(BOOK, 6, 100, server=server, disturb=moves_lines(server, 0.05, restarts(server, 3)), grace=LONGEST)


@needs_server
@unittest.skipUnless(os.environ.get("WANZOCHE_WRONG"), "WANZOCHE_WRONG=yes tries wrong stores, by hand")
class WrongStores(unittest.TestCase):
    """One thing is changed in each, and a round has to find it."""

    def setUp(self):
        self.server = Server()
        self.addCleanup(self.server.end)
        Paths(BOOK, store=self.server.url, name="first").close()
        self.proxy = Cutting(self.server.port)
        self.addCleanup(self.proxy.close)
        self.cutting = {"disturb": cuts(self.proxy, 0.2), "url": self.server.tcp_url(port=self.proxy.port), "grace": 5.0}

    def found(self, *patches, sql="", text=BOOK, **named):
        """Changes the package, or what the server has of it."""
        if sql:
            self.server.run(sql)
        for patch in patches:
            patch.start()
            self.addCleanup(patch.stop)
        for _ in range(5):
            round = Round(text, 6, 60, server=self.server, **{"patience": 10, **named})
            wrong = round.run()
            if wrong or round.lost:
                print("{}: {}".format(self.id().rsplit(".")[-1], (wrong or ["lost {}".format(round.lost)])[:3]), file=sys.stderr)
                return
        self.fail("nothing was noticed")

    def test_a_right_one_passes(self):
        for named in ({}, self.cutting, {"kills": 0.05}):
            with self.assertRaisesRegex(AssertionError, "nothing was noticed"):
                self.found(**named)

    def test_a_right_one_that_looks_often_passes(self):
        with self.assertRaisesRegex(AssertionError, "nothing was noticed"):
            self.found(mock.patch.object(_served.times, "CHECK", 0.02), kills=0.05)

    def test_it_takes_the_living_for_dead(self):
        dead = "create or replace function wanzoche.dead(l int, workers int[], grace interval) returns setof int language sql as "
        # Who waits looks for the dead each second; here it does so before the round is over.
        self.found(mock.patch.object(_served.times, "CHECK", 0.02), sql=dead + "$$ select unnest(workers) $$")

    def test_it_appends_without_the_place(self):
        """A start goes behind whatever there is."""
        told = self.server.run("select pg_get_functiondef('wanzoche.starts_among'::regproc)")[0][0]
        wrong = told.replace("touches is null", "false").replace("found[1] = any (touches) or found[2] = any (ends)", "false")
        self.assertEqual(wrong.count("false"), 2)
        self.found(sql=wrong)

    def test_it_has_no_unique_finish(self):
        told = self.server.run("select pg_get_functiondef('wanzoche.put_finishes'::regproc)")[0][0]
        wrong = re.sub(r"\n\s+on conflict .* do nothing", "", told)
        self.assertNotEqual(told, wrong)
        self.found(sql="drop index wanzoche.line_finishes; " + wrong, **self.cutting)

    def test_it_has_no_grace(self):
        told = self.server.run("select pg_get_functiondef('wanzoche.dead'::regproc)")[0][0]
        wrong = told.replace("x.gone + grace <= clock_timestamp()", "true")
        self.assertNotEqual(told, wrong)
        self.found(sql=wrong, **self.cutting)

    def test_it_never_finishes_for_the_dead(self):
        self.found(mock.patch.object(_served.burying.Burying, "bury_dead", lambda self: False), kills=0.05, patience=8)

    def test_it_answers_before_the_line_lasts(self):
        self.server = Server(wal_writer_delay="10s")
        self.addCleanup(self.server.end)
        message, statements = "pg_logical_emit_message(true, 'wanzoche', '')", _served.statements.STATEMENTS
        patched = {name: statements[name].replace(message, "pg_current_xact_id()") for name in (b"lasts", b"line_lasts")}
        self.found(mock.patch.dict(_served.statements.STATEMENTS, patched), disturb=restarts(self.server, 3), grace=10.0)

    def test_it_wakes_nobody(self):
        wake = "create or replace function wanzoche.wake(l int, w int, operations int[]) returns void language sql as $$ $$"
        self.found(mock.patch.object(_served.times, "CHECK", 1000.0), sql=wake, patience=8)


if __name__ == "__main__":
    unittest.main()
