"""What a PostgreSQL server, or somebody else who uses it, does to the processes of a log: when it is over none is stuck, and none has
entered beside another."""

import gc
import os
import random
import shutil
import signal
import socket
import subprocess
import tempfile
import threading
import time
import unittest
from unittest import mock

from wanzoche import StoreError, _served

from .declarations import BOOK
from .limits import LONGEST
from .servers import SHORT_GRACE, OnServer, Server, needs_server, the_server
from .stores import THOROUGH
from .test_postgresql import Cutting
from .test_postgresql_many import Round, Worker

CANCELLED, NO_RIGHT, CUT = "57014", "42501", "cut"
PLACES = (0, 1, None) if THOROUGH else (1, None)
"""Behind how many statements of a call something goes wrong; None for all."""


class Faulty(OnServer):
    grace = SHORT_GRACE

    def all_enter(self, *all_paths):
        """Each enters alone, and is left: none is stuck."""
        for paths in all_paths:
            paths.enter("write", timeout=LONGEST).leave()

    def thread(self, work):
        """Begins a thread, which has to end in time and well."""
        errors = []

        def works():
            try:
                work()
            except BaseException as error:
                errors.append(error)

        thread = threading.Thread(target=works, daemon=True)
        thread.start()
        self.addCleanup(thread.join, LONGEST)
        return thread, errors

    def ends(self, *begun):
        for thread, errors in begun:
            thread.join(LONGEST)
            self.assertFalse(thread.is_alive(), "it never ends")
            self.assertEqual(errors, [])


@needs_server
class Notifications(Faulty, unittest.TestCase):
    """Whoever may connect to the database may notify whomever he likes."""

    PAYLOADS = ("x", "", "-1", "2", "99999999999999999999", "0_1", " 1", "+1", "\u0661", "1\n", "0", "1")

    def notify(self, paths, payload):
        told = "select pg_notify('wanzoche_' || log || '_' || %s, %s) from wanzoche.log where name = %s"
        self.server.run(told, paths.served.worker, payload, self.name)

    def listens(self, paths, beside):
        """Has waited once, so its session listens."""
        with beside("write"):
            with self.assertRaises(TimeoutError):
                paths.enter("write", timeout=0.05)

    def test_any_text_is_a_hint(self):
        a, b = self.open(BOOK), self.open(BOOK)
        self.listens(a, b)
        with a("write") as entry:
            for payload in self.PAYLOADS:
                self.notify(a, payload)
                self.assertEqual(entry.look(), 0, repr(payload))
            time.sleep(3 * self.grace)  # one that has lost its session is taken for dead by then
            self.assertIsNone(b.try_enter("read"))
        self.assertEqual((a.worker, b.worker), ("process 1", "process 2"))
        self.all_enter(a, b)
        self.assertTrue(a.audit())

    def test_who_waits_for_the_session_itself(self):
        a, b = self.open(BOOK), self.open(BOOK)
        entry, tokens = a.enter("write"), []
        waits = self.thread(lambda: tokens.append(b.enter("read", timeout=LONGEST).token))
        self.until(lambda: b.waiting() == {"read": 1})
        for payload in self.PAYLOADS:
            self.notify(b, payload)
        time.sleep(0.1)
        entry.leave()
        self.ends(waits)
        self.assertEqual(tokens, [1])


class Failing:
    """The calls of a session, some of which go wrong, from one on: before it, behind its first statement, or behind all of it. Each is
    refused with a code, or its session is cut."""

    def __init__(self, session, number, behind, codes):
        self._session, self._call, self._left, self._behind, self._codes = session, session.call, number, behind, list(codes)

    def __call__(self, calls, until):
        self._left -= 1
        if self._left > 0 or self.is_over():
            return self._call(calls, until)
        if self._behind != 0:
            self._call(calls[: self._behind], until)
        code = self._codes.pop(0)
        if code == CUT:
            self._session.close()
            raise _served.connecting.Cut("as if")
        raise _served.session.Complaint(code, "as if", "")

    def is_over(self):
        return not self._codes


@needs_server
class Refusals(Faulty, unittest.TestCase):
    """Each call of a process is refused, one after another, at each place where it can be."""

    grace = float(LONGEST)

    def setUp(self):
        super().setUp()
        self.a, self.b = self.open(BOOK), self.open(BOOK)
        self.told = 0

    def tries(self, step):
        try:
            return step()
        except StoreError as error:
            self.assertRegex(str(error), "^the log .*: as if$")
            self.told += 1

    def leaves(self, entry):
        """Until it is left."""
        is_left = entry is None
        while not is_left:
            is_left = self.tries(lambda: entry.leave() is None)

    def enters(self, operation, timeout=LONGEST):
        self.leaves(self.tries(lambda: self.a.enter(operation, timeout=timeout)))

    def scenario(self):
        """A device, a wait, several at once, and questions."""
        entry = self.tries(lambda: self.a.enter("write"))
        if entry is not None:
            self.tries(lambda: entry.put(7))
            self.assertIn(self.tries(entry.look), (7, 0, None))
            self.leaves(entry)
        with self.b("write"):
            self.assertIsNone(self.tries(lambda: self.a.try_enter("read")))
            waits = self.thread(lambda: self.enters("read"))
            self.until(lambda: self.a.waiting() or not waits[0].is_alive())
        self.ends(waits)
        clerk = self.a.served.clerk
        with clerk.desk.lock:  # so that all go in one turn
            waits = [self.thread(lambda: self.enters("read")) for _ in range(3)]
            self.until(lambda: len(clerk.wanted.inbox) == 3)
        self.ends(*waits)
        told = self.tries(self.a.report)
        self.assertEqual(told and told.live, told and ())

    def each(self, behind, *codes):
        session, number, is_over = self.a.served.log.session, 0, True
        while is_over:
            number += 1
            failing = Failing(session, number, behind, codes)
            with self.subTest(codes=codes, behind=behind, number=number), mock.patch.object(session, "call", failing):
                self.scenario()
                is_over = failing.is_over()
                self.assertEqual(self.server.run("select pid from pg_stat_activity where state like 'idle in transaction%'"), [])
            self.all_enter(self.a, self.b)
            self.assertEqual(self.b.report().live, ())
        self.assertGreater(number, 10)
        self.assertEqual((self.a.worker, self.b.worker), ("process 1", "process 2"))
        self.assertTrue(self.a.audit())

    def test_a_call_that_is_cancelled_is_made_again(self):
        for behind in PLACES:
            self.each(behind, CANCELLED)
            self.each(behind, CANCELLED, CANCELLED, CANCELLED)
        self.assertEqual(self.told, 0)

    def test_nothing_is_done_twice(self):
        """What was done is found, and isn't done again."""
        self.name += " of sums"
        paths, sums = self.open("resource sum tally operation count path count end end"), []
        session = paths.served.log.session
        for number in range(1, 6):
            for behind in (1, None):
                for code in (CANCELLED, CUT):
                    with mock.patch.object(session, "call", Failing(session, number, behind, [code])):
                        with paths("count", timeout=LONGEST) as entry:
                            sums.append(entry.add(1))
        self.assertEqual(sums, list(range(1, 21)))
        self.assertEqual([line.split()[1] for line in self.lines()], 20 * ["start", "use", "finish"])

    def test_what_was_done_is_not_refused(self):
        """Though a call behind it was."""
        session = self.a.served.log.session
        for _ in range(2):
            with mock.patch.object(session, "call", Failing(session, 1, None, [NO_RIGHT])):
                entry = self.a.enter("write", timeout=LONGEST)
            with mock.patch.object(session, "call", Failing(session, 1, None, [NO_RIGHT])):
                entry.leave()

    def test_what_was_finished_is_not_finished_again(self):
        """By who drops an entry, is refused, is cancelled though it was done, and finds that line in a segment."""
        entry, session, finishes = self.a.enter("read"), self.a.served.log.session, []
        call = session.call

        def failing(calls, until):
            if calls[0].name not in (b"put_finish", b"finish", b"append"):
                return call(calls, until)
            finishes.append(calls[0].name)
            if len(finishes) == 1:
                raise _served.session.Complaint(NO_RIGHT, "as if", "")
            found = call(calls, until)
            if len(finishes) == 2:
                self.b.enter("read").leave()
                self.b.rotate()
                raise _served.session.Complaint(CANCELLED, "as if", "")
            return found

        with mock.patch.object(session, "call", failing):
            del entry
            gc.collect()
            self.until(lambda: len(finishes) > 1 and self.a.served.clerk.desk.is_asleep)
        self.all_enter(self.a, self.b)
        self.assertEqual(self.b.journal().count("finish 0: finished"), 1)
        self.assertTrue(self.b.audit())

    def waiting(self):
        """The workers that wait, as far as the server knows."""
        told = "select worker from wanzoche.waiter join wanzoche.log using (log) where name = %s and since is not null"
        return {worker for (worker,) in self.server.run(told, self.name)}

    def test_who_was_refused_waits_no_more(self):
        """The server has heard that it waits, and it was told that this was refused: another is woken in its place."""
        c, session = self.open(BOOK), self.a.served.log.session
        with mock.patch.object(_served.times, "CHECK", 1000.0):  # nobody looks by itself so soon
            entry = self.b.enter("write")
            self.a.report()
            with mock.patch.object(session, "call", Failing(session, 1, None, [NO_RIGHT])):
                self.assertRaises(StoreError, self.a.enter, "read")
            waits = self.thread(lambda: c.enter("read").leave())
            self.until(lambda: 3 in self.waiting())
            entry.leave()
            self.ends(waits)

    def test_who_is_cut_off_hands_its_wake_on(self):
        """One that was woken first wakes the next, though a call of it is cancelled."""
        c, session = self.open(BOOK), self.a.served.log.session
        with mock.patch.object(_served.times, "CHECK", 1000.0):
            for number in range(1, 6):
                for behind in (0, None):
                    entry = self.b.enter("write", timeout=LONGEST)
                    waits, entered = [], []
                    for paths, worker in ((self.a, 1), (c, 3)):
                        waits.append(self.thread(lambda: entered.append(paths.enter("read"))))
                        self.until(lambda: worker in self.waiting())
                    with mock.patch.object(session, "call", Failing(session, number, behind, [CANCELLED])):
                        entry.leave()
                        self.ends(*waits)
                    for each in entered:
                        each.leave()

    def test_a_call_that_is_refused(self):
        for behind in PLACES:
            self.each(behind, NO_RIGHT)
            self.each(behind, NO_RIGHT, NO_RIGHT, NO_RIGHT)
        self.assertGreater(self.told, 20)

    def statements_behind(self, code, step):
        """What a step gives, and the statements that are called behind the first, which goes wrong though it was done."""
        session, names = self.a.served.log.session, []
        failing = Failing(session, 1, 1, [code])

        def noted(calls, until):
            found = failing(calls, until)
            names.extend(call.name for call in calls)
            return found

        with mock.patch.object(session, "call", noted):
            return step(), set(names)

    def test_who_is_answered_finds_the_line_on_the_disk(self):
        """Also where the wait for the disk was cancelled, or its session cut."""
        for code in (CANCELLED, CUT):
            self.a.enter("read").leave()
            entry, names = self.statements_behind(code, lambda: self.a.enter("write", timeout=LONGEST))
            self.assertTrue(names & {b"lasts", b"line_lasts"}, names)
            _, names = self.statements_behind(code, entry.leave)
            self.assertTrue(names & {b"lasts", b"line_lasts"}, names)

    def test_a_session_that_is_cut_as_well(self):
        for behind in PLACES[1:]:
            self.each(behind, CANCELLED, CUT)
            self.each(behind, CUT, CANCELLED)
        self.assertEqual(self.told, 0)
        self.each(None, NO_RIGHT, CUT, NO_RIGHT)


@needs_server
class Rights(Faulty, unittest.TestCase):
    """Of a role that isn't the owner, which are taken away while it has a log open, and given back."""

    def setUp(self):
        super().setUp()
        self.b = self.open(BOOK)
        self.server.run("create role app login")
        self.addCleanup(self.server.run, "drop owned by app; drop role app")
        self.server.run("grant usage on schema wanzoche to app")
        self.server.run("grant select, insert, update, delete on all tables in schema wanzoche to app")
        self.a = self.open(BOOK, store=self.server.url.replace("postgres@", "app@"), outage=4 * LONGEST)

    def test_a_call_behind_the_line(self):
        """The line is there, and what is called behind it is refused, or to read what others have appended: nobody holds what was started."""
        for function in ("pg_logical_emit_message(boolean, text, text)", "wanzoche.since(int, bigint, bigint)"):
            with self.subTest(function):
                self.server.run("revoke execute on function {} from public".format(function))
                try:
                    for _ in range(3):
                        self.all_enter(self.b)
                        with self.assertRaisesRegex(StoreError, "permission denied for function"):
                            self.a.enter("write")
                finally:
                    self.server.run("grant execute on function {} to public".format(function))
                self.all_enter(self.b, self.a)
        self.assertTrue(self.a.audit())

    def test_who_is_refused_is_told_soon_and_keeps_what_it_has(self):
        kept = self.a.enter("read")
        for right in ("select", "insert"):
            with self.subTest(right):
                self.server.run("revoke {} on wanzoche.line from app".format(right))
                try:
                    begun = time.monotonic()
                    for _ in range(3):
                        with self.assertRaisesRegex(StoreError, "permission denied for table line"):
                            self.a.enter("read")
                    with self.assertRaisesRegex(StoreError, "permission denied for table line"):
                        kept.leave()
                    self.assertLess(time.monotonic() - begun, LONGEST)
                    time.sleep(3 * self.grace)
                    self.assertIsNone(self.b.try_enter("write"))
                finally:
                    self.server.run("grant {} on wanzoche.line to app".format(right))
                self.a.enter("read", timeout=LONGEST).leave()
        kept.leave()
        self.all_enter(self.b, self.a)
        self.assertEqual((self.a.worker, self.a.report().live), ("process 2", ()))
        self.assertTrue(self.a.audit())


    def test_it_is_asked_later_and_later(self):
        """What nobody leaves is finished when that can be, and until then few calls are made."""
        entry, session, calls = self.a.enter("write"), self.a.served.log.session, []
        call = session.call
        self.server.run("revoke insert on wanzoche.line from app")
        try:
            with mock.patch.object(session, "call", lambda *given: (calls.append(1), call(*given))[1]):
                begun = time.monotonic()
                del entry
                gc.collect()
                time.sleep(2)
                self.until(lambda: len(calls) > 1)
                self.assertLess(len(calls), 40 * (time.monotonic() - begun))
        finally:
            self.server.run("grant insert on wanzoche.line to app")
        self.all_enter(self.b, self.a)

    def test_a_close_that_is_refused(self):
        kept = self.a.enter("write")
        self.server.run("revoke insert on wanzoche.line from app")
        try:
            with mock.patch.object(_served.times, "CLOSING", 1.0):
                with self.assertRaisesRegex(StoreError, "permission denied for table line"):
                    self.a.close()
            self.assertTrue(kept)
        finally:
            self.server.run("grant insert on wanzoche.line to app")
        self.all_enter(self.b)


@needs_server
class Odd(Faulty, unittest.TestCase):
    def test_an_error_that_nobody_foresaw(self):
        """Who asks is told, and nobody enters beside the process that has it."""
        a, b = self.open(BOOK), self.open(BOOK)
        entry, odd = a.enter("write"), mock.Mock(side_effect=ValueError("odd"))
        with mock.patch.object(a.served.log.known, "follow", odd), mock.patch.object(a.served.log.waits, "look", odd):
            for call in (a.report, lambda: a.try_enter("read"), lambda: a.why("read")):
                with self.assertRaisesRegex(ValueError, "^odd$"):
                    call()
            time.sleep(3 * self.grace)
            self.assertIsNone(b.try_enter("write"))
        entry.leave()
        self.all_enter(b, a)
        self.assertEqual(a.worker, "process 1")


@needs_server
class Dropped(Faulty, unittest.TestCase):
    def test_what_nobody_leaves_is_left_later(self):
        """Also when the server was away for longer than an outage may last."""
        proxy = Cutting(self.server.port)
        self.addCleanup(proxy.close)
        a, b = self.open(BOOK, store=self.server.tcp_url(port=proxy.port), outage=0.3, grace=60), self.open(BOOK, grace=60)
        entry = self.answered(lambda: a.enter("write"))
        proxy.is_open = False
        proxy.cut()
        del entry
        gc.collect()
        time.sleep(0.5)
        with self.assertRaisesRegex(StoreError, "the server doesn't answer"):
            a.report()
        proxy.is_open = True
        self.all_enter(b)
        self.answered(self.answered(lambda: a.enter("write", timeout=LONGEST)).leave)
        self.assertEqual(a.worker, "process 1")


@needs_server
class Traps(Faulty, unittest.TestCase):
    """Functions and operators in `public` that fit better than those of the system, and note who runs them."""

    OPERATORS = (
        ("||", "int", "text", "text"),
        ("||", "text", "int", "text"),
        ("||", "text", "bigint", "text"),
        ("|", "bigint", "int", "bigint"),
        ("*", "float8", "bigint", "float8"),
        ("<>", "int[]", "int[]", "boolean"),
        ("<>", "bigint[]", "bigint[]", "boolean"),
    )
    FUNCTIONS = (
        ("unnest", "int[]", "setof int", "return query select pg_catalog.unnest(a)"),
        ("unnest", "bigint[]", "setof bigint", "return query select pg_catalog.unnest(a)"),
        ("cardinality", "bigint[]", "int", "return pg_catalog.cardinality(a)"),
    )

    def setUp(self):
        super().setUp()
        self.server = Server()
        self.addCleanup(self.server.end)
        told = "create role app login; create role mallory; grant create on database postgres to app; "
        told += "grant create on schema public to mallory; set role mallory; create table public.caught (who text, what text); "
        told += "grant insert on public.caught to public; "
        for number, (name, left, right, result) in enumerate(self.OPERATORS):
            does = "return a operator(pg_catalog.{}) b".format(name)
            told += self.trap("trap{}".format(number), "a {}, b {}".format(left, right), result, does)
            told += "create operator public.{} (leftarg = {}, rightarg = {}, function = trap{}); ".format(name, left, right, number)
        for name, given, result, does in self.FUNCTIONS:
            told += self.trap(name, "a {}".format(given), result, does)
        self.server.run(told)
        self.url = self.server.url.replace("postgres@", "app@")

    def trap(self, name, given, result, does):
        told = "create function public.{0}({1}) returns {2} language plpgsql as $$ begin "
        return (told + "insert into public.caught values (current_user, '{0}({1})'); {3}; end $$; ").format(name, given, result, does)

    def caught(self):
        return self.server.run("select distinct what from public.caught where who = 'app'")

    def run_as_app(self, told, *values):
        with mock.patch.object(Server, "url", self.url):
            return self.server.run(told, *values)

    def test_nobody_runs_them(self):
        """Who makes the schema, appends, waits, wakes, looks for the dead, moves lines, and comes back."""
        a, b = self.open(BOOK, store=self.url), self.open(BOOK, store=self.url)
        entry, number = a.enter("write"), a.served.worker
        waits = [self.thread(lambda: b.enter("read", timeout=LONGEST).leave()) for _ in range(2)]
        self.until(lambda: b.waiting() == {"read": 2})
        entry.put(3)
        entry.leave()
        self.ends(*waits)
        self.dies(lambda: setattr(self, "kept", self.made(BOOK, store=self.url).enter("write")))
        self.all_enter(a, b)
        b.enter("read").leave()
        a.rotate()
        self.server.run("select pg_terminate_backend(pid) from pg_stat_activity where application_name = 'wanzoche'")
        self.all_enter(b, a)
        self.assertEqual(a.served.worker, number)
        self.assertTrue(a.audit())
        a.close()
        b.close()
        self.assertIn("start write", self.run_as_app("select wanzoche.journal(%s, 1)", self.name)[0][0])
        self.until(lambda: self.run_as_app("select wanzoche.remove(%s)", self.name) == [(True,)])
        self.assertEqual(self.caught(), [])

    def test_each_function_is_bound(self):
        """It has a search_path of its own, or was read when it was made."""
        self.open(BOOK, store=self.url)
        told = "select proname from pg_proc where pronamespace = 'wanzoche'::regnamespace and prosqlbody is null "
        told += "and coalesce(proconfig, '{}') <> '{\"search_path=pg_catalog, pg_temp\"}'"
        self.assertEqual(self.server.run(told), [])

    def test_the_schema_is_made_in_one_transaction(self):
        with open(_served.schema.SCRIPT) as file:
            script = file.read()
        first = script[script.index("do $$ begin") : script.index("end $$;") + len("end $$;")]
        with self.assertRaisesRegex(Exception, "run this in one transaction"):
            self.server.run(first)


@needs_server
class Removals(Faulty, unittest.TestCase):
    """A log is removed when nobody can come back to it."""

    grace = 2.0

    def removes(self):
        return self.server.run("select wanzoche.remove(%s)", self.name)[0][0]

    def test_one_that_was_stopped_and_has_lost_its_session(self):
        """It has its grace, as if others were to finish what it has."""
        (told, tells), (goes, go) = os.pipe(), os.pipe()
        self.addCleanup(os.close, go)
        child = self.child(lambda: self.holds(tells, goes))
        self.addCleanup(os.waitpid, child, 0)
        self.addCleanup(os.kill, child, signal.SIGKILL)
        os.close(tells)
        with os.fdopen(told) as lines:
            self.assertEqual(lines.readline(), "in\n")
            os.kill(child, signal.SIGSTOP)
            ends = "select pg_terminate_backend(pid, 5000) from pg_stat_activity where application_name = 'wanzoche' and pid <> %s"
            begun = time.monotonic()
            self.server.run(ends, 0)
            self.assertFalse(self.removes())
            self.assertIsNone(self.open(BOOK).try_enter("read"))
            self.assertFalse(self.removes())
            for paths in self.opened:
                paths.close()
            self.until(self.removes)
            self.assertGreater(time.monotonic() - begun, self.grace)
            self.open(BOOK).enter("write").leave()
            os.kill(child, signal.SIGCONT)
            os.write(go, b"x")
            self.assertRegex(lines.readline(), "^StoreError: the log .* was removed\n$")

    def holds(self, tells, goes):
        """In a child: what it says before it leaves, and then."""
        entry = self.made(BOOK, lost="keep").enter("write")
        os.write(tells, b"in\n")
        os.read(goes, 1)
        try:
            entry.leave()
        except Exception as error:
            os.write(tells, "{}: {}\n".format(type(error).__name__, error).encode())

    def open(self, *given, **named):
        self.opened = getattr(self, "opened", [])
        self.opened.append(super().open(*given, **named))
        return self.opened[-1]

    def test_one_that_closes_has_no_grace(self):
        self.grace = 4.0 * LONGEST
        self.open(BOOK).close()
        self.until(self.removes)
        self.assertFalse(self.removes())

    def test_one_that_dies_has_it(self):
        begun, held = time.monotonic(), []
        self.dies(lambda: held.append(self.made(BOOK)))  # which nobody drops, as that is a close
        self.until(self.removes)
        self.assertGreater(time.monotonic() - begun, self.grace - 0.1)

    def test_one_that_arrives_meanwhile(self):
        """Before the log is removed, or behind that: then it makes another."""
        self.open(BOOK).close()
        self.until(lambda: not self.server.run("select from pg_locks where locktype = 'advisory'"))
        found = []
        with self.connection() as arrives:
            arrives.execute("select wanzoche.arrive(log, '', 3, '2 seconds') from wanzoche.log where name = %s", [self.name])
            removes = self.thread(lambda: found.append(self.removes()))
            time.sleep(0.3)
            arrives.execute("commit")
            self.ends(removes)
            self.assertEqual(found, [False])
            arrives.execute("select wanzoche.leave(log, 2) from wanzoche.log where name = %s", [self.name])
        with self.connection() as removes:
            self.assertEqual(removes.execute("select wanzoche.remove(%s)", [self.name]).fetchall(), [(True,)])
            opens = self.thread(lambda: found.append(self.open(BOOK)))
            time.sleep(0.3)
            removes.execute("commit")
            self.ends(opens)
        self.all_enter(found[1])
        self.assertEqual((found[1].worker, self.lines()[0]), ("process 1", "1 start write: started 0"))

    def connection(self):
        import psycopg

        return psycopg.connect(self.server.url, gssencmode="disable")


POOLER = shutil.which("pgbouncer", path=os.environ.get("PATH", "") + ":/usr/sbin")


class Pooler:
    """pgbouncer before a server."""

    def __init__(self, test, server, **settings):
        with socket.socket() as free:
            free.bind(("127.0.0.1", 0))
            self.port = free.getsockname()[1]
        told = ["[databases]", "postgres = host={} port={} user=postgres".format(server.folder, server.port), "[pgbouncer]"]
        told += ["listen_addr = 127.0.0.1", "listen_port = {}".format(self.port), "unix_socket_dir =", "auth_type = any"]
        told += ["{} = {}".format(*each) for each in settings.items()]
        with tempfile.NamedTemporaryFile("w", prefix="wanzoche-", dir=server.folder, delete=False) as file:
            file.write("\n".join(told) + "\n")
        os.chmod(file.name, 0o644)
        self._process = subprocess.Popen([POOLER, "-q", file.name], cwd="/", preexec_fn=server._become, stderr=subprocess.DEVNULL)
        test.addCleanup(self._process.wait)
        test.addCleanup(self._process.kill)
        test.until(self.is_there)
        self.url = server.tcp_url(port=self.port)

    def is_there(self):
        try:
            socket.create_connection(("127.0.0.1", self.port)).close()
            return True
        except OSError:
            return False

    def connection(self):
        """Another client."""
        import psycopg

        return psycopg.connect(self.url, autocommit=True, gssencmode="disable")


@needs_server
@unittest.skipUnless(POOLER, "there is no pgbouncer here")
class Poolers(Faulty, unittest.TestCase):
    def setUp(self):
        super().setUp()
        patched = mock.patch.object(_served.beginning, "BESIDE", LONGEST)
        patched.start()
        self.addCleanup(patched.stop)

    def others(self, pooler, transactions):
        """Clients that have transactions at once, and then one after another, so that the pool has several sessions."""
        clients = [pooler.connection() for _ in range(transactions)]
        for client in clients:
            self.addCleanup(client.close)
        for told in ("begin", "rollback"):
            for client in clients:
                client.execute(told)

    def test_one_that_keeps_no_sessions(self):
        for mode in ("transaction", "statement"):
            for settings in ({}, {"default_pool_size": 1}, {"server_round_robin": 1}):
                for transactions in (0, 3) if mode == "transaction" and not settings.get("default_pool_size") else (0,):
                    with self.subTest(mode=mode, settings=settings, transactions=transactions):
                        pooler = Pooler(self, self.server, pool_mode=mode, **settings)
                        self.others(pooler, transactions)
                        with self.assertRaisesRegex(StoreError, "^a pooler stands before the server .* name the server itself"):
                            self.made(BOOK, store=pooler.url)

    def test_one_that_keeps_them(self):
        pooler = Pooler(self, self.server, pool_mode="session")
        a, b = self.open(BOOK, store=pooler.url), self.open(BOOK)
        self.all_enter(a, b, a)
        self.assertTrue(a.audit())

    def test_one_that_has_no_other(self):
        """Only one session, which is kept."""
        with mock.patch.object(_served.beginning, "BESIDE", 0.3):
            pooler = Pooler(self, self.server, pool_mode="session", default_pool_size=1)
            a = self.open(BOOK, store=pooler.url)
            self.all_enter(a)
            self.assertTrue(a.audit())

    def test_nothing_of_the_pool_is_changed(self):
        """Whoever gets the session next finds it as it was."""
        pooler = Pooler(self, self.server, pool_mode="transaction", default_pool_size=1)
        client = pooler.connection()
        self.addCleanup(client.close)
        before = client.execute("select name, setting from pg_settings order by name").fetchall()
        with self.assertRaises(StoreError):
            self.made(BOOK, store=pooler.url)
        after = client.execute("select name, setting from pg_settings order by name").fetchall()
        self.assertEqual(set(after) - set(before), set())


class Enters(Worker):
    """Enters one thing after another until a file is there."""

    def run(self, entries):
        paths = self.opened()
        while not os.path.exists(self.round.folder + "/over"):
            operation = random.choice(paths.operations)
            entry = paths.enter(operation, timeout=LONGEST)
            self.note("entered", entry.token, operation)
            self.body(operation, entry.token)
            token = entry.token
            entry.leave()
            self.note("left", token)
        paths.close()


class Disturbed(Round):
    """Processes that enter until a fault is over, and each again behind it."""

    worker = Enters

    def __init__(self, fault, text=BOOK, **named):
        super().__init__(text, 5, 1, server=the_server(), disturb=self.disturbs, grace=LONGEST, **named)
        self.fault = fault

    def disturbs(self, over, chance, noted, round):
        try:
            self.all_enter()
            self.fault(chance)
            self.all_enter()
        except Exception as error:
            self.wrong.append(str(error))
        finally:
            with open(self.folder + "/over", "w"):
                pass

    def all_enter(self):
        """Each, from now on."""
        names = [os.path.join(self.folder, "notes.{}".format(number)) for number in range(self.processes)]
        before, until = [self.left(name) for name in names], time.monotonic() + LONGEST
        while any(self.left(name) <= count for name, count in zip(names, before)):
            if time.monotonic() > until:
                raise AssertionError("somebody enters nothing in {} seconds".format(LONGEST))
            time.sleep(0.01)

    def left(self, name):
        """How often."""
        if not os.path.exists(name):
            return 0
        with open(name) as file:
            return sum(line.startswith("left") for line in file)


@needs_server
class Cancellations(unittest.TestCase):
    """A call that is cancelled is made again: nobody hears of it."""

    def is_right(self, fault, **named):
        round = Disturbed(fault, **named)
        wrong = round.run()
        self.assertEqual((wrong, round.lost), ([], 0), wrong)

    def test_a_statement_that_takes_too_long(self):
        """While somebody has locked a table."""
        heartbeat = _served.beginning.HEARTBEAT.replace("statement_timeout = 60000", "statement_timeout = 1000")
        self.assertNotEqual(heartbeat, _served.beginning.HEARTBEAT)

        def locks(chance):
            for table in ("line", "waiter"):
                the_server().run("begin; lock table wanzoche.{}; select pg_sleep(1.4); commit".format(table))
                time.sleep(chance.random() * 0.3)

        with mock.patch.object(_served.beginning, "HEARTBEAT", heartbeat):
            self.is_right(locks)

    def test_statements_that_somebody_cancels(self):
        told = "select pg_cancel_backend(pid) from (select pid from pg_stat_activity where application_name = 'wanzoche' "
        told += "order by state = 'idle', random() limit 1) x"

        def cancels(chance):
            import psycopg

            with psycopg.connect(the_server().url, autocommit=True, gssencmode="disable") as connection:
                for _ in range(300):
                    connection.execute(told)
                    time.sleep(chance.random() * 0.01)

        self.is_right(cancels)


if __name__ == "__main__":
    unittest.main()
