"""What entries, refusals, reports and journals are."""

import asyncio
import concurrent.futures
import copy
import gc
import inspect
import math
import multiprocessing
import os
import pathlib
import pickle
import pydoc
import re
import subprocess
import sys
import threading
import time
import unittest
import warnings
import weakref
from unittest import mock

import wanzoche
from wanzoche import (
    Blocked,
    Closed,
    DeclarationError,
    Forked,
    JournalError,
    NoJournal,
    NotInProgress,
    OutOfRoom,
    Paths,
    Timeout,
    UnknownOperation,
    UseRefused,
)

from .declarations import BOOK, LINE, SLOT
from .interrupts import may_leave_unused
from .limits import LONGEST


OWN = "nobody else can help before this is left: {} by thread 1"
"""What is said, too, where the thread that asks has it in progress itself."""


class Entries(unittest.TestCase):
    def test_deposit_and_removal_alternate(self):
        paths = Paths(SLOT)
        with paths("deposit") as entry:
            self.assertEqual(entry.put(7), 0)
            self.assertEqual(entry.activation, 0)
        self.assertFalse(paths.can_start("deposit"))
        with paths("remove") as entry:
            self.assertEqual(entry.look(), 7)
        self.assertTrue(paths.can_start("deposit"))
        self.assertEqual(
            paths.journal(),
            "1 start deposit: started 0\n1 use 0 put 7: used 0\n1 finish 0: finished\n"
            "1 start remove: started 1\n1 use 1 look: used 7\n1 finish 1: finished\n",
        )
        self.assertEqual(str(paths.audit()), "sound")

    def test_an_exception_in_the_body_finishes_it(self):
        paths = Paths(SLOT)
        with self.assertRaises(ZeroDivisionError):
            with paths("deposit"):
                1 // 0
        self.assertTrue(paths.can_start("remove"))

    def test_an_entry_is_left_once(self):
        paths = Paths(SLOT)
        entry = paths.enter("deposit")
        entry.leave()
        with self.assertRaises(NotInProgress):
            entry.leave()
        with self.assertRaises(NotInProgress):
            entry.put(1)
        with paths("remove") as entry:
            entry.leave()  # the end of the `with` has nothing left to do

    def test_an_entry_may_be_entered_again_when_it_is_over(self):
        paths = Paths(BOOK)
        write = paths("write")
        for _ in range(3):
            with write:
                with self.assertRaises(RuntimeError):
                    write.__enter__()

    def test_an_entry_that_nobody_holds_is_finished(self):
        paths = Paths(BOOK)
        with self.assertWarnsRegex(ResourceWarning, "^an entry of write was dropped in progress, and is finished now$"):
            paths.enter("write")
            gc.collect()
        self.assertEqual(paths.report().live, ())
        paths.enter("read").leave()  # over

    def test_a_guarded_function_is_the_operation(self):
        paths = Paths(BOOK)

        @paths.guards("write")
        def store(number):
            """Stores."""
            self.assertEqual(paths.report().live[0].operation, "write")
            return number + 1

        self.assertEqual(store(1), 2)
        self.assertEqual(store.__doc__, "Stores.")
        self.assertEqual(paths.report().live, ())
        with self.assertRaises(TypeError):

            @paths.guards("write")
            def numbers():
                yield 1

    def test_devices_answer(self):
        paths = Paths(LINE)
        for number in (5, 6):
            with paths("put") as entry:
                entry.put(number)
        with paths("get") as entry:
            self.assertEqual(entry.take(), 5)
            self.assertEqual(entry.look(), 6)
            with self.assertRaisesRegex(UseRefused, "^add 3 in get: not offered: line is a queue 8, which has put, take and look$"):
                entry.add(3)
            with self.assertRaises(OverflowError):
                entry.put(1 << 64)
            for wrong in ("5", 5.0, None):
                with self.assertRaisesRegex(TypeError, "^a device holds whole numbers, not {!r}$".format(wrong)):
                    entry.put(wrong)


class Signatures(unittest.TestCase):
    """What help and editors tell of paths is what their calls take."""

    def test_of_the_class(self):
        names = list(inspect.signature(wanzoche.Paths).parameters)
        self.assertEqual(names[:4], ["text", "room", "log", "journal"])
        told = "".join(pydoc.render_doc(wanzoche.Paths, renderer=pydoc.plaintext).replace("|", "").split())
        self.assertTrue("Paths(text:'Union[str,bytes]',*,room:" in told, "help doesn't say what Paths takes")
        self.assertEqual(list(inspect.signature(wanzoche.StoredPaths).parameters)[:2], ["text", "store"])

    def test_of_a_class_of_ones_own(self):
        class Own(wanzoche.Paths):
            def __init__(self, first, second):
                super().__init__(SLOT)

        class Same(wanzoche.Paths):
            pass

        self.assertEqual(list(inspect.signature(Own).parameters), ["first", "second"])
        self.assertEqual(inspect.signature(Same), inspect.signature(wanzoche.Paths))

    def test_of_calls(self):
        paths = Paths(SLOT)
        for call in (paths, paths.enter, paths.aio, paths.guards):
            found = inspect.signature(call).parameters
            self.assertEqual([(each.name, each.default) for each in found.values()], [("operation", inspect.Parameter.empty), ("timeout", None), ("priority", 0)])
        with paths("deposit") as entry:
            for call in (entry.leave, entry.__enter__):
                self.assertEqual(str(inspect.signature(call)).split(" ->")[0], "()")


class Unused(unittest.TestCase):
    """An entry that is dropped before anybody has entered it is a `with` that was forgotten."""

    def told_of(self, call):
        """What the warnings say, and of which lines, when a call has dropped what it made."""
        with warnings.catch_warnings(record=True) as told:
            warnings.simplefilter("always")
            call()
            gc.collect()
        self.assertEqual({(each.category, each.filename) for each in told} - {(ResourceWarning, __file__)}, set())
        return [str(each.message) for each in told]

    def test_a_call_without_with(self):
        paths = Paths(SLOT)
        told = ["an entry of deposit was dropped, and nobody had entered it: write `with paths('deposit'):`"]
        self.assertEqual(self.told_of(lambda: paths("deposit")), told)
        self.assertEqual(self.told_of(lambda: [paths("deposit", timeout=1)]), told)
        aio = ["an entry of deposit was dropped, and nobody had entered it: write `async with paths.aio('deposit'):`"]
        self.assertEqual(self.told_of(lambda: paths.aio("deposit")), aio)
        self.assertEqual(str(paths.journal()), "")

    def test_a_circle_without_with(self):
        paths = Paths(SLOT)

        class Holder:
            pass

        def holds():
            holder = Holder()
            holder.own, holder.entry = holder, paths("remove")

        self.assertEqual(len(self.told_of(holds)), 1)

    def test_nothing_else_that_is_legal(self):
        paths, closed = Paths(SLOT), Paths(SLOT)
        closed.close()

        @paths.guards("deposit", timeout=0)
        def deposits():
            pass

        async def enters(operation, timeout=None):
            async with paths.aio(operation, timeout):
                pass

        async def is_cancelled():
            task = asyncio.ensure_future(enters("remove"))
            await asyncio.sleep(0.01)
            task.cancel()
            with self.assertRaises(asyncio.CancelledError):
                await task

        def refused(error, call):
            with self.assertRaises(error):
                call()

        def uses():
            again = paths("deposit")
            with again:
                refused(RuntimeError, again.__enter__)
            self.assertIsNone(paths.try_enter("deposit"))
            refused(Timeout, deposits)
            refused(Timeout, lambda: paths.enter("deposit", timeout=0.001))
            refused(Timeout, lambda: asyncio.run(enters("deposit", 0)))
            paths.try_enter("remove").leave()
            asyncio.run(is_cancelled())
            refused(Closed, lambda: closed.enter("deposit"))
            refused(Closed, lambda: closed.try_enter("deposit"))
            refused(UnknownOperation, lambda: paths("nothing"))
            refused(TypeError, lambda: paths("deposit", timeout="soon"))

        self.assertEqual(self.told_of(uses), [])

    def test_nothing_of_one_that_found_no_room(self):
        paths = Paths(SLOT, room=1)

        def enters():
            with self.assertRaises(wanzoche.OutOfRoom):
                paths.enter("deposit")

        self.assertEqual(self.told_of(enters), [])

    def test_the_wrong_with_is_told_once(self):
        paths = Paths(SLOT)

        async def enters(entry):
            async with entry:
                pass

        def enters_as_a_thread():
            with self.assertRaises(TypeError), paths.aio("deposit"):
                pass
            with self.assertRaises(TypeError):
                asyncio.run(enters(paths("deposit")))

        self.assertEqual(self.told_of(enters_as_a_thread), [])

    def test_the_wrong_with_of_one_in_progress(self):
        """It is left all the same."""
        paths = Paths(BOOK)
        write, aio = paths("write"), paths.aio("write")

        async def enters(entry):
            async with entry:
                with self.assertRaises(TypeError), aio:
                    pass

        with write, self.assertRaises(TypeError):
            asyncio.run(enters(write))
        self.assertEqual(paths.report().live, ())
        asyncio.run(enters(aio))
        self.assertEqual(paths.report().live, ())

    def options(self):
        """The options of paths that a program opens."""
        return {}

    def test_at_the_exit(self):
        """What a program has left in its names, as any other warning."""
        program = "from wanzoche import Paths; paths = Paths({!r}, **{!r}); entry = paths('deposit')".format(SLOT, self.options())
        words = [sys.executable, "-u", "-W", "always::ResourceWarning", "-c", program]  # at its exit Python 3.8 may forget what it has buffered
        ended = subprocess.run(words, stdout=subprocess.PIPE, stderr=subprocess.PIPE, timeout=LONGEST)
        self.assertEqual((ended.stdout, ended.returncode), (b"", 0))
        self.assertRegex(ended.stderr.decode(), "^.*ResourceWarning: an entry of deposit was dropped, .*\n( .*\n)*$")


class Mistakes(unittest.TestCase):
    """What a user may get wrong is said at the call, and not when two first want the same."""

    def test_limits_of_time(self):
        paths = Paths(BOOK)
        for wrong, kind in (("2", TypeError), (b"2", TypeError), ([2], TypeError), (math.nan, ValueError), (10**400, ValueError)):
            told = re.escape("a limit of time is None or a number of seconds, not {!r}".format(wrong))
            for call in (paths, paths.enter, paths.aio):
                with self.assertRaisesRegex(kind, "^{}$".format(told)):
                    call("read", wrong)
        for seconds in (None, 0, 2, 0.5, math.inf, 10**300, True):
            paths.enter("read", seconds).leave()
        for seconds in (60, math.inf, 10**300):  # also where it has to wait
            entry, until = paths.enter("read"), time.monotonic() + 60
            with concurrent.futures.ThreadPoolExecutor() as others:
                waits = others.submit(lambda: paths.enter("write", seconds).leave())
                while not (paths.waiting() or waits.done() or time.monotonic() > until):
                    time.sleep(0.001)
                entry.leave()
                self.assertIsNone(waits.result(LONGEST))

    def test_what_is_no_declaration(self):
        for wrong in (3, None, pathlib.Path("pool.paths"), ["path"]):
            for call in (Paths, lambda text: wanzoche.audit(text, "")):
                with self.assertRaisesRegex(TypeError, "^a declaration is a text, not .*read_text"):
                    call(wrong)
        for name in ("pool.paths", "/etc/pool"):
            with self.assertRaisesRegex(DeclarationError, r"is this the name of a file\? Its text is pathlib.Path\(FILE\).read_text\(\)"):
                Paths(name)
        with self.assertRaisesRegex(DeclarationError, "^(?!.*file)"):
            Paths("resource")
        for text in (bytearray(SLOT.encode()), memoryview(SLOT.encode())):
            self.assertEqual(Paths(text).operations, ("deposit", "remove"))

    def test_rooms_and_logs(self):
        with self.assertRaisesRegex(TypeError, "^the room is 1 to 1,048,576 lines, not '5'$"):
            Paths(SLOT, room="5")
        with self.assertRaisesRegex(ValueError, "^the room is 1 to 1,048,576 lines, not 0$"):
            Paths(SLOT, room=0)
        with self.assertRaisesRegex(TypeError, "^a log is a callable, a list, or a file that is open for text, not 'paths.log'$"):
            Paths(SLOT, log="paths.log")

    def test_a_guard_without_its_operation(self):
        paths = Paths(SLOT)
        with self.assertRaisesRegex(TypeError, r"^name the operation: `@paths.guards\(..\)` with one of deposit, remove$"):

            @paths.guards
            def fills():
                pass

    def test_a_task_that_takes_the_entry_of_a_thread(self):
        paths = Paths(SLOT)

        async def fills():
            async with paths("deposit"):
                pass

        with self.assertRaisesRegex(TypeError, r"^write `async with paths.aio\('deposit'\)`: this entry is for `with` in a thread$"):
            asyncio.run(fills())
        paths.enter("deposit", 0).leave()


class Refusals(unittest.TestCase):
    def test_a_blocked_start_says_why(self):
        paths = Paths(SLOT)
        self.assertIsNone(paths.try_enter("remove"))
        why = paths.why("remove")
        self.assertEqual(str(why), "remove is blocked: path 0 of slot: deposit ; remove; in progress: nothing of it; may begin next: deposit")
        self.assertEqual((why.in_progress, why.may_begin), ((), ("deposit",)))
        with paths("deposit"):
            why = paths.why("remove")
            self.assertEqual(str(why), "remove is blocked: path 0 of slot: deposit ; remove; in progress: deposit by thread 1")
            self.assertEqual((why.path, why.resource, why.in_progress), (0, "slot", (("deposit", "thread 1"),)))
        self.assertIsNone(paths.why("remove"))

    def test_a_time_limit_says_why_too(self):
        paths = Paths(BOOK)
        with paths("read"):
            with self.assertRaisesRegex(Timeout, "^write is blocked for 0.01 seconds: path 0 of book: .* in progress: read by thread 1; {}$".format(OWN.format("read"))):
                paths.enter("write", timeout=0.01)
            for seconds in (0, -1, -0.5):  # it is tried once
                with self.assertRaisesRegex(TimeoutError, "^write is blocked: path 0 of book: "):
                    paths.enter("write", timeout=seconds)
        with paths("write", timeout=0):
            pass

    def test_a_declaration_error_shows_the_place(self):
        with self.assertRaises(DeclarationError) as caught:
            Paths("resource slot cell\noperation deposit, remove\npath deposit ; remoove end\nend")
        error = caught.exception
        self.assertEqual((error.line, error.column), (3, 16))
        self.assertEqual(
            str(error),
            "undeclared in line 3, column 16: this isn't an operation of the path's resource\n  path deposit ; remoove end\n"
            "                 ^^^^^^^\n  expected an operation that the resource declares\n  nearest name: remove",
        )
        self.assertEqual(str(pickle.loads(pickle.dumps(error))), str(error))
        with self.assertRaises(ValueError):
            Paths("")
        with self.assertRaisesRegex(DeclarationError, "^text too long$"):
            Paths(" " * 65537)

    def test_each_fault_of_a_declaration_has_its_place(self):
        faults = [
            ("", "unexpected", 0),
            ("resource", "unexpected", 8),
            ("resource ?", "bad byte", 9),
            ("resource \xe9", "bad byte", 9),
            ("resource abcdefghabcdefghabcdefghabcdefghi", "word too long", 9),
            ("resource a queue 1234567890", "number too long", 17),
            ("resource a cell operation b end resource a cell operation c end", "duplicate resource", 41),
            ("resource a cell operation b, b end", "duplicate operation", 29),
            ("resource a cell operation b path c end end", "undeclared", 33),
            ("resource a cell operation b path b ; b end end", "repeated name", 37),
            ("resource a cell operation b path { { b } } end end", "nested braces", 35),
            ("resource a cell operation b path " + "(" * 33, "too deep", 65),
            ("resource a queue 0 operation b end", "bad capacity", 17),
            ("resource a cell operation b path { b : 0 } end end", "bad count", 39),
            ("resource a cell operation " + ", ".join(map("o{}".format, range(257))) + " end", "too many", 26 + 10 * 4 + 90 * 5 + 156 * 6),
        ]
        for text, words, offset in faults:
            for refused in (lambda: Paths(text), lambda: wanzoche.audit(text, "")):
                with self.subTest(text), self.assertRaisesRegex(DeclarationError, "^{} in line 1, column".format(words)) as caught:
                    refused()
                self.assertEqual((caught.exception.offset, caught.exception.line, caught.exception.column), (offset, 1, offset + 1))
        for refused in (lambda: Paths(" " * 65537), lambda: wanzoche.audit(" " * 65537, "")):
            with self.assertRaisesRegex(DeclarationError, "^text too long$"):
                refused()

    def test_a_room_and_a_name_are_refused(self):
        for room in (0, -1, 1048577):
            with self.assertRaises(ValueError):
                Paths(SLOT, room=room)
        with self.assertRaisesRegex(UnknownOperation, "^no operation 'remoove' is declared; there are deposit, remove$"):
            Paths(SLOT)("remoove")

    def test_a_room_of_one_place_has_none_for_a_finish(self):
        with self.assertRaises(OutOfRoom):
            Paths(SLOT, room=1).enter("deposit")


def late():
    """In another process: a start that is refused."""
    Paths(SLOT).enter("remove", timeout=0)


def takes_nothing():
    """From a cell, which doesn't offer that."""
    with Paths(SLOT)("deposit") as entry:
        entry.take()


class Exceptions(unittest.TestCase):
    """They can be copied, pickled, and raised in another process."""

    def setUp(self):
        may_leave_unused(self)

    def raised(self):
        """One of each."""
        for call in (
            lambda: Paths("resource"),
            lambda: Paths(" " * 65537),
            lambda: wanzoche.audit(SLOT, "hello"),
            lambda: Paths(SLOT)("steal"),
            late,
            lambda: Paths(SLOT)("deposit").leave(),
            takes_nothing,
            lambda: Paths(SLOT, room=1).enter("deposit"),
            lambda: Paths(SLOT, journal=False).journal(),
        ):
            with self.assertRaises(wanzoche.WanzocheError) as caught:
                call()
            yield caught.exception
        yield Paths(SLOT).why("remove")
        yield Closed("these paths were closed")
        yield Forked("these paths belong to the parent")

    def test_copies(self):
        kinds = set()
        for error in self.raised():
            kinds.add(type(error))
            error.more = [1]
            for other in (copy.copy(error), copy.deepcopy(error), pickle.loads(pickle.dumps(error))):
                self.assertIs(type(other), type(error))
                self.assertEqual((str(other), other.args, other.__dict__), (str(error), error.args, error.__dict__))
        self.assertEqual(len(kinds), 11)

    def test_another_process(self):
        with concurrent.futures.ProcessPoolExecutor(1, multiprocessing.get_context("spawn")) as pool:
            error = pool.submit(late).exception(LONGEST)
            self.assertIs(type(error), Timeout)
            self.assertEqual((error.operation, error.path, error.resource, error.text), ("remove", 0, "slot", "deposit ; remove"))
            self.assertIsNone(pool.submit(len, ()).exception(LONGEST))  # the pool goes on


class Logs(unittest.TestCase):
    def test_lines_that_come_while_the_log_is_written_go_to_it_too(self):
        log, more = [], []

        def slow(lines):
            log.append(lines)
            if more:
                more.pop().leave()

        paths = Paths(BOOK, room=8, log=slow)
        more += [paths.enter("read") for _ in range(3)]
        paths.rotate()
        self.assertEqual([part.count("\n") for part in log], [3, 1, 1, 1])
        self.assertEqual(paths.journal(), "")
        self.assertTrue(paths.audit("".join(log)))

    def test_a_log_that_raises_gets_only_what_it_has_not(self):
        log, more, full = [], [], [False, True]

        def fails_once(lines):
            if full.pop(0) if full else False:
                raise OSError("the disk is full")
            log.append(lines)
            if more:
                more.pop().leave()

        paths = Paths(BOOK, log=fails_once)
        more.append(paths.enter("read"))
        with self.assertRaises(OSError):
            paths.rotate()
        self.assertEqual((log, paths.journal()), (["1 start read: started 0\n"], "1 finish 0: finished\n"))
        with self.assertRaises(ValueError):
            paths.audit()
        paths.rotate()
        self.assertEqual((log[1:], paths.journal()), (["1 finish 0: finished\n"], ""))

    def test_a_log_may_ask_but_not_rotate(self):
        told = []

        def asks(lines):
            told.append((lines, paths.report().startable, paths.journal()))
            with self.assertRaisesRegex(RuntimeError, "^this thread is rotating these paths: "):
                paths.rotate()

        paths = Paths(SLOT, log=asks)
        with paths("deposit"):
            pass
        lines = paths.journal()
        paths.rotate()
        self.assertEqual((told, paths.journal()), ([(lines, ("remove",), lines)], ""))


class Texts(unittest.TestCase):
    def test_a_report(self):
        paths = Paths(SLOT)
        with paths("deposit"):
            report = paths.report()
        self.assertEqual((report.startable, report.blocked, report.frozen), ((), {"deposit": 0, "remove": 0}, False))
        self.assertEqual(report.live, (wanzoche.Live(0, "thread 1", "deposit"),))
        self.assertEqual(str(report), "startable\nblocked deposit 0\nblocked remove 0\nlive 0 1 deposit\nfrozen no\n")

    def test_the_declaration_is_known(self):
        paths = Paths(LINE)
        self.assertEqual(paths.operations, ("put", "get"))
        self.assertEqual([path.text for path in paths.paths], ["{ put ; get : 8 }", "put", "get"])
        self.assertEqual(paths.paths[0].operations, ("put", "get"))

    def test_rotated_lines_go_to_the_log_and_are_sound_together(self):
        log = []
        paths = Paths(SLOT, room=4, log=log)
        for _ in range(50):
            with paths("deposit"):
                pass
            with paths("remove"):
                pass
        self.assertGreater(len(log), 40)
        text = "".join(log) + paths.journal()
        self.assertEqual(text.count("\n"), 200)
        self.assertTrue(paths.audit(text))
        self.assertEqual(str(paths.audit("journal 2 room 3\n" + text)), "wrong line 2")
        with self.assertRaises(ValueError):
            paths.audit()

    def test_a_log_that_raises_rotates_nothing(self):
        def refuse(lines):
            raise OSError("the disk is full")

        paths = Paths(SLOT, room=4, log=refuse)
        for operation in ("deposit", "remove"):
            with paths(operation):
                pass
        with self.assertRaisesRegex(OSError, "the disk is full"):
            paths.enter("deposit")
        self.assertEqual(paths.journal().count("\n"), 4)
        self.assertTrue(paths.audit())

    def test_audits(self):
        self.assertEqual(str(wanzoche.audit(SLOT, "1 start remove: started 0\n")), "wrong line 0")
        self.assertTrue(wanzoche.audit(SLOT, ""))
        with self.assertRaisesRegex(JournalError, "^bad line 1, which is line 2 counted from 1:\n  hello$") as caught:
            wanzoche.audit(SLOT, "1 start remove: blocked 0\nhello\n")
        self.assertEqual(caught.exception.line, 2)
        with self.assertRaisesRegex(JournalError, "^undeclared in line 0, which is line 1 counted from 1:\n  1 start steal: blocked 0$"):
            wanzoche.audit(SLOT, "1 start steal: blocked 0\n")
        with self.assertRaises(DeclarationError):
            wanzoche.audit("resource", "")


class WithoutJournal(unittest.TestCase):
    def test_no_line_is_kept_and_all_else_is_the_same(self):
        kept, paths = Paths(LINE, room=64), Paths(LINE, room=3, journal=False)
        for each in (kept, paths):
            for number in range(8):
                with each("put") as entry:
                    self.assertEqual(entry.put(number), number + 1)
            with each("get") as entry:
                self.assertEqual(entry.take(), 0)
            self.assertEqual(str(each.report()), "startable put get\nfrozen no\n")
            with each("put"):
                with self.assertRaisesRegex(Blocked, "^put is blocked: path 0 of line: { put ; get : 8 }; in progress: put by thread 1$"):
                    raise each.why("put")
        self.assertEqual(kept.journal().count("\n"), 29)
        with self.assertRaisesRegex(NoJournal, "^these paths were opened without a journal$"):
            paths.journal()
        with self.assertRaises(NoJournal):
            paths.audit()
        self.assertTrue(paths.audit(kept.journal()))
        paths.rotate()

    def test_the_room_is_that_of_what_is_in_progress(self):
        paths = Paths("resource book cell operation read path { read } end end", room=3, journal=False)
        for _ in range(100):
            with paths("read"), paths("read"):
                with self.assertRaisesRegex(OutOfRoom, "^no room for read: 2 in progress, in a room of 3$"):
                    paths.enter("read")

    def test_bad_openings_are_refused(self):
        with self.assertRaisesRegex(ValueError, "^without a journal there are no lines for a log$"):
            Paths(SLOT, journal=False, log=[])
        with self.assertRaises(ValueError):
            Paths(SLOT, journal=False, room=0)
        with self.assertRaises(DeclarationError):
            Paths("resource", journal=False)


class Resumed(unittest.TestCase):
    """Paths that go on behind the lines of a journal."""

    def journal(self):
        """Of a line in which 7 and 8 were put: 7 is being taken, and two puts are over."""
        paths = Paths(LINE)
        for number in (7, 8):
            with paths("put") as entry:
                entry.put(number)
        kept = paths.enter("get")
        kept.take()
        text = paths.journal()
        kept.leave()
        return text

    def test_they_answer_as_the_one_that_wrote_it_would(self):
        text = self.journal()
        stored = "journal 3 room 99\n" + text.replace("\n", "\n+", 3)
        for given in (text, text.encode(), text[:-1] + "\n2 start", text + "\0" * 600, stored, stored + "+2 sta"):
            for options in ({}, {"room": 4}, {"journal": False}):
                with self.subTest((given, options)), Paths(LINE, resume=given, **options) as paths:
                    self.assertEqual(paths.resumed, len(stored if given[:1] in "j" else text) if isinstance(given, str) else len(text))
                    (lost,) = paths.report().lost
                    self.assertEqual(lost, wanzoche.Live(2, "thread 1", "get"))
                    self.assertIsNone(paths.try_enter("get"))
                    self.assertEqual(paths.recover(lost), 1)
                    self.assertEqual((paths.recover("thread 1"), paths.report().lost), (0, ()))
                    with paths("get") as entry:
                        self.assertEqual((entry.token, entry.worker, entry.look()), (3, "thread 2", 8))

    def test_its_lines_and_the_new_ones_are_one_journal(self):
        text = self.journal()
        log = []
        with Paths(LINE, resume=text, room=5, log=log) as paths:
            self.assertEqual(paths.journal(), "")
            paths.recover(1)
            for _ in range(3):
                paths.enter("put").leave()
            self.assertTrue(log)
            self.assertTrue(paths.audit(text + "".join(log) + paths.journal()))
        with Paths(LINE, resume=text) as paths:
            with self.assertRaisesRegex(ValueError, "^these paths go on behind a journal: audit that, and then journal"):
                paths.audit()
        with Paths(LINE, resume="") as paths:
            self.assertEqual((paths.resumed, paths.report().lost, Paths(LINE).resumed), (0, (), None))

    def test_each_cut(self):
        """The lines before it are taken, and what follows them isn't counted."""
        text = self.journal()
        for head in ("", "journal 3 room 1048576\n"):
            whole = head + text
            for cut in range(len(whole) + 1):
                with self.subTest(cut), Paths(LINE, resume=whole[:cut]) as paths:
                    self.assertEqual(paths.resumed, whole.rfind("\n", 0, cut) + 1)
                    lines = whole[: paths.resumed][len(head) :]
                    self.assertEqual(len(paths.report().live), lines.count("started") - lines.count("finished"))

    def test_a_journal_of_many_pieces(self):
        log = []
        paths = Paths(BOOK, log=log)
        for _ in range(700):
            paths.enter("write").leave()
        text = "".join(log) + paths.journal()
        for piece in (37, 300, 1 << 20):
            for room in (2, 3, 1000):
                with mock.patch.object(wanzoche._resumed, "PIECE", piece), Paths(BOOK, resume=text + "1 sta", room=room) as again:
                    with again("read") as entry:
                        self.assertEqual((again.resumed, entry.token), (len(text), 700))
            broken = text.replace("\n1 finish 350", "\n1 finnish 350")
            with mock.patch.object(wanzoche._resumed, "PIECE", piece), self.assertRaises(JournalError) as caught:
                Paths(BOOK, resume=broken)
            self.assertEqual(caught.exception.line, 702)

    def test_a_line_that_is_not_owed_is_named(self):
        text = self.journal()
        wrong = text + "3 start get: started 3\n3 finish 3: finished\n"
        for head in (0, 1):
            with self.assertRaises(JournalError) as caught:
                Paths(LINE, resume="journal 2 room 99\n" * head + wrong)
            told = "wrong line 8, which is line {} counted from 1:\n  3 start get: started 3\n`blocked 2` is owed"
            self.assertEqual(str(caught.exception), told.format(9 + head))
            self.assertEqual((caught.exception.line, caught.exception.owed), (9 + head, "blocked 2"))
            self.assertEqual(str(pickle.loads(pickle.dumps(caught.exception))), str(caught.exception))
        broken, unknown = text + "hello\n" + text, "1 start steal: started 0\n"
        for wrong, told in ((broken, "^bad line 8, which is line 9"), (unknown, "^undeclared in line 0, ")):
            with self.assertRaisesRegex(JournalError, told):
                Paths(LINE, resume=wrong)
        with self.assertRaisesRegex(wanzoche.OutOfRoom, "^no room for line 1 of the journal: 0 in progress, in a room of 1$"):
            Paths(LINE, resume=text, room=1)

    def test_only_those_of_before_are_recovered(self):
        text = self.journal()
        with Paths(LINE, resume=text) as paths:
            entry = paths.enter("put")
            for worker in (entry.worker, 2, 77, "thread 3"):
                with self.assertRaisesRegex(ValueError, "^thread .* isn't of the journal that these paths go on behind$"):
                    paths.recover(worker)
            told = []

            def gets():
                with paths("get", timeout=LONGEST) as entry:
                    told.append(entry.token)

            thread = threading.Thread(target=gets)
            thread.start()
            while not paths.waiting():
                time.sleep(0.001)
            paths.recover("thread 1")
            thread.join(LONGEST)
            self.assertEqual(told, [4])
            entry.leave()

    def test_a_store_takes_none(self):
        with self.assertRaisesRegex(ValueError, "^a store is the journal itself: it takes no `log`, no `journal` and no `resume`$"):
            Paths(LINE, resume="", store="/nowhere")


class Ends(unittest.TestCase):
    def test_closed_paths_say_so(self):
        with Paths(SLOT) as paths:
            entry = paths.enter("deposit")
        paths.close()
        for call in (lambda: paths.enter("remove"), entry.leave, paths.report, paths.journal, lambda: paths.why("deposit")):
            with self.assertRaises(Closed):
                call()

    def test_a_collected_handle_is_closed(self):
        paths = Paths(SLOT, room=1000)
        handle, gone = paths._handle, weakref.ref(paths)
        self.assertTrue(handle.live)
        del paths
        gc.collect()
        self.assertIsNone(gone())
        self.assertFalse(handle.live)

    def test_an_entry_keeps_its_paths(self):
        with Paths(BOOK)("write") as entry:
            gc.collect()
            entry.put(3)

    @unittest.skipUnless(hasattr(os, "fork"), "there is no fork")
    def test_in_a_forked_child_each_call_says_so(self):
        may_leave_unused(self)
        paths = Paths(SLOT)
        entry, unused = paths.enter("deposit"), paths("remove")
        calls = [
            lambda: paths("remove"), lambda: paths.aio("remove"), lambda: paths.enter("remove"), lambda: paths.try_enter("remove"),
            lambda: paths.guards("remove"), lambda: paths.can_start("remove"), lambda: paths.why("remove"), paths.report, paths.journal,
            paths.rotate, paths.audit, lambda: paths.audit(""), unused.__enter__, lambda: entry.put(1), entry.leave,
        ]
        child = os.fork()
        if child == 0:
            told = [self.forked(call) for call in calls]
            paths.close()  # does nothing
            with Paths(SLOT)("deposit"):
                os._exit(0 if told == [True] * len(calls) else 1)
        self.assertEqual(os.waitpid(child, 0)[1], 0)
        entry.leave()
        with paths("remove"):
            pass
        self.assertTrue(paths.audit())

    @staticmethod
    def forked(call):
        try:
            call()
        except Forked as error:
            return "`store=`" in str(error)
        return False

    def test_what_belongs_to_a_process_is_not_copied(self):
        """For another process there is a store, and the refusal says so."""
        may_leave_unused(self)
        paths = Paths(SLOT)
        with paths("deposit") as entry:
            for one in (paths, entry, paths("remove"), paths.aio("remove")):
                for copies in (pickle.dumps, copy.copy, copy.deepcopy):
                    with self.assertRaisesRegex(TypeError, "^(paths belong|an entry belongs) to one process, .* Paths[(]TEXT, store=FILE[)]"):
                        copies(one)
        self.assertTrue(paths.audit())


if __name__ == "__main__":
    unittest.main()
