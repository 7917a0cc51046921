"""What the core in C could get wrong: memory that lacks, circles, threads that die, callers that are cut off, and bad input."""

import contextlib
import ctypes
import gc
import os
import subprocess
import sys
import threading
import time
import unittest
import warnings
import weakref
from unittest import mock

import wanzoche
from wanzoche import Closed, Entry, NotInProgress, Paths, Timeout, UnknownOperation
from wanzoche._form import core
from wanzoche._waiting import ThreadWaiter

from .declarations import BOOK, SLOT
from .interrupts import Interrupt, at_instruction, each_instruction, ends_a_hang, interrupt, may_leave_unused
from .limits import LONGEST

try:
    import _testcapi
except ImportError:
    _testcapi = None


@contextlib.contextmanager
def lacking_memory(first, last):
    """Python gets no memory for its allocations of these numbers, from 0; 0 as the last is all from the first on."""
    _testcapi.set_nomemory(first, last)
    try:
        yield
    finally:
        _testcapi.remove_mem_hooks()


class Cores(unittest.TestCase):
    def setUp(self):
        guard = ends_a_hang()
        guard.__enter__()
        self.addCleanup(guard.__exit__, None, None, None)

    def nothing_is_left(self, paths):
        self.assertEqual((paths.report().live, paths.waiting(), paths.waiters()), ((), {}, []))


class Callers(Cores):
    """An exception before each instruction of who calls the package: between a call and what is done with its answer."""

    def check(self, call, least):
        paths = Paths(BOOK)
        times = 0
        with warnings.catch_warnings():
            warnings.simplefilter("ignore", ResourceWarning)
            for times in each_instruction(interrupt, lambda: call(paths), (call,)):
                self.nothing_is_left(paths)
        self.assertGreater(times, least)

    def test_with(self):
        def write(paths):
            with paths("write"):
                pass

        self.check(write, 8)

    def test_with_a_name(self):
        def write(paths):
            with paths("write") as entry:
                entry.put(1)

        self.check(write, 10)

    def test_enter_and_leave(self):
        def write(paths):
            entry = paths.enter("write")
            entry.leave()

        self.check(write, 8)

    def test_two_of_them(self):
        def read(paths):
            with paths("read"), paths("read", timeout=1):
                paths.enter("read").leave()

        self.check(read, 20)

    def test_a_leave_that_is_cut_off_wakes_others_all_the_same(self):
        number = 0
        while True:
            paths = Paths(BOOK)
            entry = paths.enter("write")
            readers = [threading.Thread(target=lambda: paths.enter("read").leave()) for _ in range(2)]
            for reader in readers:
                reader.start()
            while paths.waiting() != {"read": 2}:
                time.sleep(0.0001)
            more = at_instruction(number, interrupt, entry.leave)
            if paths.report().live and "write" in [each.operation for each in paths.report().live]:
                entry.leave()  # it was cut off before its finish, as the form in Python can be
            for reader in readers:
                reader.join(LONGEST)
                self.assertFalse(reader.is_alive(), "a turn was lost before instruction {}".format(number))
            self.nothing_is_left(paths)
            if not more:
                break
            number += 1
        self.assertGreater(number, 10)


    def test_a_task_leaves_nothing_behind_while_its_traceback_lives(self):
        """A task keeps the exception that ended it, and so all that the traceback leads to."""
        paths, left, number, more = Paths(BOOK), [], 0, True

        def enters():
            with contextlib.suppress(StopIteration):
                paths.aio("write").__aenter__().send(None)

        def check():
            try:
                enters()
            except Interrupt as error:
                if error.__traceback__ and paths.report().live:
                    left.append(number)

        with mock.patch.object(Paths, "_task_worker", lambda _: 1), warnings.catch_warnings():
            warnings.simplefilter("ignore")
            while more:
                more = at_instruction(number, interrupt, check)
                self.nothing_is_left(paths)
                number += 1
        self.assertLess(len(left), 10)  # only behind the wait, where the entry is handed on
        self.assertEqual(left, list(range(left[0], left[0] + len(left))))


@unittest.skipUnless(core, "there is no core")
class Waits(Cores):
    def test_one_that_is_cut_off_behind_its_turn_is_undone_while_the_traceback_lives(self):
        """Two wait; the first is admitted, and an interrupt comes as it wakes the second."""
        paths, others = Paths(BOOK), []
        entry, read = paths.enter("write"), paths("read")
        wake_all, cut_off = type(paths._queues).wake_all, []

        def raises(queues, again=False):
            if cut_off and threading.current_thread() is threading.main_thread():
                raise cut_off.pop()
            wake_all(queues, again)

        def lets_both_in():
            while paths.waiting() != {"read": 1}:
                time.sleep(0.0001)
            others.append(threading.Thread(target=lambda: paths.enter("read").leave()))
            others[0].start()
            while paths.waiting() != {"read": 2}:
                time.sleep(0.0001)
            cut_off.append(Interrupt())
            entry.leave()

        writer = threading.Thread(target=lets_both_in)
        writer.start()
        with mock.patch.object(type(paths._queues), "wake_all", raises):
            try:
                with read:
                    self.fail("it was cut off before")
            except Interrupt as error:
                self.assertIsNotNone(error.__traceback__)
                for thread in (writer, *others):
                    thread.join(LONGEST)
                    self.assertFalse(thread.is_alive(), "a turn was lost")
                self.nothing_is_left(paths)
                self.assertEqual((paths.journal().count("finished"), cut_off), (3, []))

    def in_a_thread(self, call):
        thread = threading.Thread(target=call)
        thread.start()
        return thread

    def ends(self, thread):
        thread.join(LONGEST)
        self.assertFalse(thread.is_alive(), "a turn was lost")

    def test_one_that_is_cut_off_as_it_makes_room_is_undone_and_others_are_woken(self):
        paths, readers = Paths(BOOK, room=4), []
        for _ in range(2):
            paths.enter("read").leave()  # so there is no room
        entry = paths("write")

        def cut_off(entry, code, worker):
            paths.rotate()
            entry._begin(worker)
            readers.append(self.in_a_thread(lambda: paths.enter("read").leave()))
            while paths.waiting() != {"read": 1}:
                time.sleep(0.0001)
            raise Interrupt

        with mock.patch.object(Entry, "_admitted", cut_off), self.assertRaises(Interrupt):
            entry.__enter__()
        self.ends(*readers)
        self.nothing_is_left(paths)

    def test_a_finish_as_it_joins_its_queue_loses_no_turn(self):
        paths, others = Paths(BOOK), []
        write, join = paths.enter("write"), type(paths._queues).join

        def joins(queues, waiter):
            queue = join(queues, waiter)
            if not others:
                others.append(None)
                others.append(self.in_a_thread(lambda: paths.enter("read").leave()))
                while paths.waiting() != {"read": 2}:
                    time.sleep(0.0001)
                write.leave()  # which wakes the first alone
            return queue

        with mock.patch.object(type(paths._queues), "join", joins):
            with paths("read"):
                self.ends(others[1])
        self.nothing_is_left(paths)

    def test_one_that_finds_another_quicker_is_woken_again(self):
        paths, quicker = Paths(BOOK), []
        first, wait = paths.enter("write"), ThreadWaiter.wait

        def woken_late(waiter):
            if quicker:
                quicker[0].leave()
                wait(waiter)
            else:
                first.leave()
                wait(waiter)
                quicker.append(paths.enter("write"))

        with mock.patch.object(ThreadWaiter, "wait", woken_late):
            with paths("write") as entry:
                self.assertEqual(entry.activation, 2)
        self.nothing_is_left(paths)
        self.assertEqual(paths.journal().count("blocked"), 1)  # it asked before it tried again

    def test_one_that_is_in_use_when_its_turn_comes_leaves_the_other_alone(self):
        """A handler enters the entry that its own thread waits for."""
        paths = Paths(BOOK)
        entry, write = paths("read"), paths.enter("write")
        wait = ThreadWaiter.wait

        def entered_meanwhile(waiter):
            write.leave()
            wait(waiter)
            with mock.patch.object(ThreadWaiter, "wait", wait):
                entry.__enter__()

        with mock.patch.object(ThreadWaiter, "wait", entered_meanwhile):
            with self.assertRaisesRegex(RuntimeError, "^this entry of read is in progress already$"):
                entry.__enter__()
        self.assertEqual((entry.activation, paths.waiting()), (1, {}))
        entry.leave()

    def test_an_entry_in_use_stays_so(self):
        paths = Paths(BOOK)
        entry = paths.enter("write")
        for enter in (entry.__enter__, lambda: entry._try(1)):
            with self.assertRaisesRegex(RuntimeError, "^this entry of write is in progress already$"):
                enter()
        self.assertEqual(entry.activation, 0)
        entry.leave()

    def test_the_first_interrupt_goes_on_if_a_wake_is_cut_off_again(self):
        paths = Paths(BOOK)
        entry = paths.enter("write")
        reader = threading.Thread(target=lambda: paths.enter("read").leave())
        reader.start()
        while paths.waiting() != {"read": 1}:
            time.sleep(0.0001)
        wake_all, cut_off = type(paths._queues).wake_all, [Interrupt(1), Interrupt(2)]

        def raises(queues, again=False):
            if cut_off:
                raise cut_off.pop(0)
            wake_all(queues, again)

        with mock.patch.object(type(paths._queues), "wake_all", raises):
            with self.assertRaises(Interrupt) as caught:
                entry.leave()
            self.assertEqual(caught.exception.args, (1,))
            reader.join(LONGEST)
        self.assertFalse(reader.is_alive())
        self.nothing_is_left(paths)


class Workers(Cores):
    def number_in(self, paths):
        with paths("read") as entry:
            return entry.worker

    def test_a_thread_keeps_its_number_in_each_of_many_paths(self):
        many = [Paths(BOOK, room=100) for _ in range(40)]
        told = []

        def reads():
            told.extend(self.number_in(paths) for paths in many + many[::-1] + many)

        for paths in many[::2]:
            self.number_in(paths)
        thread = threading.Thread(target=reads)
        thread.start()
        thread.join()
        once = ["thread {}".format(2 - number % 2) for number in range(40)]
        self.assertEqual(told, once + once[::-1] + once)

    def test_a_new_thread_has_a_new_number(self):
        paths, told = Paths(BOOK), []
        for _ in range(50):
            thread = threading.Thread(target=lambda: told.append(self.number_in(paths)))
            thread.start()
            thread.join()  # so the next may be at its place, under its identifier
        self.assertEqual(told, ["thread {}".format(number) for number in range(1, 51)])

    def test_new_paths_at_the_place_of_old_ones_count_anew(self):
        def reads():
            for _ in range(100):
                self.assertEqual(self.number_in(Paths(BOOK, room=100)), "thread 1")

        reads()
        thread = threading.Thread(target=reads)
        thread.start()
        thread.join()

    def test_what_a_dead_thread_began_can_be_left(self):
        paths, entries = Paths(BOOK), []
        thread = threading.Thread(target=lambda: entries.append(paths.enter("write")))
        thread.start()
        thread.join()
        self.assertEqual(entries[0].worker, "thread 1")
        entries[0].leave()
        self.nothing_is_left(paths)


class Circles(Cores):
    """Entries in progress in circles, which only the collector ends."""

    def setUp(self):
        super().setUp()
        may_leave_unused(self)

    def collects(self, paths):
        with self.assertWarnsRegex(ResourceWarning, "^an entry of write was dropped in progress, and is finished now$"):
            gc.collect()
        self.nothing_is_left(paths)

    def test_a_circle_without_its_paths(self):
        paths = Paths(BOOK)
        circle = [paths.enter("write")]
        circle.append(circle)
        del circle
        self.collects(paths)

    def test_a_circle_with_its_paths(self):
        paths, told = Paths(BOOK), []
        paths.own = paths.enter("write")
        handle = paths._handle
        with mock.patch.object(sys, "unraisablehook", told.append):
            with self.assertWarnsRegex(ResourceWarning, "^an entry of write was dropped in progress, and is finished now$"):
                del paths
                gc.collect()
        self.assertEqual((handle.live, told), (False, []))

    def test_circles_through_what_the_paths_hold(self):
        class Leads:
            pass

        def through_numbers(paths, leads):
            paths._numbers["more"] = leads

        def through_queues(paths, leads):
            paths._queues._queues[9, 0, None] = leads

        def through_due(paths, leads):
            paths._queues.due.add(leads)

        def through_name(paths, leads):
            name = type("Name", (str,), {})("read")
            name.leads, leads.entry = leads, paths(name)

        def through_timeout(paths, leads):
            seconds = type("Seconds", (float,), {})(1.0)
            seconds.leads, leads.entry = leads, paths("read", timeout=seconds)

        def through_entry(paths, leads):
            leads.entry = paths("read")

        for through in (through_numbers, through_queues, through_due, through_name, through_timeout, through_entry):
            paths, leads = Paths(BOOK, room=100), Leads()
            leads.paths, handle = paths, paths._handle
            through(paths, leads)
            self.assertTrue(handle.live)
            del paths, leads
            gc.collect()
            self.assertFalse(handle.live, through.__name__)

    def test_kinds_that_nobody_holds(self):
        class Own(Paths):
            pass

        class Kind(Entry):
            pass

        paths = Own(BOOK, room=100)
        Kind.entry, Own.paths = Kind(paths, "read", None), paths
        kinds = [weakref.ref(Kind), weakref.ref(Own)]
        del Kind, Own, paths
        gc.collect()
        self.assertEqual([kind() for kind in kinds], [None, None])

    @unittest.skipUnless(core, "there is no core")
    def test_calls_keep_their_handle(self):
        paths = Paths(BOOK, room=100)
        calls, handle = paths._calls, weakref.ref(paths._handle)
        paths.close()
        del paths
        gc.collect()
        self.assertIsNotNone(handle())
        self.assertFalse(calls.is_blocked(0))
        del calls
        self.assertIsNone(handle())

    def test_an_entry_that_comes_back(self):
        paths, back = Paths(BOOK), []

        class Owner:
            def __init__(self):
                self.entry = paths.enter("write")
                self.circle = self

            def __del__(self):
                back.append(self.entry)

        Owner()
        with warnings.catch_warnings(record=True) as told:
            warnings.simplefilter("always")
            gc.collect()
            entry = back.pop()
            self.assertEqual(len(told), 0 if paths.report().live else 1)
            if not paths.report().live:  # the collector had finished it before
                entry.__enter__()
            circle = [entry]
            circle.append(circle)
            del entry, circle
            gc.collect()
        self.nothing_is_left(paths)

    def test_kinds_of_entries(self):
        class Kind(Entry):
            pass

        paths = Paths(BOOK)
        entry = Kind(paths, "write", None)
        entry.circle = entry
        entry.__enter__()
        del entry
        self.collects(paths)

    def test_a_warning_that_is_an_error_is_told_and_others_are_woken(self):
        paths, told = Paths(BOOK), []
        entries = [paths.enter("write")]
        reader = threading.Thread(target=lambda: paths.enter("read").leave())
        reader.start()
        while paths.waiting() != {"read": 1}:
            time.sleep(0.0001)
        with mock.patch.object(sys, "unraisablehook", lambda what: told.append(what.exc_type)), warnings.catch_warnings():
            warnings.simplefilter("error")
            try:
                raise ValueError("not lost")
            except ValueError:
                entries.pop()
                self.assertEqual(str(sys.exc_info()[1]), "not lost")
        self.assertEqual(told, [ResourceWarning])
        reader.join(LONGEST)
        self.assertFalse(reader.is_alive())

    def test_a_drop_that_is_cut_off_wakes_others_all_the_same(self):
        paths, told = Paths(BOOK), []
        entries = [paths.enter("write")]
        reader = threading.Thread(target=lambda: paths.enter("read").leave())
        reader.start()
        while paths.waiting() != {"read": 1}:
            time.sleep(0.0001)
        wake_all, cut_off = type(paths._queues).wake_all, [Interrupt()]

        def raises(queues, again=False):
            if cut_off:
                raise cut_off.pop()
            wake_all(queues, again)

        with mock.patch.object(type(paths._queues), "wake_all", raises):
            with mock.patch.object(sys, "unraisablehook", lambda what: told.append(what.exc_type)), warnings.catch_warnings():
                warnings.simplefilter("ignore")
                entries.pop()
            reader.join(LONGEST)
        self.assertFalse(reader.is_alive())
        self.assertIn(told, ([], [Interrupt]))

    def test_finalizers_that_enter_while_an_entry_is_made(self):
        paths, count = Paths(BOOK), [0]

        class Circle:
            def __init__(self):
                self.circle = self

            def __del__(self):
                with paths("read"):
                    count[0] += 1

        before = gc.get_threshold()
        self.addCleanup(gc.set_threshold, *before)
        gc.set_threshold(1)
        for _ in range(300):
            Circle()
            with paths("read"), paths("read"):
                pass
        gc.set_threshold(*before)
        gc.collect()
        self.assertEqual(count, [300])
        self.nothing_is_left(paths)
        self.assertTrue(paths.audit())


class References(Cores):
    """Nothing is counted once too often or too rarely."""

    def test_each_way_through(self):
        paths, closed = Paths(BOOK, room=1048576), Paths(SLOT)
        closed.close()
        held = Paths(BOOK, room=1048576)
        reader = held.enter("read")
        with contextlib.suppress(Timeout):
            held.enter("write", timeout=0)
        queue = held._queues._queues[1, 0, None]
        name, timeout = "".join(["wri", "te"]), 12345.5
        unknown = "".join(["ste", "al"])
        calls = [
            lambda: paths(name, timeout).__enter__().leave(),
            lambda: paths(name, timeout=timeout),
            lambda: paths(name).__enter__(),  # dropped
            lambda: paths(unknown),
            lambda: paths(name).leave(),
            lambda: paths([]),
            lambda: paths(),
            lambda: closed.enter("deposit"),
            lambda: paths.enter("read").__enter__(),
            lambda: paths.try_enter(name).leave(),
            lambda: repr(paths.enter(name)),
            lambda: held.enter(name, timeout=0),  # which waits
        ]

        def counts():
            counted = [paths, closed, held, queue, queue.waiters, name, timeout, unknown, Entry]
            return [sys.getrefcount(each) for each in counted]

        def all_ways(times):
            for _ in range(times):
                for call in calls:
                    with contextlib.suppress(UnknownOperation, NotInProgress, TypeError, Closed, RuntimeError, Timeout):
                        call()

        with warnings.catch_warnings():
            warnings.simplefilter("ignore", ResourceWarning)
            all_ways(20)
            gc.collect()
            before, objects, nothings = counts(), len(gc.get_objects()), sys.getrefcount(None)
            all_ways(100)
            gc.collect()
            self.assertAlmostEqual(sys.getrefcount(None), nothings, delta=99)
            self.assertEqual(counts(), before)
            self.assertLess(len(gc.get_objects()) - objects, 50)
        self.nothing_is_left(paths)
        reader.leave()

    def test_paths_go_when_nobody_holds_them(self):
        paths = Paths(BOOK)
        handle, entry = paths._handle, paths("read")
        with entry:
            pass
        gc.disable()
        self.addCleanup(gc.enable)
        del paths
        self.assertTrue(handle.live)
        del entry
        self.assertFalse(handle.live)  # without the collector


@unittest.skipUnless(_testcapi and hasattr(_testcapi, "set_nomemory"), "this Python can't be made to lack memory")
class Memory(Cores):
    """Each allocation that fails is a MemoryError, and nothing is left."""

    def setUp(self):
        super().setUp()
        may_leave_unused(self)

    @unittest.skipUnless(core, "there is no core")
    def test_a_start_and_a_finish_take_none(self):
        paths = Paths(BOOK)
        entry = paths("write")
        with entry:
            pass
        enter, leave, leaves = entry.__enter__, entry.leave, entry.__exit__
        with lacking_memory(0, 0):
            enter()
            leave()
            enter()
            leaves(None, None, None)
        self.assertEqual(paths.journal().count("finished"), 3)

    def refused_in_turn(self, call, paths):
        """Refuses each allocation of the call in turn, until it has all it wants."""
        number, refused = 0, 0
        while refused < number + 1 and number < 2000:
            try:
                with lacking_memory(number, number + 1):
                    call()
                break
            except (MemoryError, ctypes.ArgumentError, RuntimeError):  # the last two as ctypes and locks say it
                refused += 1
            self.nothing_is_left(paths)
            number += 1
        return refused

    def test_with(self):
        paths = Paths(BOOK)

        def write():
            with paths("write"):
                pass

        write()
        self.assertGreater(self.refused_in_turn(write, paths), 0)
        self.nothing_is_left(paths)
        with paths("write", timeout=0):
            pass

    @unittest.skipIf(sys.version_info >= (3, 11), "Python itself crashes where it has no memory for a frame or an attribute")
    def test_one_whose_time_is_over(self):
        paths = Paths(SLOT)

        def late():
            with contextlib.suppress(Timeout):
                paths.enter("remove", timeout=0)

        late()
        self.assertGreater(self.refused_in_turn(late, paths), 20)
        self.nothing_is_left(paths)
        with paths("deposit", timeout=0), self.assertRaises(Timeout):
            paths.enter("remove", timeout=0)


class BadInput(Cores):
    def setUp(self):
        super().setUp()
        may_leave_unused(self)

    def refuses(self, error, *calls):
        for number, call in enumerate(calls):
            with self.subTest(number), self.assertRaises(error):
                call()

    def test_names_and_times(self):
        paths = Paths(BOOK)
        self.refuses(
            TypeError,
            lambda: paths(),
            lambda: paths([]),
            lambda: paths("write", 1, 2, 3),
            lambda: paths("write", nothing=1),
            lambda: paths.aio(),
            lambda: Entry(),
            lambda: Entry(paths),
            lambda: paths("write").__exit__(),
            lambda: paths("write").leave(1),
        )
        self.refuses(UnknownOperation, lambda: paths(1), lambda: paths(""), lambda: paths(None), lambda: paths(b"write"))
        with paths(operation="write", timeout=2) as entry:
            self.refuses(TypeError, lambda: paths("read", timeout="soon").__enter__())
        self.assertEqual(repr(entry), "<Entry of write: not in progress>")
        self.nothing_is_left(paths)

    @unittest.skipUnless(core, "there is no core")
    def test_what_only_the_package_calls(self):
        paths, bare = Paths(BOOK), core.System()
        entry, queues, handle = paths("write"), paths._queues, object()
        self.refuses(
            TypeError,
            lambda: core.Entry(1, "write", None),
            lambda: core.Entry(bare),
            lambda: core.Calls(1),
            lambda: core.Calls("", 1, 1, 1, handle),
            lambda: core.Line(1),
            lambda: core.Place(handle, 1, 1, 1),
            lambda: core.Place(paths._line, 1, 1, "one"),
            lambda: paths._line.ahead_of(1, 1, "one"),
            lambda: bare._set_up(),
            lambda: bare._set_up(paths._calls, [], queues, queues.due, None, Entry, True),
            lambda: bare._set_up(paths._calls, {}, queues, [], None, Entry, True),
            lambda: bare._set_up(paths._calls, {}, queues, queues.due, handle, Entry, True),
            lambda: bare._set_up(paths._calls, {}, queues, queues.due, None, int, True),
            lambda: bare._set_up(handle, {}, queues, queues.due, None, Entry, True),
            lambda: entry._begin("one"),
            lambda: paths._calls.is_blocked(None),
        )
        self.refuses(RuntimeError, lambda: bare("write"), lambda: core.Entry(bare, "write", None), lambda: Paths.__new__(Paths)("write"))
        self.refuses(ValueError, lambda: core.Calls(1, 1, 1, 0, handle), lambda: core.Calls(0, 1, 1, 1, handle))
        self.refuses(ValueError, lambda: core.Line(1, 1, 1, 0, handle, 1, 1), lambda: core.Line(1, 1, 1, 1, handle, 1, 0))
        self.refuses(OverflowError, lambda: paths._line.holds(1 << 32), lambda: core.Place(paths._line, -1, 0, 1))
        self.refuses(OverflowError, lambda: entry._begin(-1), lambda: entry._begin(1 << 32), lambda: entry._begin(1 << 64))
        self.refuses(AttributeError, lambda: setattr(entry, "_op", 7), lambda: setattr(entry, "_paths", None))
        self.assertFalse(paths._calls.is_blocked(4000000000))
        with entry:
            self.assertTrue(entry._live)

    def test_paths_that_are_opened_again(self):
        paths = Paths(BOOK)
        entry = paths.enter("write")
        paths.__init__(SLOT)
        with contextlib.suppress(NotInProgress):
            entry.leave()
        with paths("deposit"):
            pass
        self.nothing_is_left(paths)

    def test_a_number_that_is_none(self):
        paths = Paths(BOOK)
        for wrong, error in (("x", TypeError), (-1, OverflowError), (1 << 40, OverflowError)):
            with mock.patch.object(Paths, "_thread_worker", lambda _: wrong):
                if core is not None:
                    self.refuses(error, lambda: paths("read").__enter__())
        self.nothing_is_left(paths)


class Forms(unittest.TestCase):
    """The variable that chooses the form."""

    def told(self, choice, program):
        environment = dict(os.environ, WANZOCHE_CORE=choice, PYTHONPATH=os.path.dirname(os.path.dirname(wanzoche.__file__)))
        words, piped = [sys.executable, "-c", program], subprocess.PIPE
        return subprocess.run(words, stdout=piped, stderr=subprocess.STDOUT, env=environment, timeout=LONGEST).stdout.decode()

    def test_none(self):
        self.assertEqual(self.told("none", "from wanzoche._form import core; print(core)"), "None\n")

    def test_a_path(self):
        self.assertIn("ImportError: WANZOCHE_CORE names /nowhere/core, which isn't there\n", self.told("/nowhere/core", "import wanzoche"))
        self.assertIn("ImportError: {}".format(os.path.abspath(__file__)), self.told(os.path.abspath(__file__), "import wanzoche"))

    @unittest.skipUnless(core, "there is no core")
    def test_the_module(self):
        path = os.environ.get("WANZOCHE_CORE", "")
        self.assertIn("wanzoche._core", self.told(path, "from wanzoche._form import core; print(core)"))

    @unittest.skipUnless(hasattr(_testcapi, "run_in_subinterp"), "this Python has no other interpreters")
    def test_another_interpreter(self):
        program = (
            "import _testcapi; own = '''{0}'''; exec(own); print(_testcapi.run_in_subinterp(own)); exec(own)".format(
                "from wanzoche import Paths\npaths = Paths(\"resource r cell operation a path a end end\")\n"
                "with paths(\"a\") as entry: pass\nprint(entry, flush=True)\n"
            )
        )
        entry = "<Entry of a: not in progress>\n"
        self.assertEqual(self.told(os.environ.get("WANZOCHE_CORE", ""), program), entry + entry + "0\n" + entry)


if __name__ == "__main__":
    unittest.main()
