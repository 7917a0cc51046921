"""Interrupts: signals at random moments, an exception before each instruction, and calls from handlers and finalizers."""

import asyncio
import dis
import gc
import itertools
import logging
import pathlib
import sys
import threading
import time
import types
import unittest
import warnings
from unittest import mock

import wanzoche
from wanzoche import Paths, Timeout
from wanzoche._form import core
from wanzoche._waiting import ThreadWaiter

from .declarations import BOOK, SLOT
from .interrupts import Alarms, at_instruction, each_instruction, ends_a_hang, interrupt
from .limits import LONGEST

SIGNALS = 10000
FEWER = 1 if core is None else 11  # of the package's instructions: what is in C has none


class Interrupts(unittest.TestCase):
    def setUp(self):
        quiet = warnings.catch_warnings()
        quiet.__enter__()
        self.addCleanup(quiet.__exit__, None, None, None)
        for kind in (ResourceWarning, RuntimeWarning):  # of entries and of coroutines that an interrupt drops
            warnings.simplefilter("ignore", kind)
        logging.disable(logging.CRITICAL)  # as do loops
        self.addCleanup(logging.disable, logging.NOTSET)
        guard = ends_a_hang()
        guard.__enter__()
        self.addCleanup(guard.__exit__, None, None, None)

    def nothing_is_left(self, paths, *, after_tasks=False):
        if after_tasks:
            gc.collect()  # a loop that was interrupted and its tasks hold each other
        self.assertEqual(paths.report().live, ())
        self.assertEqual(paths.waiting(), {})


class AtRandomMoments(Interrupts):
    """Real signals, whose handler raises, as that of Ctrl-C does."""

    def interrupted(self, times, call, check):
        """Calls again and again until a signal comes, so many times, and checks after each."""
        alarms = Alarms(self)
        for _ in range(times):
            alarms.cut_off(call, 1e-5, 2e-4)
            check()

    def beside(self, work):
        """Runs the work again and again in a thread, until the test is over."""
        over = threading.Event()

        def again():
            while not over.is_set():
                work()

        thread = threading.Thread(target=again)
        thread.start()
        self.addCleanup(thread.join, LONGEST)
        self.addCleanup(over.set)

    def test_with_beside_a_reader_of_the_journal(self):
        paths = Paths(BOOK, room=1000)
        self.beside(paths.journal)

        def write():
            with paths("write"):
                pass

        self.interrupted(SIGNALS, write, lambda: self.nothing_is_left(paths))

    def test_with_while_others_want_the_same(self):
        paths = Paths(BOOK, room=1000)

        def write():
            with paths("write"):
                pass

        write()  # so this thread is the first
        for _ in range(3):
            self.beside(write)
        self.interrupted(SIGNALS // 10, write, lambda: self.assertNotIn("thread 1", [each.worker for each in paths.report().live]))
        with paths("write", timeout=LONGEST):
            pass

    def test_one_that_waits(self):
        paths = Paths(SLOT)

        def remove():
            with paths("remove"):
                self.fail("nothing was deposited")

        self.interrupted(SIGNALS // 10, remove, lambda: self.nothing_is_left(paths))

    def test_entries_that_are_left(self):
        paths = Paths(BOOK, room=1000)

        def write():
            entry = paths.enter("write")
            entry.leave()

        self.interrupted(SIGNALS // 10, write, lambda: self.nothing_is_left(paths))


class BeforeEachInstruction(Interrupts):
    """The same without luck, and harder: an exception before each instruction of the package, also where no signal can raise one."""

    def check(self, call, check, least):
        times = 0
        for times in each_instruction(interrupt, call):
            check()
        self.assertGreaterEqual(times, least // FEWER)

    def test_with(self):
        paths = Paths(BOOK)

        def write():
            with paths("write"):
                pass

        self.check(write, lambda: self.nothing_is_left(paths), 40)

    def test_the_body_of_an_entry_in_hand_can_be_left(self):
        paths = Paths(BOOK)
        entry = paths("write")

        def write():
            with entry:
                pass

        def can_be_left():
            if paths.report().live:
                entry.leave()
            self.nothing_is_left(paths)

        self.check(write, can_be_left, 30)

    def test_enter_try_enter_and_leave(self):
        paths = Paths(BOOK)

        def write():
            paths.enter("write").leave()
            paths.try_enter("write").leave()

        self.check(write, lambda: self.nothing_is_left(paths), 80)

    def test_one_that_is_woken_passes_its_turn_on(self):
        self.each_turn(interrupt, lambda paths: paths.enter("remove").leave(), 60)

    def test_one_that_is_late_passes_its_turn_on(self):
        def late(paths):
            try:
                paths.enter("remove", timeout=0.001).leave()
            except Timeout:
                pass

        self.each_turn(interrupt, late, 60)

    def test_one_whose_time_is_over(self):
        paths = Paths(SLOT)

        def late():
            try:
                paths.enter("remove", timeout=0)
            except Timeout:
                pass

        self.check(late, lambda: self.nothing_is_left(paths), 60)

    def test_one_that_is_in_progress_already(self):
        paths = Paths(BOOK)
        entry = paths.enter("read")

        def again():
            try:
                entry.__enter__()
            except RuntimeError:
                pass

        self.check(again, lambda: self.assertEqual(([each.activation for each in paths.report().live], paths.waiting()), ([0], {})), 10)
        entry.leave()

    def each_turn(self, action, remove, least):
        """Before each instruction of a remove that is woken while another waits behind it: the other comes to its turn all the same."""
        for times in itertools.count():
            paths, others = Paths(SLOT), []
            with mock.patch.object(ThreadWaiter, "wait", woken_before_another(paths, others)):
                more = at_instruction(times, action, lambda: remove(paths))
            if others:
                if paths.can_start("deposit"):  # this one had its turn, and is over
                    with paths("deposit"):
                        pass
                others[0].join(LONGEST)
                self.assertFalse(others[0].is_alive(), "a turn was lost before instruction {}".format(times))
            self.nothing_is_left(paths)
            if not more:
                break
        self.assertGreaterEqual(times, least // FEWER)

    def test_tasks(self):
        paths = Paths(SLOT)

        async def remove():
            async with paths.aio("remove"):
                pass

        async def main():
            waiting = asyncio.ensure_future(remove())
            await asyncio.sleep(0)
            async with paths.aio("deposit"):
                pass
            await waiting

        def empty():
            self.nothing_is_left(paths, after_tasks=True)
            if paths.can_start("remove"):
                with paths("remove"):
                    pass

        self.check(lambda: asyncio.run(main()), empty, 100)

    def test_a_rotation_gives_each_line_to_the_log(self):
        log = []
        paths = Paths(SLOT, room=4, log=log)

        def both():
            with paths("deposit"):
                pass
            with paths("remove"):
                pass

        def sound():
            self.nothing_is_left(paths)
            parts = log + [paths.journal()]
            once = [part for part, after in zip(parts, parts[1:] + [""]) if not after.startswith(part)]  # who was interrupted gets them again
            self.assertEqual(str(paths.audit("".join(once))), "sound")
            if paths.can_start("remove"):
                with paths("remove"):
                    pass

        self.check(both, sound, 100)


def woken_before_another(paths, others):
    """How a thread waits whose turn has come when another waits behind it."""
    wait = ThreadWaiter.wait

    def waits(waiter, *limit):
        if not others:
            others.append(threading.Thread(target=lambda: paths.enter("remove").leave()))
            others[0].start()
            while paths.waiting() != {"remove": 2}:
                time.sleep(0.0001)
            deposit = threading.Thread(target=lambda: paths.enter("deposit").leave())
            deposit.start()
            deposit.join()
        return wait(waiter, *limit)

    return waits


class CallsFromWithin(Interrupts):
    """A handler, a finalizer or a weakref callback comes in before each instruction, and calls the paths itself."""

    def check(self, action, least):
        paths = Paths(BOOK)
        held = []

        def act():
            action(paths, held)

        def work():
            held.append(paths.enter("read"))
            with paths("read"):
                paths.report()
                paths.why("write")
            held.pop().leave()

        for times in each_instruction(act, work):
            while held:
                held.pop().leave()
            self.nothing_is_left(paths)
        self.assertGreaterEqual(times, least // FEWER)
        self.assertTrue(paths.audit())

    def test_a_report(self):
        self.check(lambda paths, held: paths.report(), 100)

    def test_an_entry(self):
        def read(paths, held):
            with paths("read"):
                pass

        self.check(read, 100)

    def test_a_time_limit(self):
        def write(paths, held):
            try:
                with paths("write", timeout=0):
                    pass
            except Timeout:
                pass

        self.check(write, 100)

    def test_a_rotation(self):
        paths = Paths(SLOT, room=4, log=[])

        def both():
            for operation in ("deposit", "remove"):
                with paths(operation):
                    pass

        def rotate():
            try:
                paths.rotate()
            except RuntimeError as error:
                self.assertRegex(str(error), "^this thread is rotating these paths")

        for times in each_instruction(rotate, both):
            self.nothing_is_left(paths)
        self.assertGreaterEqual(times, 100 // FEWER)

    def test_a_finalizer_that_leaves(self):
        paths = Paths(BOOK)

        class Owner:
            def __init__(self):
                self.entry = paths.enter("read")
                self.circle = self

            def __del__(self):
                self.entry.leave()

        def collect():
            Owner()
            gc.collect()

        for times in each_instruction(collect, lambda: paths.enter("read").leave()):
            self.nothing_is_left(paths)
        self.assertGreaterEqual(times, 30 // FEWER)


def codes_in(code):
    """A compiled function or module, and all that are defined in it."""
    yield code
    for part in code.co_consts:
        if isinstance(part, types.CodeType):
            yield from codes_in(part)


class Handlers:
    """Which handlers of a function see an exception, by where it comes."""

    def __init__(self, code):
        bytecode = dis.Bytecode(code)
        self.instructions = list(bytecode)
        self._entries = bytecode.exception_entries
        self._names = {each.offset: each.opname for each in self.instructions}

    def at(self, offset):
        """The handlers of `try` and `with` that see one that comes at this instruction. Others, as those that give a comprehension's variable
        back, are passed through."""
        found, passed = set(), set()
        while offset is not None and offset not in passed:
            passed.add(offset)
            if self._names[offset] == "PUSH_EXC_INFO":
                found.add(offset)
            offset = next((each.target for each in self._entries if each.start <= offset < each.end), None)
        return found

    def lost(self):
        """The lines of the loops that an exception leaves past a handler, if it comes as they jump back."""
        for each in self.instructions:
            if each.opname == "JUMP_BACKWARD" and not self.at(each.jump_target) <= self.at(each.offset):
                yield each.positions.lineno


@unittest.skipIf(sys.version_info < (3, 13), "until Python 3.12 each jump is seen by the handlers around it")
class Compiled(unittest.TestCase):
    """In CPython 3.13 the jump by which a loop goes on by its condition, also the `if` at its end, isn't covered by the exception table: an
    interrupt that comes there is seen by no handler of this function, not even `finally`. So such a loop is a function of its own, whose
    caller has the `try` or `with`. Up to 3.12 all such jumps are covered, or the interrupt counts as one of an instruction that is."""

    def test_each_loop_jumps_back_where_the_handlers_around_it_see_an_interrupt(self):
        lost = []
        for file in sorted(pathlib.Path(wanzoche.__file__).parent.glob("*.py")):
            for code in codes_in(compile(file.read_text(), file.name, "exec")):
                lost += ["{}:{}".format(file.name, line) for line in Handlers(code).lost()]
        self.assertEqual(lost, [])

    def test_such_loops_are_found(self):
        def in_a_try(values):
            try:
                while values:
                    values.pop()
            finally:
                values.clear()

        def in_a_with(lock, values):
            with lock:
                return [each for each in values if each]

        def apart(lock, values):
            with lock:
                in_a_try(values)
            return [each for each in values if each]

        self.assertEqual([len(list(Handlers(each.__code__).lost())) for each in (in_a_try, in_a_with, apart)], [1, 1, 0])


if __name__ == "__main__":
    unittest.main()
