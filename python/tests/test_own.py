"""Who waits within itself, for what only it can leave, is told so; and so is who holds up its loop."""

import asyncio
import itertools
import logging
import pickle
import random
import threading
import time
import unittest
import warnings
from unittest import mock

from wanzoche import Closed, Paths, Timeout, _waiting
from wanzoche import _native as native
from wanzoche._held_up import Braces, braces_of, held_up

from .declarations import BOOK, SLOT
from .interrupts import at_instruction, ends_a_hang, interrupt, may_leave_unused
from .limits import LONGEST

ONE = "resource r cell operation a path a end end"
PAIRS = "resource r cell operation a, b path {{ a ; b{} }} end end"
BURSTS = "resource r cell operation a, b path { a } , { b } end end"
FULL = "resource r cell operation a, b, z path b , z end path { a , b : 1 } end end"
TWO = "resource r cell operation x, y, z path x , y end path y ; z end end"
KNOT = "resource r cell operation a, b, c path a ; b end path b ; a end path c end end"


class Own(unittest.TestCase):
    def setUp(self):
        guard = ends_a_hang()
        guard.__enter__()
        self.addCleanup(guard.__exit__, None, None, None)

    def own(self, text, held, operation, others=()):
        """What a thread is told of it that has these in progress, beside others, and tries once."""
        paths = Paths(text)
        entries = []
        others_hold = threading.Thread(target=lambda: entries.extend(paths.enter(each) for each in others))
        others_hold.start()
        others_hold.join()
        entries += [paths.enter(each) for each in held]
        with self.assertRaises(Timeout) as caught:
            paths.enter(operation, timeout=0)
        for each in entries:
            each.leave()
        return [each for each, _ in caught.exception.own]

    def test_what_nobody_else_can_help(self):
        for text, held, operation, others in (
            (ONE, "a", "a", ()),
            (SLOT, ["deposit"], "deposit", ()),
            (SLOT, ["deposit"], "remove", ()),
            (BOOK, ["read"], "write", ()),
            (BOOK, ["read"], "write", ["read"]),  # another reader, whose end doesn't help
            (BOOK, ["write"], "read", ()),
            (PAIRS.format(" : 1"), "a", "a", ()),
            (PAIRS.format(" : 2"), "aa", "a", ()),
            (PAIRS.format(" : 2"), "aa", "b", ()),
            (TWO, "x", "y", ()),
            (BURSTS, "a", "b", ()),
            (FULL, "a", "b", "z"),  # the end of z doesn't help
            (TWO, "x", "z", ()),  # z comes behind y, and y isn't beside x
        ):
            with self.subTest(text, held=held, operation=operation):
                self.assertEqual(self.own(text, held, operation, others), list(held))

    def test_what_others_can_help(self):
        for text, held, operation, others in (
            (ONE, "", "a", "a"),
            (BOOK, [], "write", ["read"]),
            (PAIRS.format(""), "a", "b", ()),  # another a may begin and end
            (PAIRS.format(" : 2"), "a", "b", ()),
            (PAIRS.format(" : 2"), "a", "a", "a"),
            (TWO, "", "z", ()),
            (KNOT, "c", "a", ()),  # nobody can help here, and c has nothing to do with it
        ):
            with self.subTest(text, held=held, operation=operation):
                self.assertEqual(self.own(text, held, operation, others), [])

    def test_its_words(self):
        paths = Paths(BOOK)
        with paths("read"):
            with self.assertRaises(Timeout) as caught:
                paths.enter("write", timeout=0)
            self.assertEqual(paths.why("write").own, ())  # nobody waits now
        why = caught.exception
        told = "write is blocked: path 0 of book: { read } , write; in progress: read by thread 1; nobody else can help before this is left: "
        self.assertEqual((str(why), why.own), (told + "read by thread 1", (("read", "thread 1"),)))
        self.assertEqual(pickle.loads(pickle.dumps(why)).own, why.own)

    def test_others_are_told_of_one_that_waits(self):
        paths, entries = Paths(ONE), []

        def waits():
            entries.append(paths.enter("a"))
            with paths("a"):
                pass

        thread = threading.Thread(target=waits)
        thread.start()
        while not paths.waiting():
            time.sleep(0.001)
        why = paths.why("a")
        entries[0].leave()
        thread.join(LONGEST)
        self.assertEqual(why.own, (("a", "thread 1"),))
        self.assertEqual(str(why)[-46:], "; nobody else can help before this is left: a by thread 1"[-46:])

    def test_braces(self):
        paths = Paths("resource r cell operation a, b, c, d, e path a , { b ; ( c , d ) : 12 } ; { e } end end")
        bound, open_ended = Braces(0, 12), Braces(1, None)
        self.assertEqual(braces_of(paths.paths[0]), {"b": bound, "c": bound, "d": bound, "e": open_ended})

    def test_a_search_agrees(self):
        """Over declarations at random: what is said to be held up begins in no schedule in which others do what they can, two at a time."""
        chance, found = random.Random(1974), 0
        for _ in range(300):
            found += self.agrees(declaration(chance), chance)
        self.assertGreater(found, 200)

    def agrees(self, text, chance):
        """How many operations are held up after some starts of one's own and of others. Fails if one of them can begin all the same."""
        events = []
        for _ in range(chance.randrange(1, 5)):
            may_begin = after(text, events).report().startable
            if may_begin:
                events.append((chance.choice(may_begin), chance.choice([OWN, OWN, OTHER])))
                if chance.random() < 0.3:
                    events.append((sum(each in (OWN, OTHER) for _, each in events) - 1, END))
        paths = after(text, events)
        held = held_up(paths.paths, paths.report(), ["thread 1"])
        if held:
            self.assertEqual(held & begun_by_others(text, events), set(), (text, events))
        return len(held)


END, OWN, OTHER = range(3)
"""What an event is: the end of the start of this number, or the start of an operation by oneself or by others."""


def declaration(chance):
    """A declaration at random: two paths over four operations."""
    paths = ""
    for _ in range(2):
        names, parts = chance.sample("abcd", chance.randrange(1, 5)), []
        while names:
            count = chance.randrange(1, len(names) + 1)
            part = chance.choice([" ; ", " , "]).join(names[:count])
            parts.append(chance.choice(["{{ {} }}", "{{ {} : 1 }}", "{{ {} : 2 }}", "( {} )"]).format(part))
            del names[:count]
        paths += " path {} end".format(chance.choice([" ; ", " , "]).join(parts))
    return "resource r cell operation a, b, c, d{} end".format(paths)


def after(text, events):
    """Paths behind events."""
    paths, started = Paths(text, journal=False, room=64), []
    for what, kind in events:
        if kind == END:
            native.finish(paths._at, *started[what])
        else:
            started.append((kind, native.start(paths._at, kind, "abcd".index(what)).number))
    return paths


def steps_of_others(report, events):
    """What others can do next, of whom two at most have something in progress."""
    ended = {what for what, kind in events if kind == END}
    kinds = [kind for _, kind in events if kind != END]
    theirs = [number for number, kind in enumerate(kinds) if kind == OTHER and number not in ended]
    return [(number, END) for number in theirs] + [(each, OTHER) for each in report.startable if len(theirs) < 2]


def begun_by_others(text, events):
    """The operations that can begin in a schedule of up to five more events of others."""
    begun, seen, now = set(), set(), [events]
    for _ in range(5):
        following = []
        for before in now:
            report = after(text, before).report()
            begun |= set(report.startable)
            following += [before + [step] for step in steps_of_others(report, before)]
        now = [each for each in following if is_new(text, each, seen)]
    return begun


def is_new(text, events, seen):
    """Whether the paths weren't seen like this, as far as a report tells. Then they are."""
    report = after(text, events).report()
    mark = (report.startable, tuple(report.blocked.items()), tuple(sorted(each[1:] for each in report.live)))
    known = mark in seen
    seen.add(mark)
    return not known


class Told(unittest.TestCase):
    """What is logged of who waits within itself."""

    def setUp(self):
        guard = ends_a_hang()
        guard.__enter__()
        self.addCleanup(guard.__exit__, None, None, None)
        patch = mock.patch.object(_waiting, "FIRST_LOOK", 0.02)
        patch.start()
        self.addCleanup(patch.stop)

    WORDS = "{0} waits for itself: a is blocked: path 0 of r: a; in progress: a by {1}; nobody else can help before this is left: a by {1}"

    def until(self, condition):
        end = time.monotonic() + LONGEST
        while not condition():
            self.assertLess(time.monotonic(), end, "it never comes")
            time.sleep(0.001)

    def looks(self):
        """What gets something at each look at those that wait, from now on."""
        looked, look = [], Paths._look_at

        def looks(paths, waiters):
            look(paths, waiters)
            looked.append(waiters)

        patch = mock.patch.object(Paths, "_look_at", looks)
        patch.start()
        self.addCleanup(patch.stop)
        return looked

    def closes(self, paths, condition):
        """In a thread: closes paths when something holds, and a moment later, in which nothing else should be told."""

        def waits():
            self.until(condition)
            time.sleep(0.1)
            paths.close()

        thread = threading.Thread(target=waits)
        thread.start()
        self.addCleanup(thread.join)

    def waits_within_itself(self, paths, condition):
        """A thread that waits within itself until something holds, and a moment longer: then this one leaves what that one has entered."""
        entered = []

        def waits():
            entered.append(paths.enter("a"))
            with paths("a"):
                pass

        thread = threading.Thread(target=waits)
        thread.start()
        self.until(condition)
        time.sleep(0.2)
        entered[0].leave()
        thread.join(LONGEST)
        self.assertFalse(thread.is_alive())

    def test_a_thread_once_a_wait(self):
        paths = Paths(ONE)
        for number in (1, 2):
            with self.assertLogs("wanzoche", logging.WARNING) as told:
                self.waits_within_itself(paths, lambda: told.records)
            worker = "thread {}".format(number)
            self.assertEqual([each.getMessage() for each in told.records], [self.WORDS.format(worker, worker)])

    def test_a_task(self):
        paths = Paths(ONE)

        async def waits():
            async with paths.aio("a"):
                async with paths.aio("a"):
                    pass

        async def main(told):
            task = asyncio.ensure_future(waits())
            while not told.records:
                await asyncio.sleep(0.001)
            await asyncio.sleep(0.2)
            task.cancel()
            await asyncio.wait([task])
            self.assertTrue(task.cancelled())

        with self.assertLogs("wanzoche", logging.WARNING) as told:
            asyncio.run(main(told))
        self.assertEqual([each.getMessage() for each in told.records], [self.WORDS.format("task 1", "task 1")])

    def test_a_thread_within_its_task(self):
        paths = Paths(ONE)

        async def waits():
            async with paths.aio("a"):
                with paths("a"):
                    pass

        with self.assertLogs("wanzoche", logging.WARNING) as told, self.assertRaises(Closed):
            self.closes(paths, lambda: told.records)
            asyncio.run(waits())
        self.assertEqual([each.getMessage() for each in told.records], [self.WORDS.format("thread 1", "task 1")])

    def test_it_is_looked_again(self):
        """The end of the other's a might help, and doesn't: behind it comes b, which isn't beside h."""
        paths = Paths("resource r cell operation a, b, h path a ; b end path b , h end end")
        other, left, looked = [], threading.Event(), self.looks()
        thread = threading.Thread(target=lambda: (other.append(paths.enter("a")), left.wait(LONGEST), other[0].leave()))
        thread.start()

        def leaves():
            self.until(lambda: looked)
            left.set()

        self.until(lambda: other)
        leaving = threading.Thread(target=leaves)
        with self.assertLogs("wanzoche", logging.WARNING) as told, self.assertRaises(Closed):
            leaving.start()
            self.closes(paths, lambda: told.records)
            with paths("h"), paths("a"):
                pass
        for each in (leaving, thread):
            each.join()
        self.assertEqual([each.getMessage()[-19:] for each in told.records], ["left: h by thread 2"])

    def test_nothing_while_another_has_to_leave_something(self):
        paths, others, looked = Paths(PAIRS.format(" : 2")), [], self.looks()
        thread = threading.Thread(target=lambda: others.append(paths.enter("a")))
        thread.start()
        thread.join()
        with self.assertLogs("wanzoche", logging.WARNING) as told, self.assertRaises(Closed):
            logging.getLogger("wanzoche").warning("begun")
            self.closes(paths, lambda: len(looked) > 2)
            with paths("a"), paths("b"):
                pass
        self.assertEqual([each.getMessage() for each in told.records], ["begun"])
        self.assertRaises(Closed, others[0].leave)

    def refused(self, call):
        with self.assertRaises(Timeout):
            call()

    def test_nothing_where_others_can_help(self):
        paths, looked = Paths(SLOT), self.looks()

        def removes():
            self.until(lambda: len(looked) > 2)
            paths.enter("remove").leave()

        with self.assertLogs("wanzoche", logging.WARNING) as told:
            logging.getLogger("wanzoche").warning("begun")
            thread = threading.Thread(target=removes)
            thread.start()
            for _ in range(2):
                paths.enter("deposit").leave()
            thread.join()
        self.assertEqual([each.getMessage() for each in told.records], ["begun"])

    def test_want_of_memory_ends_no_wait(self):
        paths = Paths(ONE)
        with mock.patch.object(Paths, "report", side_effect=MemoryError) as report:
            self.waits_within_itself(paths, lambda: report.call_count > 1)

    def test_one_that_is_closed_meanwhile(self):
        paths = Paths(ONE)
        with mock.patch.object(_waiting, "FIRST_LOOK", 0.2):
            threading.Timer(0.05, paths.close).start()
            with self.assertRaises(Exception) as caught, paths("a"):
                paths.enter("a")
        self.assertEqual(type(caught.exception).__name__, "Closed")

    def test_an_interrupt_while_it_looks(self):
        may_leave_unused(self)
        paths = Paths(ONE)
        logger, steps = logging.getLogger("wanzoche"), itertools.count()
        clock = mock.Mock(monotonic=lambda: next(steps) * 0.0001)  # so that it looks as often in each wait
        with mock.patch.object(_waiting, "FIRST_LOOK", 0.0), mock.patch.object(logger, "disabled", True):
            entry = paths.enter("a")
            number = 0
            with mock.patch.object(_waiting, "time", clock):
                while at_instruction(number, interrupt, lambda: self.refused(lambda: paths.enter("a", timeout=0.001))):
                    self.assertEqual(paths.waiting(), {}, number)
                    number += 5
            entry.leave()
        self.assertGreater(number, 200)
        self.assertEqual(paths.report().live, ())


class InALoop(unittest.TestCase):
    """In asyncio's debug mode a `with` that may hold up its loop warns."""

    def told_in(self, call, debug=True):
        """What the warnings say that the call gives in a coroutine."""

        async def main():
            call()

        with warnings.catch_warnings(record=True) as told:
            warnings.simplefilter("always")
            asyncio.run(main(), debug=debug)
        self.assertEqual({each.filename for each in told} - {__file__}, set())
        return [str(each.message) for each in told if each.category is RuntimeWarning]

    WORDS = "with paths('write') in a coroutine holds up its loop while it waits: write `async with paths.aio('write'):`"

    def test_the_first_time(self):
        paths = Paths(BOOK)

        def writes():
            for _ in range(3):
                with paths("write"):
                    pass

        self.assertEqual(self.told_in(writes), [self.WORDS])
        self.assertEqual(self.told_in(lambda: Paths(BOOK).enter("write").leave()), [self.WORDS])
        self.assertEqual(self.told_in(Paths(BOOK).guards("write")(lambda: None)), [self.WORDS])

    def test_one_that_waits(self):
        paths = Paths(BOOK)
        paths.enter("write").leave()

        def writes():
            with self.assertRaises(Timeout), paths("write", timeout=0.01):
                pass

        with paths("read"):
            self.assertEqual(self.told_in(writes), [self.WORDS])

    def test_nothing_else(self):
        paths = Paths(BOOK)
        self.assertEqual(self.told_in(lambda: paths.enter("write").leave(), debug=False), [])

        def holds_nothing_up():
            other = Paths(BOOK)
            entry = other.try_enter("write")
            with self.assertRaises(Timeout):
                other.enter("write", timeout=0)
            entry.leave()
            thread = threading.Thread(target=lambda: other.enter("write").leave())
            thread.start()
            thread.join()

        self.assertEqual(self.told_in(holds_nothing_up), [])


if __name__ == "__main__":
    unittest.main()
