"""What a process leaves that dies between two operations, over a store: where the second is entered within the first, the next processes
get in; where the first is left before, they don't, unless they mend it."""

import os
import threading
import time
import unittest
from contextlib import contextmanager

from wanzoche import Timeout

from .limits import LONGEST
from .stores import InFolder

NESTED = """resource pool cell
operation query, maintain, admit, announce
path { query : 3 } , maintain end
path admit , announce end
end
"""

IN_TURN = """resource pool cell
operation query, maintain, admit, announce
path { query : 3 } , maintain end
path admit , (announce ; maintain) end
end
"""

TABLE = """resource table cell
operation read, load, swap, drop, refresh
path refresh end
path load ; (swap , drop) end
path { read } , swap end
end
"""


@contextmanager
def connection(paths, timeout=LONGEST):
    """A query behind the door."""
    with paths("admit", timeout=timeout):
        query = paths.enter("query", timeout)
    try:
        yield
    finally:
        query.leave()


@contextmanager
def maintenance(paths, timeout=LONGEST):
    with paths("announce", timeout=timeout), paths("maintain", timeout=timeout):
        yield


class Dies(InFolder):
    def dead_in(self, text, operations):
        """Another process enters these operations, one within the other, and dies there."""

        def work():
            paths = self.open(text, sync=False)
            work.held = [paths.enter(each) for each in operations]

        self.dies(work)


class Doors(Dies, unittest.TestCase):
    def all_get_in(self, paths):
        """Three queries at once, and then a maintenance."""
        with connection(paths), connection(paths), connection(paths):
            self.assertEqual([each.operation for each in paths.report().live], ["query"] * 3)
        with maintenance(paths):
            self.assertEqual([each.operation for each in paths.report().live], ["announce", "maintain"])

    def test_whoever_dies_at_a_nested_door(self):
        paths = self.open(NESTED, sync=False)
        for held in (["admit"], ["admit", "query"], ["query"], ["announce"], ["announce", "maintain"]):
            with self.subTest(held=held):
                self.dead_in(NESTED, held)
                self.all_get_in(paths)
                self.assertEqual(paths.report().live, ())
        self.assertTrue(paths.audit())

    def test_those_that_wait_get_in(self):
        paths = self.open(NESTED, sync=False)
        for held in (["admit"], ["announce"], ["announce", "maintain"]):
            with self.subTest(held=held):
                into, out = os.pipe()
                child = self.child(lambda: self.holds(NESTED, held, out, into))
                os.read(into, 1)
                entered = threading.Event()

                def wait():
                    with connection(paths):
                        entered.set()

                thread = threading.Thread(target=wait)
                thread.start()
                self.until(lambda: paths.waiting())
                self.assertFalse(entered.is_set())
                os.kill(child, 9)
                os.waitpid(child, 0)
                thread.join(LONGEST)
                self.assertTrue(entered.is_set())
                self.all_get_in(paths)

    def holds(self, text, operations, told, other):
        """Enters these, says so, and waits until it is killed."""
        paths = self.open(text, sync=False)
        held = [paths.enter(each) for each in operations]
        os.write(told, b".")
        time.sleep(4 * LONGEST)
        del held, other

    def test_whoever_dies_between_two_in_turn(self):
        """It stands in nobody's name: nobody is lost, nothing is recovered, and no query gets in."""

        def work():
            self.open(IN_TURN, sync=False).enter("announce").leave()

        paths = self.open(IN_TURN, sync=False)
        self.dies(work)
        self.assertEqual((paths.report().lost, paths.report().live), ((), ()))
        with self.assertRaises(Timeout):
            paths.enter("admit", timeout=0.3)
        self.assertEqual(paths.why("admit").in_progress, ())


class Mended(Dies, unittest.TestCase):
    """`load` and `swap` in turn: whoever has `refresh` is alone, and drops what one that died has left."""

    def refresh(self, paths, dies_behind=None):
        with paths("refresh", timeout=LONGEST):
            left = paths.try_enter("drop")
            if left:
                left.leave()
            for each in ("load", "swap"):
                with paths(each, timeout=LONGEST):
                    if dies_behind == "in " + each:
                        os.kill(os.getpid(), 9)
                if dies_behind == each:
                    os.kill(os.getpid(), 9)
        return bool(left)

    def test_whoever_comes_next_mends_it(self):
        paths = self.open(TABLE, sync=False)
        for place, is_mended in (("in load", True), ("load", True), ("in swap", False), ("swap", False)):
            with self.subTest(place=place):
                self.dies(lambda: self.refresh(self.open(TABLE, sync=False), place))
                with paths("read", timeout=LONGEST):
                    pass
                self.assertEqual(self.refresh(paths), is_mended)
                self.assertFalse(self.refresh(paths))
        self.assertTrue(paths.audit())
