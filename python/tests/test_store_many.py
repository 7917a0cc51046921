"""Many processes over one store, killed at random moments (witness.py). Wrong stores, made by changing one thing each, show that what is
wrong is noticed. WANZOCHE_ROUNDS makes more rounds, and WANZOCHE_SEED repeats one.
"""

import random
import unittest
from unittest import mock

import wanzoche
from wanzoche import Paths, StoreLate, Timeout, _store

from . import witness
from .declarations import BOOK, SLOT
from .limits import LONGEST
from .stores import THOROUGH
from .witness import BUFFER, ROUNDS

IMPATIENCE = 20
"""After so many seconds in which nobody gets on a wrong store is found."""


class Worker(witness.Worker):
    """One process of a round."""

    def run(self, entries):
        paths = Paths(self.round.text, store=self.round.store, sync=self.round.sync)
        if self.round.kills:
            for name in ("start_now", "finish_now", "sleep"):
                self.dies_around(_store.Store, name, 0.001)
        for each in range(entries):
            operation = paths.operations[each % 2] if self.round.text != BOOK else random.choice(paths.operations)
            try:
                entry = paths.enter(operation, timeout=LONGEST if self.round.text == BOOK else 0.2)
            except (Timeout, StoreLate):
                if self.round.text == BOOK:
                    raise
                continue  # the partners may be dead
            self.note("entered", entry.token, operation)
            token = entry.token
            self.body(operation, token)
            entry.leave()
            self.note("left", token)
        paths.close()


class Round(witness.Round):
    """Processes over one file."""

    worker = Worker

    def __init__(self, text, processes, entries, *, kills=0.0, sync=False, room=1048576, patience=LONGEST):
        super().__init__(text, processes, entries, kills=kills, patience=patience)
        self.sync, self.room = sync, room

    @property
    def store(self):
        return self.folder + "/door.log"

    def first(self):
        return Paths(self.text, store=self.store, room=self.room)

    def again(self):
        return Paths(self.text, store=self.store)


class Many(unittest.TestCase):
    def rounds(self, *given, **named):
        for _ in range(ROUNDS):
            self.assertEqual(Round(*given, **named).run(), [])

    @unittest.skipUnless(THOROUGH, "it takes long")
    def test_a_book(self):
        self.rounds(BOOK, 8, 200)

    def test_a_book_that_is_synced(self):
        self.rounds(BOOK, 4, 60, sync=True)

    @unittest.skipUnless(THOROUGH, "it takes long")
    def test_a_slot(self):
        self.rounds(SLOT, 4, 200)

    @unittest.skipUnless(THOROUGH, "it takes long")
    def test_a_buffer(self):
        self.rounds(BUFFER, 6, 200)

    def test_a_book_with_deaths(self):
        self.rounds(BOOK, 6, 150, kills=0.03)

    def test_a_slot_with_deaths(self):
        self.rounds(SLOT, 6, 150, kills=0.03)

    def test_a_buffer_with_deaths(self):
        self.rounds(BUFFER, 6, 150, kills=0.03, sync=True)

    def test_files_that_are_moved_away(self):
        self.rounds(BOOK, 6, 150, kills=0.03, room=30)


@unittest.skipUnless(THOROUGH, "it takes long")
class WrongStores(unittest.TestCase):
    """One thing is changed in each, and a round has to find it."""

    def found(self, *patches, text=BOOK, kills=0.0, patience=IMPATIENCE):
        for patch in patches:
            patch.start()
        try:
            for _ in range(20):
                wrong = Round(text, 6, 150, kills=kills, patience=patience).run()
                if wrong:
                    return
        finally:
            for patch in patches:
                patch.stop()
        self.fail("nothing was noticed")

    def test_it_says_started_of_what_is_blocked(self):
        admits = _store.Store.admits
        self.found(mock.patch.object(_store.Store, "admits", lambda store, *given: random.random() < 0.05 or admits(store, *given)))

    def test_it_forgets_to_finish(self):
        finish = _store.Store.finish

        def forgets(store, begun):
            if random.random() < 0.95:
                return finish(store, begun)
            begun._live = False
            return wanzoche._native.FINISHED, begun

        self.found(mock.patch.object(_store.Store, "finish", forgets), patience=1.5)

    def test_it_keeps_what_the_dead_had(self):
        opens = _store.Store.__init__

        def keeps(store, *given, **named):
            opens(store, *given, **{**named, "finishes_lost": False})

        self.found(mock.patch.object(_store.Store, "__init__", keeps), kills=0.3, patience=1.5)


if __name__ == "__main__":
    unittest.main()
