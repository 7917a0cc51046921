"""What is done next at the desk, of all that is to be done."""

from __future__ import annotations

import time

from .books import NEVER, Books
from .checks import Checks
from .flight import Flight
from .following import Following
from .replies import Replies
from .trips import Trips


class Steps:
    """One step is one call at the server, or several in a turn. For who is at the clerk's desk."""

    def __init__(self, books: Books, flight: Flight, following: Following, replies: Replies, checks: Checks, trips: Trips) -> None:
        self._log, self._wanted, self._slots, self._alarms = books.log, books.wanted, books.slots, books.alarms
        self._flight, self._following, self._replies, self._checks, self._trips = flight, following, replies, checks, trips
        self._has_moved = False  # whether the last step moved lines: then the next one does something else first

    def step(self) -> bool:
        """What is to be done of all that is wanted: False if there is nothing to do."""
        if self._flight.batch is not None:
            self._trips.send_again(self._flight.batch)
            return True
        self._wanted.read_inbox()
        return self.next()

    def next(self) -> bool:
        """The same, of what was read."""
        if self.is_idle():
            self._alarms.stop()
            return False
        self._replies.forget_unwanted()
        self._following.take_notices()
        if time.monotonic() >= self._alarms.check_at:
            self._checks.check()
            return True
        if self._following.is_stale or time.monotonic() >= self._alarms.opens_at:
            self._alarms.opens_at = NEVER
            self._following.follow()
            return True
        self._has_moved = self._has_to_move() and not self._has_moved
        if self._has_moved:
            self._log.segments.rotate(self._log.known.place)
            return True
        if self._wanted.questions and not (self._wanted.finishes or self._wanted.strays):
            self._checks.answer_questions()
            return True
        if self._trips.append():
            return True
        if self._wanted.questions:
            self._checks.answer_questions()
            return True
        return self._has_to_move()

    def _has_to_move(self) -> bool:
        """Whether older lines are to be moved to a segment."""
        return self._log.known.place.lines >= self._log.segments.due

    def is_idle(self, wakes_too: bool = False) -> bool:
        """Whether there is nothing to do, and nobody waits; or nothing but to wake others, which a finish does as well."""
        wanted = self._wanted
        has_work = wanted.has_other_than_starts() or self._following.is_stale or self._slots.are_used()
        has_others = wanted.wakes and not wakes_too or self._log.session.notices or wanted.has_starts()
        return not (has_work or has_others or self._has_to_move())
