"""Trips to the server: each brings there what is wanted now, and back what has come meanwhile."""

from __future__ import annotations

from typing import Dict

from .books import Books
from .catching_up import CatchingUp
from .drafts import Drafts
from .flight import Flight
from .following import Following
from .replies import Replies
from .requests import Batch, Finish, Start
from .turns import Turns
from .wishes import Wishes

BEATEN = 8
"""After so many appends that came too late the next one is made in a turn: that keeps all others waiting for two calls."""


class Trips:
    """Appends what is wanted, and replies. For who is at the clerk's desk."""

    def __init__(
        self,
        books: Books,
        turns: Turns,
        drafts: Drafts,
        flight: Flight,
        following: Following,
        catching_up: CatchingUp,
        replies: Replies,
    ) -> None:
        self._log, self._wanted, self._holding, self._slots = books.log, books.wanted, books.holding, books.slots
        self._alarms, self._trouble = books.alarms, books.trouble
        self._turns, self._drafts, self._flight = turns, drafts, flight
        self._following, self._catching_up, self._replies = following, catching_up, replies
        self.beaten = 0
        """So many appends came too late, one behind another."""

    def append(self) -> bool:
        """What is wanted now, in one append. False if nothing is."""
        self._alarms.opens_at = float("inf")
        self._replies.reply_blocked()
        finishes = self._drafts.finishes()
        wanted = self._drafts.admissible()
        if len(wanted) > 1 or wanted and self.beaten >= BEATEN:
            self._append_in_turn(finishes)
            return True
        batch = self._drafts.one(wanted, finishes)
        if batch is not None:
            self.send(batch)
        return batch is not None

    def _append_in_turn(self, finishes: Dict[int, Finish]) -> None:
        """Several lines, for which the replica makes each attempt while nobody else appends."""
        self._drafts.put_back(finishes)  # should the turn be cut off
        self._log.appends.turn()
        self._following.looked()
        self.beaten = 0
        batch = self._drafts.several(self._drafts.finishes())
        if batch is None:
            self._log.appends.end_turn()
        else:
            self.send(batch)

    def send(self, batch: Batch) -> None:
        """Appends, and replies. If the session is cut meanwhile, the batch is sent again by the next one. If the server refuses something,
        the batch is on its way until the log says whether its lines are there."""
        self._flight.batch = batch
        is_in, taken, begun = self._log.appends.append(
            batch.text(),
            batch.wishes,
            before=batch.before,
            is_stepped=batch.is_stepped,
            starting=batch.starting,
            looks=self._looks_with(batch),
        )
        self._flight.batch, self._trouble.outage = None, None
        self._slots.note(batch.wishes, is_in or not batch.lines)
        self._following.looked()
        for number in batch.wishes.over:
            self._flight.finished(batch.finishes[number], number, number in taken)
        if is_in:
            self.beaten = 0
            self._flight.confirm(batch if begun is None else batch.with_number(begun))
        elif batch.lines:
            self._was_late(batch)
        if is_in or any(each.holds for each in batch.wishes.waits):
            self._turns.pass_on()
        self._replies.reply_blocked()

    def _was_late(self, batch: Batch) -> None:
        """Others were quicker."""
        self.beaten += 1
        self._wanted.wakes.update(batch.wishes.wakes)
        self._flight.revert(batch)
        if batch.is_stepped:
            self._catching_up.begin_anew()

    def _looks_with(self, batch: Batch) -> bool:
        """Whether it is asked with an append who waits: if others wait here, or did elsewhere, or the one that begins has waited. Else a
        start that meets nobody asks nothing."""
        begins = [request for request, _ in batch.lines if isinstance(request, Start)]
        if begins and (self._log.waits.line.others or any(each.slot is not None for each in begins)):
            return True
        return any(each not in begins for each in self._wanted.all_starts())

    def send_again(self, batch: Batch) -> None:
        """Of one whose answer wasn't read. If somebody was told meanwhile that it hasn't been done, it is only found out whether it was."""
        if not any(each.is_over() for each in self._flight.requests()):
            self.send(batch)
        elif batch.is_stepped:
            self._catching_up.begin_anew()
        else:
            self._catching_up.catch_up()

    def finish_all(self) -> None:
        """At the end: finishes what is in progress, and gives the worker's number up."""
        log = self._log
        self._wanted.read_inbox()
        while self._flight.batch is not None:
            self.send_again(self._flight.batch)
        self._following.follow()
        numbers = [each.number for each in log.replica.live() if each.worker == log.worker]
        if numbers:
            wishes = Wishes(tuple(numbers), tuple(self._holding.rivals_of(numbers)))
            log.appends.append(None, wishes, before=log.known.place, is_stepped=False)
        log.leave()
