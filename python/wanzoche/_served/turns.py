"""Whose turn it is among those who wait, in this process and in others."""

from __future__ import annotations

import time
from typing import List, Optional, Set

from .._order import NEVER, Told
from .books import Books
from .order import LAST, Here, Standing
from .requests import Start


class Turns:
    """Says who of this process is held back, and for whom, by the replica and by the order that the server tells. It changes neither; but who has
    to ask again when a door opens sets the alarm for that. For who is at the clerk's desk."""

    def __init__(self, books: Books) -> None:
        self._log, self._replica, self._line = books.log, books.log.replica, books.log.waits.line
        self._wanted, self._holding, self._alarms = books.wanted, books.holding, books.alarms
        patience = books.log.waits.patience
        self._patience = NEVER if patience == float("inf") else int(patience * 1e9)

    def behind(self, start: Start) -> Optional[Told]:
        """For whom a start is withheld that wants its turn here; None if it isn't, also where a path forbids it."""
        ahead = self.withheld_for(start) if self._replica.can_start(start.held._op) else None
        return None if ahead is None else ahead.told(time.monotonic_ns())

    def ahead_of(self, op: int, caller: int) -> Optional[Told]:
        """For whom a start of this operation, which no path forbids, would be withheld of a thread or task that comes now."""
        now = time.monotonic_ns()
        ahead = self._line.withheld_for(Standing(op, 0, 2 * LAST - 1, now, NEVER, self._log.worker, caller), self._here(), now)
        return None if ahead is None else ahead.told(now)

    def waiters(self) -> List[Told]:
        """All who wait, in order."""
        now = time.monotonic_ns()
        here = [self._standing(each) for each in self._wanted.all_waiting()]
        return [each.told(now) for each in self._line.all(here)]

    def withheld_for(self, start: Start) -> Optional[Standing]:
        """For whom a start is withheld that no path forbids now. If it waits, it asks again when that one's door opens."""
        others = self._line.others
        if (not others or start.key() < others[0].key()) and self._wanted.is_only(start):
            return None
        now = time.monotonic_ns()
        ahead = self._line.withheld_for(self._standing(start), self._here(), now)
        if ahead is not None and start.waits:
            self._alarms.opens_at = min(self._alarms.opens_at, ahead.opens_at(now) * 1e-9)
        return ahead

    def is_held_back(self, start: Start) -> bool:
        """Whether a path forbids it, or it is withheld."""
        return not self._replica.can_start(start.held._op) or self.withheld_for(start) is not None

    def pass_on(self) -> None:
        """Behind what may let others go on of which no finish tells them: they are to be woken."""
        if self._line.others:
            self._wanted.wakes |= self._line.may_go_on(self._here(), time.monotonic_ns())

    def _standing(self, start: Start) -> Standing:
        return start.standing(self._log.worker, self._patience)

    def _here(self) -> Here:
        """Who waits here."""
        return Here([self._standing(each) for each in self._wanted.firsts()], self._resting)

    def _resting(self, caller: int) -> Set[int]:
        """What those have in progress who wait here, and this one."""
        return self._holding.of({each.caller for each in self._wanted.all_waiting()} | {caller})
