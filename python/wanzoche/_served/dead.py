"""Which workers of a log are dead, and what becomes of what they have in progress and of their rows."""

from __future__ import annotations

from typing import Sequence, Set

from .._replica import Replica
from .calls import LogCalls, Moved
from .known import Known
from .session import Call, Row, array


class Dead:
    """Asks the server who is dead: it alone decides. For who is at the clerk's desk."""

    def __init__(self, calls: LogCalls, known: Known, replica: Replica, only_looks: bool) -> None:
        """One that `only_looks` writes nothing, so it can't note since when a worker has had no session."""
        self._calls, self._known, self._replica, self._only_looks = calls, known, replica, only_looks

    def among(self, workers: Sequence[int]) -> Set[int]:
        """Which of these are dead."""
        if not workers:
            return set()
        name = b"seem_dead" if self._only_looks else b"dead"
        rows = self._calls.call(Call(name, (self._calls.log, array(workers), self._calls.grace)))[0]
        return {int(row[0]) for row in rows if row[0] is not None}

    def bury(self, whose: int, over: Sequence[int], wakes: Sequence[int], even_alive: bool) -> bool:
        """Finishes activations of another worker: False if it isn't dead. Follow the log then."""
        calls = self._calls
        given: Row = (calls.log, calls.own(), b"%d" % whose, array(over), array(wakes), calls.grace, b"t" if even_alive else b"f")
        try:
            return calls.call(Call(b"bury", (*given, b"%d" % self._known.place.lines)), *calls.lasts())[0][0][0] == b"t"
        except Moved:
            self._known.follow()
        left = [each for each in over if self._replica.has_live(whose, each)]
        return not left or self.bury(whose, left, wakes, even_alive)

    def sweep(self) -> None:
        """Forgets the dead that have nothing in progress. Whoever opens the log does so, since each opening adds a worker."""
        named = sorted({each.worker for each in self._replica.live()})
        calls = self._calls
        calls.call(Call(b"sweep", (calls.log, b"%d" % self._known.place.lines, array(named), calls.grace)))

    def stop(self) -> None:
        """From now on nobody wakes one that is dead and waited."""
        self._calls.call(Call(b"stop_dead", (self._calls.log,)))
