"""What a process finds of itself in the log, when it isn't known what became of what it has sent."""

from __future__ import annotations

from typing import Optional

from .books import Books
from .flight import Flight
from .following import Following
from .requests import Batch


class CatchingUp:
    """Makes what is known here what stands in the log. For who is at the clerk's desk. If it is cut off, it is done again."""

    def __init__(self, books: Books, following: Following, flight: Flight) -> None:
        self._log, self._wanted, self._holding, self._slots = books.log, books.wanted, books.holding, books.slots
        self._trouble, self._following, self._flight = books.trouble, following, flight

    def begin_anew(self) -> None:
        """Follows the log from its begin: what this process holds is what stands in it."""
        self._trouble.is_unsure = True  # until all is done: the session may be cut meanwhile
        self._log.known.forget()
        self.catch_up()
        self._trouble.is_unsure = False

    def catch_up(self) -> None:
        """Follows the log: what was on its way is there, or is wanted as before. What this process holds is what stands there."""
        self._following.follow()
        own = {each.number for each in self._log.replica.live() if each.worker == self._log.worker}
        batch = self._flight.batch
        found = None if batch is None else self._found(batch)
        gone = sorted(set(self._holding.held) - own)
        ended = self._log.texts.own_finishes(gone)
        if found is not None or ended:
            self._log.calls.make_last()
        if batch is not None and found is not None:
            self._flight.batch = batch._replace(lines=())
            self._flight.confirm(found)
        self._flight.take_back()
        for number in gone:
            self._holding.drop(number, number in ended)  # and whoever leaves it is told so
        self._wanted.strays.update(own - set(self._holding.held))

    def _found(self, batch: Batch) -> Optional[Batch]:
        """It as it stands in the log; None if its lines don't."""
        starting, begin, text = batch.starting, batch.before.lines, batch.text()
        number = None if starting is None else self._log.texts.begun(starting, begin)
        if number is not None:
            return batch.with_number(number)
        return batch if text is not None and self._log.texts.has(text, begin) else None

    def lose_all(self) -> None:
        """The worker was taken for dead, and this is another: what was in progress is others'."""
        self._holding.forget_all()
        self._trouble.is_unsure = True
        self._flight.take_back()
        self._wanted.strays.clear()
        self._slots.forget()
