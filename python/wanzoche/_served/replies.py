"""Who is told that he has to do without: too late, blocked, refused, or at the end of all."""

from __future__ import annotations

import itertools
from typing import Any, Callable, List, Optional, Sequence

from .. import _native as native
from .._errors import Closed
from .._order import Told
from .books import Books
from .burying import Burying
from .requests import Finish, Request, Start, wake_nobody
from .turns import Turns


class Replies:
    """Replies to those who don't get what they want. For who is at the clerk's desk."""

    def __init__(self, books: Books, turns: Turns, burying: Burying) -> None:
        self._wanted, self._trouble, self._turns, self._burying = books.wanted, books.trouble, turns, burying
        self.explains: Callable[[int, Optional[Told]], Any] = lambda op, told: None
        """Called of an operation, and for whom it is withheld: what is in its way, as far as is known without a call at the server."""

    def forget_unwanted(self) -> None:
        """Replies to those whose time is over, and forgets those who want nothing any more."""
        for start in self._wanted.all_starts():
            if start.is_late and not start.is_over():
                start.told = self.explains(start.held._op, self._turns.behind(start))
                start.reply(native.BLOCKED, self._trouble.away)
        self._wanted.forget_over()

    def reply_blocked(self) -> None:
        """To those that don't wait, unless a dead worker was in their way. A request stays where it is until no call may be cut off."""
        if not self._wanted.has_starts():
            return
        self._note_waits()
        blocked = self._blocked()
        if blocked and self._burying.bury_dead():
            blocked = self._blocked()
        for start in blocked:
            self._wanted.starts[start.held._op].remove(start)
            start.reply(native.BLOCKED)

    def _note_waits(self) -> None:
        """Of those that have to wait."""
        queues = [queue for queue in self._wanted.starts.values() if queue and self._turns.is_held_back(queue[0])]
        for start in itertools.chain.from_iterable(queues):
            start.has_waited = start.waits and start.has_looked

    def _blocked(self) -> List[Start]:
        """Those that don't wait, and for which the log was looked at, where a path forbids the start or it is withheld."""
        looked = [each for each in self._wanted.all_starts() if not each.waits and each.has_looked]
        return [each for each in looked if self._turns.is_held_back(each)]

    def fail(self, requests: Sequence[Request], error: Optional[Exception]) -> None:
        """Replies that this has gone wrong. A finish that nobody waits for is made when that can be."""
        for request in requests:
            if isinstance(request, Finish) and request.wake is wake_nobody:
                self._wanted.strays.add(request.held._number)
            request.reply(native.CLOSED, error)
        self.forget_unwanted()

    def refuse_all(self, on_their_way: Sequence[Request]) -> None:
        """After the end, to all who ask, and to these: that it is over, and why."""
        self._wanted.read_inbox()
        for request in [*self._wanted.all(), *on_their_way]:
            request.reply(native.CLOSED, self._trouble.fault or Closed("these paths were closed"))
        self._wanted.clear()
