"""What is done when the session was cut, and when the server refuses a call."""

from __future__ import annotations

import logging
import time
from typing import List, Optional

from .. import _native as native
from .._errors import StoreError
from . import times
from .books import Books
from .calls import may_pass
from .catching_up import CatchingUp
from .connecting import Cut
from .desk import Desk
from .drafts import Drafts
from .flight import Flight
from .following import Following
from .replies import Replies
from .requests import Request, Start
from .trouble import Outage

_logger = logging.getLogger("wanzoche")


class Outages:
    """Begins another session after one was cut, and finds out what became of what was refused, however often that takes; between two attempts it
    waits, longer each time. Requests that are older than an outage may last fail meanwhile. For who is at the clerk's desk."""

    def __init__(
        self, books: Books, desk: Desk, drafts: Drafts, flight: Flight, following: Following, catching_up: CatchingUp, replies: Replies
    ) -> None:
        self._log, self._wanted, self._slots, self._alarms, self._trouble = books.log, books.wanted, books.slots, books.alarms, books.trouble
        self._desk, self._drafts, self._flight = desk, drafts, flight
        self._following, self._catching_up, self._replies = following, catching_up, replies
        self._refused: List[Request] = []  # who is told of a refusal when it is known what became of what was on its way

    # When the session was cut

    def come_back(self, error: BaseException) -> None:
        """Begins another session. Raises what is wrong if the clerk is to end, and has no time left, or if the log was removed."""
        outage, trouble, name = Outage(), self._trouble, self._log.name
        is_same: Optional[bool] = None
        trouble.away_since = outage.begun
        _logger.info("the log %s: the server doesn't answer: %s", name, error)
        while is_same is None:
            trouble.away = self._log.calls.silent(error)
            self._wanted.read_inbox()
            self._fail_old(outage.begun)
            if self._is_late():
                raise trouble.outage and trouble.outage.error or trouble.away
            try:
                is_same = self._log.come_back(time.monotonic() + min(times.CONNECTING, trouble.longest_outage))
            except (Cut, StoreError) as told:
                self._log.session.close()
                if self._log.is_removed:
                    raise
                error = told
                _logger.info("the log %s: the server is asked again: %s", name, told)
                self._desk.nap(outage.pause())
        _logger.info("the log %s: the server is there again, after %.1f s", name, time.monotonic() - outage.begun)
        self._is_back(is_same)

    def _is_back(self, is_same: bool) -> None:
        """In a new session, of the same worker or of another: what has to be found out."""
        trouble, batch = self._trouble, self._flight.batch
        trouble.away = trouble.away_since = None
        trouble.is_unsure = trouble.is_unsure or batch is not None and not batch.is_stepped and batch.before != self._log.known.place
        self._desk.forget_session()
        self._slots.doubt_all()
        self._alarms.check_at = 0.0
        self._following.is_stale = True
        if not is_same:
            self._catching_up.lose_all()

    def _is_late(self) -> bool:
        """Whether the clerk is to end, and has no time left."""
        return self._desk.ends and time.monotonic() > self._log.session.ends_by

    def _fail_old(self, begun: float) -> None:
        """In an outage since then: replies to those who have waited long enough."""
        before = time.monotonic() - self._trouble.longest_outage
        for request in self._flight.requests():
            if isinstance(request, Start) and (request.is_late or begun < before):
                request.is_unwanted = True
                request.reply(native.CLOSED, self._trouble.away)
        if begun < before:
            self._flight.give_up()
        self._replies.forget_unwanted()
        self._replies.fail([each for each in self._wanted.all() if max(each.since, begun) < before], self._trouble.away)

    # When the server refuses a call

    def note_refusal(self, error: Exception) -> None:
        """What was on its way may have been done or not, and a transaction may be open. Who wanted something is told so when that is known,
        or if it can't be known. A call that was only cancelled is made again, and nobody is told."""
        trouble = self._trouble
        trouble.outage = trouble.outage or Outage()
        is_second, trouble.refusal, trouble.away = trouble.refusal is not None, error, error
        if not may_pass(error):
            trouble.outage.error = error
            wanted = self._wanted
            starts = [each for each in wanted.all_starts() if not (each.waits and each.has_looked)]
            self._refused = [*starts, *wanted.uses, *wanted.finishes, *wanted.questions, *self._flight.requests()]
            if is_second:
                self._flight.give_up()
                self._replies.fail(self._refused, error)

    def wait_out(self) -> None:
        """After a refusal, before the server is asked again. Raises it if the clerk is to end, and has no time left."""
        outage = self._trouble.outage or Outage()
        self._wanted.read_inbox()
        self._fail_old(outage.begun)
        if self._trouble.away is not None and self._is_late():
            raise self._trouble.away
        self._desk.nap(outage.pause())

    def settle_refusal(self) -> None:
        """Finds out what became of what was on its way; then tells those who were refused."""
        trouble, batch = self._trouble, self._flight.batch
        self._log.appends.end_turn()
        if trouble.is_unsure or batch is not None and batch.is_stepped:
            self._catching_up.begin_anew()
        else:
            self._catching_up.catch_up()
        self._drafts.put_back(self._drafts.finishes())
        error, refused, self._refused = trouble.refusal, self._refused, []
        trouble.refusal = trouble.away = None
        self._replies.fail(refused, error)
