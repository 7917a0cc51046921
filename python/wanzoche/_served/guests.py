"""Threads that do themselves at the desk what they want, while the clerk sleeps and nobody else wants anything."""

from __future__ import annotations

import time
from typing import Callable, List, Optional, TypeVar

from .._errors import CorruptStore, StoreError
from .books import NEVER, Books
from .calls import Gone
from .connecting import Cut
from .desk import Desk
from .drafts import Drafts
from .flight import Flight
from .following import Following
from .outages import Outages
from .requests import Batch, Bell, Finish, Request, Start
from .steps import Steps
from .trips import Trips

T = TypeVar("T")


class Guests:
    """Has a thread work at the desk for one request of its own, and wait for the session itself. An interrupt may cut it off at any
    instruction; then the clerk mends what it was at. `do` and `wait_here` are for any thread, the others for the clerk."""

    def __init__(
        self, books: Books, desk: Desk, drafts: Drafts, flight: Flight, following: Following, trips: Trips, steps: Steps, outages: Outages
    ) -> None:
        self._books, self._desk, self._drafts, self._flight, self._following = books, desk, drafts, flight, following
        self._session, self._wanted, self._alarms, self._trouble = books.log.session, books.wanted, books.alarms, books.trouble
        self._trips, self._steps, self._outages = trips, steps, outages
        self._here: Optional[Request] = None  # what a thread does at the desk, or did when it was interrupted
        self._waits: Optional[Start] = None  # of a thread that waits for the session itself
        self._bells: List[Bell] = []
        self.is_cut = False
        """Whether a thread was interrupted at the desk."""

    # Of any thread

    def do(self, request: Request) -> bool:
        """Whether a request is done, or the clerk knows of it."""
        return self._at_desk(self._do_here, request)

    def wait_here(self, start: Start, until: Optional[float]) -> None:
        """Of a thread whose start was blocked: waits for the session itself, until it has its reply, or the clerk does the rest, or it is
        late. So nobody hands over to it what it waits for."""
        bell = start.bell
        if bell is None:
            return
        while self._waits is start and not start.is_over():
            now, ends = time.monotonic(), min(self._alarms.next(), NEVER if until is None else until)
            if until is not None and now >= until:
                break
            bell.wait(self._desk.watched, None if ends == NEVER else ends - now)
            if self._waits is start and not start.is_over() and not self._at_desk(self._go_on_here, start):
                self._desk.ring()
                break
        self._bells.append(bell)

    def _at_desk(self, work: Callable[[T], bool], request: T) -> bool:
        """What the work says, of a thread at the desk; False if somebody else is there."""
        try:
            try:
                is_done = self._desk.lock.acquire(False) and work(request)
                self._leave()
            except BaseException:
                self._leave()
                raise
        except BaseException:
            self._leave()  # again, for an interrupt may have cut it off
            raise
        return is_done

    def _leave(self) -> None:
        """If it was interrupted there, the clerk sets all right, and what it wanted is undone."""
        if self._desk.is_mine():
            here = self._here
            if here is not None and not self.is_cut:
                if isinstance(here, (Start, Finish)):
                    here.held._live = False
                self._desk.ring()
                self.is_cut = True
            self._desk.lock.release()

    # At the desk

    def _do_here(self, request: Request) -> bool:
        """Whether the request is done, or the clerk knows of it. Nobody else's is touched, so an interrupt costs nobody else anything."""
        if not self._desk.is_asleep or self._is_wanted_elsewhere() or self._trouble.is_there() or self._flight.batch:
            return False
        if not self._steps.is_idle(isinstance(request, Finish)) or self._session.fileno() != self._desk.watched:
            return False
        self._alarms.check_at = NEVER
        self._desk.deafen()  # or each answer would wake the clerk
        self._alarms.opens_at = NEVER
        only = self._drafts.only(request)
        if only is None:
            self._wanted.put_in(request)
        self._do_as(request, only)
        return True

    def _go_on_here(self, start: Start) -> bool:
        """The same when something has come for a start that waits."""
        if self._waits is not start or self._is_wanted_elsewhere():
            return False
        self._do_as(start, None)
        return True

    def _is_wanted_elsewhere(self) -> bool:
        """Whether the clerk has something to do."""
        return bool(self._wanted.inbox) or self._desk.ends or self.is_cut

    def _do_as(self, request: Request, only: Optional[Batch]) -> None:
        """What is to be done for a request, and nobody else's. Then its thread waits for the session itself, or the clerk does."""
        self._here, watched = request, self._desk.watched
        self._session.soon = self._trouble.ends_at(request)
        try:
            if only is not None:
                self._trips.send(only)
            elif self._waits is request:
                self._session.look()
            self._do_all(request)
        except Cut:
            pass  # the clerk begins another session, and sends again what was on its way
        except Gone:
            self._trouble.is_unsure = True
        except CorruptStore as error:
            self._trouble.fault = error  # which ends the clerk
        except (StoreError, MemoryError) as error:
            self._outages.note_refusal(error)
        self._wanted.wakes = {op for op in self._wanted.wakes if self._books.log.replica.can_start(op)}
        is_usual = not (self._wanted.inbox or self._flight.batch or self._trouble.is_there()) and self._session.fileno() == watched
        if is_usual and isinstance(request, Start) and self._is_all(request):
            self._keep_here(request)
        else:
            if not self.hand_over() and self._session.fileno() == watched:
                self._desk.listen()
            if not (is_usual and self._steps.is_idle()):
                self._desk.ring()
        self._here = None

    def _do_all(self, request: Request) -> None:
        """Until the request is over, or something else comes, or nothing is to be done."""
        while not (request.is_over() or self._wanted.inbox) and self._steps.next():
            pass

    def _is_all(self, start: Start) -> bool:
        """Whether this start is all that is to be done, and has to wait."""
        wanted = self._wanted
        if wanted.has_other_than_starts() or wanted.wakes or self._following.is_stale or self._session.notices:
            return False
        return start.is_waiting() and sum(map(len, wanted.starts.values())) == 1

    def _keep_here(self, start: Start) -> None:
        """Its thread waits for the session, and not the clerk."""
        if start.bell is None:
            start.bell = self._bells.pop() if self._bells else Bell()
            start.wake = start.bell.ring
        self._waits = start

    # Of the clerk

    def hand_over(self) -> bool:
        """From now on the clerk waits for the session. Whether a thread has done so."""
        start, self._waits = self._waits, None
        if start is None or start.bell is None:
            return False
        start.wake = start.release
        start.bell.ring()
        if self._session.fileno() == self._desk.watched:
            self._desk.listen()
        return True

    def mend(self) -> None:
        """After an interrupt: ends the session, in which a call may be on its way, by raising `Cut`. Nobody but the interrupted thread wanted
        anything."""
        here, wanted = self._here, self._wanted
        if isinstance(here, (Start, Finish)):
            self._books.holding.forget(here.held)
        wanted.clear()
        self._flight.batch = None
        wanted.strays.clear()
        wanted.wakes.update(self._books.operations.names)  # for one that was to be woken
        self._trouble.is_unsure = True
        self.is_cut, self._here = False, None
        self._session.close()
        raise Cut("it was interrupted")
