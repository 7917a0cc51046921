"""What one process does at a log that a server keeps: at its desk one thread works at a time, with the session and the replica.

That is the clerk, a thread of its own, to which threads and tasks hand requests, and wait for their replies; what several want at once goes
in one append. But while the clerk sleeps and nobody else wants anything, a thread sits down at the desk and does itself what it wants,
which saves two switches of threads for each call. An interrupt may cut that off at any instruction. Then the clerk begins another session,
and reads the log from its begin: what is known is what stands there, and what the interrupted thread wanted is undone.
"""

from __future__ import annotations

import threading
import time
from typing import Callable, Dict, Optional, Sequence

from .._errors import CorruptStore
from .._texts import Path
from . import times
from .books import Alarms, Books
from .burying import Burying
from .calls import Gone
from .catching_up import CatchingUp
from .checks import Checks
from .connecting import Cut
from .desk import Desk
from .drafts import Drafts
from .flight import Flight
from .following import Following
from .guests import Guests
from .holding import Holding
from .log import Log
from .operations import Operations
from .outages import Outages
from .replies import Replies
from .requests import Request, Start
from .slots import Slots
from .steps import Steps
from .trips import Trips
from .trouble import Trouble
from .turns import Turns
from .wanted import Wanted


class Clerk:
    """Works until it is told to end, or until a line of the log isn't owed. What else goes wrong is told to those who wanted it, and it goes
    on. Any thread may call it; what it shows, as `turns`, is for who is at the desk."""

    def __init__(self, log: Log, paths: Sequence[Path], numbers: Dict[str, int], finishes_lost: bool, outage: float) -> None:
        operations = Operations(paths, numbers)
        self.wanted, self.holding, self.slots, self.trouble = Wanted(), Holding(operations), Slots(), Trouble(log.calls, outage)
        books = Books(log, operations, self.wanted, self.holding, self.slots, Alarms(), self.trouble)
        self.turns = Turns(books)
        self.following = Following(books)
        self.burying = Burying(books, self.following, finishes_lost)
        self.replies = Replies(books, self.turns, self.burying)
        self.checks = Checks(books, self.turns, self.following, self.burying, self.replies)
        drafts = Drafts(books, self.turns)
        self.flight = Flight(books, drafts, self.replies)
        catching_up = CatchingUp(books, self.following, self.flight)
        self.trips = Trips(books, self.turns, drafts, self.flight, self.following, catching_up, self.replies)
        self.desk = Desk(log.name, self.wanted.inbox)
        self._log, self._alarms, self._catching_up = log, books.alarms, catching_up
        self._steps = Steps(books, self.flight, self.following, self.replies, self.checks, self.trips)
        self._outages = Outages(books, self.desk, drafts, self.flight, self.following, catching_up, self.replies)
        self._guests = Guests(books, self.desk, drafts, self.flight, self.following, self.trips, self._steps, self._outages)
        self.is_over = False
        """Whether it has ended."""
        self.thread = threading.Thread(target=self._run, name="wanzoche clerk", daemon=True)

    # For others

    def submit(self, request: Request) -> None:
        """Hands a request to the clerk. It takes no lock, so that a finalizer or a signal handler may do so, too."""
        self.wanted.inbox.append(request)
        if self.desk.is_asleep:
            self.desk.ring()
        if self.is_over:
            self._refuse_all()

    def do(self, request: Request) -> None:
        """Does what a thread wants, here and now if the clerk sleeps and nobody else wants anything. Else the clerk does it. Raises
        RuntimeError if an interrupt of this thread wants something while the thread is at the desk."""
        is_taken = False
        if not self.is_over:
            self.desk.has_to_be_away()
            is_taken = self._guests.do(request)
        if not is_taken:
            self.submit(request)
        elif self.is_over:
            self._refuse_all()

    def wait_here(self, start: Start, until: Optional[float]) -> None:
        """Of a thread whose start was blocked: waits for the session itself, until the clerk does so, or until then."""
        self._guests.wait_here(start, until)

    def end(self) -> None:
        """Tells the clerk to finish what is in progress, and to end. Doesn't wait for it."""
        if not self.desk.ends:
            self._log.session.ends_by = time.monotonic() + times.CLOSING
        self.desk.ends = True
        self.desk.ring()

    def abandon(self) -> None:
        """In the child of a fork, which has no such thread: leaves all to the parent."""
        self.is_over = True
        self._log.session.close_here()
        self._log.replica.close()

    def _refuse_all(self) -> None:
        """After the end: whoever asks is told."""
        self.replies.refuse_all(self.flight.requests())
        self.flight.batch = None

    # The thread

    def _run(self) -> None:
        with self.desk.lock:
            try:
                self._work_to_the_end()
                self._finish_through_outages()
            except BaseException as error:
                self.trouble.fault = self.trouble.fault or error
            self.is_over = True
            self._log.session.close()
            self._log.replica.close()
            self.desk.close()
            self._refuse_all()

    def _work_to_the_end(self) -> None:
        while not self.desk.ends:
            self._through_outages(self._work)

    def _finish_through_outages(self) -> None:
        while not self._through_outages(self.trips.finish_all):
            pass

    def _through_outages(self, work: Callable[[], None]) -> bool:
        """Sets right what is wrong, and does that: False if the session was cut meanwhile, or the server has lost lines."""
        try:
            self._set_right()
            work()
            return True
        except Cut as error:
            self._outages.come_back(error)
        except Gone:
            self.trouble.is_unsure = True
        except CorruptStore:
            raise
        except Exception as error:  # whatever it is: without the session others would take this process for dead
            self._outages.note_refusal(error)
            self._outages.wait_out()
        return False

    def _set_right(self) -> None:
        """What went wrong before, here or with a thread at the desk."""
        if self.trouble.fault is not None:
            raise self.trouble.fault
        if self._guests.is_cut:
            self._guests.mend()
        if self.trouble.refusal is not None:
            self._outages.settle_refusal()
        if self.trouble.is_unsure:
            self._catching_up.begin_anew()

    def _work(self) -> None:
        """What is to be done now; then sleeps."""
        while not self.desk.ends and self._steps.step():
            pass
        if not self.desk.ends:
            self.trouble.outage = None
            self._sleep()

    def _sleep(self) -> None:
        """Until there is something to do. Meanwhile the desk is free, and a thread may sit down there."""
        session = self._log.session
        fd = session.fileno()
        if fd < 0:
            raise Cut("the connection was closed")
        has_come = self.desk.sleep(fd, self._alarms.next())
        session.soon = float("inf")
        has_come = self._guests.hand_over() or has_come
        if has_come and not self._guests.is_cut:
            session.look()
