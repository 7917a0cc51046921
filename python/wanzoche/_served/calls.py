"""The calls of one log: prepared statements at a session, and what is raised of what the server says against them."""

from __future__ import annotations

import time
from typing import Any, Callable, List, Optional, Tuple

from .._errors import CorruptStore, StoreError
from . import times
from .session import Call, Complaint, Row, Session, Slow
from .wishes import Place

AGAIN = ("40001", "40P01", "55P03")
"""What the server says of a call that was undone and may be repeated."""
CANCELLED = "57014"
"""What it says of a call that took longer than `statement_timeout`, or that somebody has cancelled."""


class Gone(Exception):
    """Lines that were taken over aren't in the log any more: the server has lost its last second, or another took its place."""


class Moved(Exception):
    """The next line stands in a segment: nobody but `Known.follow` reads it there."""


class LogCalls:
    """Calls for one opening of a log: it owns the session, and knows by which numbers the server has the log and this worker. For who is at the
    clerk's desk; before there is a clerk, for who opens the log."""

    def __init__(self, url: str, name: str, sync: bool) -> None:
        self.name = name
        self.session = Session(url)
        self.log = b""
        """The log's number."""
        self.worker = 0
        """This worker's. It is another one after a session that was taken for dead."""
        self.grace = b""
        """How long a process may be without a session, as an interval."""
        self.commits = b"on"
        """How the server commits what has to last."""
        self.answer = times.ANSWER
        """So many seconds a call waits for its answer."""
        self.sync = sync
        """Whether what was appended has to last when it is answered."""

    def own(self) -> bytes:
        """This worker's number, for a call."""
        return b"%d" % self.worker

    def known(self, place: Place) -> Tuple[bytes, bytes, Optional[bytes]]:
        """The log, and up to where it is known, for a call."""
        return self.log, b"%d" % place.lines, place.stamp

    def call(self, *calls: Call) -> List[List[Row]]:
        """The rows of each, in one round trip. What may be repeated is, five times at most. Raises `Cut`, `StoreError`, `Gone`, `Moved` and
        `CorruptStore`."""
        for tries in range(5):
            try:
                return self.session.call(calls, time.monotonic() + self.answer)
            except Slow as error:
                raise self.silent(error) from error
            except Complaint as error:
                if not error.code.startswith(AGAIN) or tries == 4 or len(calls) > 2 or calls[0].name == b"begin":
                    raise self.refused(error) from error
        raise AssertionError

    def call_beside(self, call: Call, meanwhile: Callable[[], Any]) -> List[Row]:
        """The rows of a call that only reads, and something else until they are there."""
        try:
            return self.session.call_beside([call], time.monotonic() + self.answer, meanwhile)[0]
        except Slow as error:
            raise self.silent(error) from error
        except Complaint as error:
            raise self.refused(error) from error

    # The disk

    def lasts(self) -> List[Call]:
        """What waits for the disk behind an append, if it is to."""
        return [Call(b"lasts", (self.commits,))] * self.sync

    def line_lasts(self, place: bytes) -> List[Call]:
        """The same, if a line of this worker is there from that place on."""
        return [Call(b"line_lasts", (self.commits, self.log, place, self.own()))] if self.sync else []

    def make_last(self) -> None:
        """Waits for the disk behind all lines that are there, if it is to."""
        if self.sync:
            self.call(*self.lasts())

    # What is raised

    def broken(self, told: str, place: int) -> CorruptStore:
        """What is raised of a line that isn't owed."""
        return CorruptStore("the log {} at place {}: {}".format(self.name, place, told), place)

    def silent(self, why: object) -> StoreError:
        """What is raised while the server is away, and for which reason."""
        return StoreError("the log {}: the server doesn't answer{}".format(self.name, "" if isinstance(why, Slow) else ": {}".format(why)))

    def refused(self, error: Complaint) -> Exception:
        """What a complaint of the server is for a caller."""
        if error.code == "WZ001":
            return Gone(error.told)
        if error.code == "WZ003":
            return Moved(error.told)
        if error.code == "WZ002":
            return self.broken("there is no line", int(error.detail))
        return StoreError("the log {}: {}".format(self.name, error.told))


def may_pass(error: BaseException) -> bool:
    """Whether an error of a call only says that the server has cancelled it, or takes longer than who asks. Then it may be made again."""
    cause = error.__cause__
    return isinstance(cause, Slow) or isinstance(cause, Complaint) and cause.code.startswith((CANCELLED, *AGAIN))
