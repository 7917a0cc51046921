"""Who waits at a log, in all processes: those of this one are told to the server, and the others by it."""

from __future__ import annotations

import time
from typing import List, Optional, Sequence

from .._errors import CorruptStore
from .._replica import Replica
from .calls import Gone, LogCalls, Moved
from .known import Known, lines_from
from .order import ServedLine
from .session import Call, Row, array
from .wishes import Wait


class Waits:
    """What the server knows and tells of those who wait. It owns their order. For who is at the clerk's desk."""

    def __init__(self, calls: LogCalls, known: Known, replica: Replica, patience: float) -> None:
        """For so many seconds those who wait here may be passed."""
        self._calls, self._known = calls, known
        self._listens = False
        self.patience = patience
        self.line = ServedLine(replica)

    def begin(self) -> None:
        """In a new session nobody listens yet."""
        self._listens = False

    def look(self, waits: Sequence[Wait] = ()) -> None:
        """Takes over what is new, and who waits. These wait from now on."""
        asks = Call(b"lines_and_waiters", (*self._known.row(), self._calls.own()))
        try:
            *row, waiters = self._calls.call(*(self.stands(waits) or [asks]))[-1][0]
        except Moved:
            self._known.follow()
            return self.look(waits)
        self.stood(waits)
        self._known.take_all(row)
        self.know(waiters)

    def stands(self, waits: Sequence[Wait]) -> List[Call]:
        """What has these wait, and tells what is new, and who waits; the session listens before. None for nobody."""
        if not waits:
            return []
        columns = zip(*((each.slot, each.operation, each.priority) for each in waits))
        holds = b"{%b}" % b",".join(b'"%b"' % array(each.holds) for each in waits)
        log, *known = self._known.row()
        given: Row = (log, self._calls.own(), *map(array, columns), holds, b"%f" % self.patience, *known)
        return [Call(b"listen", given[:2])] * (not self._listens) + [Call(b"stand", given)]

    def stood(self, waits: Sequence[Wait]) -> None:
        """Those calls were answered."""
        self._listens = self._listens or bool(waits)

    def ask(self) -> Call:
        """What asks who waits."""
        return Call(b"waiters", (self._calls.log, self._calls.own()))

    def know(self, told: Optional[bytes]) -> None:
        """Who waits, as the server has answered."""
        self.line.take(told or b"0", self._calls.worker, time.monotonic_ns())

    def take_notice(self, notice: bytes) -> bool:
        """Takes over the lines that a notification brings, and who waits: False if it brings nothing new, or not all. Raises `Gone` if the
        lines aren't owed, so that the log is read anew."""
        head, _, told = notice.partition(b"\n")
        text, _, waiters = told.partition(b"\n\n")
        fields = head.split(b" ")
        if len(fields) != 3 or not all(each.isdigit() and len(each) < 20 for each in fields):
            return False
        first, final, lines = int(fields[1]), int(fields[1]) + text.count(b"\n"), self._known.place.lines
        if not first <= lines <= final or not self.line.take_sent(waiters, self._calls.worker, time.monotonic_ns()):
            return False
        try:
            self._known.take((lines_from(text, lines - first), b"%d" % final, fields[2]))
        except CorruptStore as error:
            raise Gone(str(error)) from error
        return True
