"""Which lines of a log stand in segments, and when this process moves more there."""

from __future__ import annotations

from .. import _native as native
from .._errors import CorruptStore, StoreError
from .._replica import ROOM
from .calls import LogCalls
from .session import Call
from .wishes import Place

MOST_IN_SEGMENT = native.MOST_LINES - ROOM
"""So many may: what is in progress behind them has room in a journal, too."""
KEPT = 1000
"""So many lines stay in the table when others are moved by themselves, so that few processes find their next line moved."""


class Segments:
    """How much of the log was moved, as far as this process knows. For who is at the clerk's desk."""

    def __init__(self, calls: LogCalls, moves: bool) -> None:
        """One that never `moves` lines only knows of those that others have moved."""
        self._calls, self._moves = calls, moves
        self.room = 0
        """So many lines go into a segment."""
        self.moved = 0
        """So many lines are in segments, as far as is known."""
        self.due = 0.0
        """With so many lines in the log this process calls `rotate`."""

    def know(self, lines: int) -> None:
        """So many were moved."""
        self.moved, self.due = lines, lines + self.room + KEPT if self._moves else float("inf")

    def at(self, place: int) -> Call:
        """What asks for the segment in which a place is, or else for the next one behind it."""
        return Call(b"segment", (self._calls.log, b"%d" % place))

    def rotate(self, known: Place) -> None:
        """Moves the lines of a segment, if nobody else has. If it can't be done now, it is tried again so many lines later."""
        try:
            self.move(self.room, known)
        except CorruptStore:
            raise
        except StoreError:
            self.due = known.lines + self.room

    def rotate_all(self, known: Place) -> None:
        """Moves all lines that are known but the last. Raises `StoreError` if that can't be done now."""
        while self.moved < known.lines - 1:
            self.move(min(self.room, known.lines - 1 - self.moved), known)

    def move(self, lines: int, known: Place) -> None:
        """Moves so many lines to a segment, if they are the next to move; knows then what others have moved."""
        calls = self._calls
        given = (*calls.known(known), b"%d" % self.moved, b"%d" % lines, calls.grace)
        ((found,),) = calls.call(Call(b"rotate", given))[0]
        if found is None:
            raise StoreError("the log {}: somebody has been inserting lines for too long".format(calls.name))
        if int(found) < 0:
            told = "the log {}: process {} is of a package that reads no segments, and may be alive"
            raise StoreError(told.format(calls.name, -int(found)))
        self.know(int(found))
