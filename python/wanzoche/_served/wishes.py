"""What the clerk tells the log that it wants, and what becomes of that."""

from __future__ import annotations

from typing import NamedTuple, Optional, Sequence, Set


class Place(NamedTuple):
    """Up to where the log is known: how many lines, and the stamp of the last."""

    lines: int = 0
    stamp: Optional[bytes] = None


class Wait(NamedTuple):
    """One who waits from now on, in a slot of this worker."""

    slot: int
    operation: int
    priority: int
    holds: Sequence[int]
    """The activations that it has in progress."""


class Starting(NamedTuple):
    """One start that is to be appended: it is owed where its process has read all lines."""

    operation: bytes
    number: int
    """Which activation it begins there."""
    touches: Optional[bytes]
    """The names of the operations that share a path with it, as an array: it may go behind lines of others. None if it may not."""
    ends: bytes
    """The activations of those operations that are in progress there."""
    rivals: Sequence[int]
    """The numbers of those operations: who waits for another isn't in its way."""
    known: bytes
    """The tickets of those who wait that it knows of, and isn't withheld for: it may pass them."""
    priority: int
    ticket: int

    def line(self, worker: int) -> bytes:
        """Its line, as one of this worker, up to the number at its end."""
        return b"%d start %b: started " % (worker, self.operation)

    def begun_in(self, text: bytes, worker: int) -> Optional[int]:
        """Which activation it has begun, if its line is among these. No other start of this worker is."""
        begin = (b"\n" + text).find(b"\n" + self.line(worker))
        return None if begin < 0 else int(text[begin:].split(b"\n", 1)[0].rsplit(b" ", 1)[1])


class Wishes(NamedTuple):
    """What an append does beside its lines."""

    over: Sequence[int] = ()
    """The activations to finish, wherever the lines come."""
    wakes: Sequence[int] = ()
    """The operations for which the first in order is woken."""
    waits: Sequence[Wait] = ()
    leaves: Sequence[int] = ()
    """The slots in which nobody waits any more."""


class Appended(NamedTuple):
    """What became of an append."""

    is_in: bool
    """Whether its lines are in the log."""
    taken: Set[int] = set()
    """Which of the activations that were to be finished others have finished."""
    number: Optional[int] = None
    """Which activation a start has begun that may be behind lines of others."""
