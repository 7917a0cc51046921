"""What the clerk's desk keeps: each book is of one matter, and whoever is at the desk reads and writes them."""

from __future__ import annotations

from typing import NamedTuple

from .holding import Holding
from .log import Log
from .operations import Operations
from .slots import Slots
from .trouble import Trouble
from .wanted import Wanted

NEVER = float("inf")


class Alarms:
    """When the clerk has to look by itself, by the monotonic clock. For who is at the desk; a thread that waits for the session itself reads
    them, too."""

    def __init__(self) -> None:
        self.check_at = NEVER
        """For the dead, and for wakes that got lost."""
        self.opens_at = NEVER
        """When a door opens for one who waits here."""

    def next(self) -> float:
        """The first of both."""
        return min(self.check_at, self.opens_at)

    def stop(self) -> None:
        """Nobody waits."""
        self.check_at = self.opens_at = NEVER


class Books(NamedTuple):
    """All of them."""

    log: Log
    operations: Operations
    wanted: Wanted
    holding: Holding
    slots: Slots
    alarms: Alarms
    trouble: Trouble
