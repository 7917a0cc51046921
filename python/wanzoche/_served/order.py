"""Who comes next among those who wait over a log in PostgreSQL, in all processes: docs/waiting.md has the rule, and the library judges.

Here is who waits in other processes, as the server has last said. Who waits in this one is told by its clerk.
"""

from __future__ import annotations

import re
import struct
from typing import Callable, Dict, Iterable, List, NamedTuple, Optional, Sequence, Set, Tuple, TypeVar

from .. import _native as native
from .. import _order
from .._order import NEVER, Told
from .._replica import Replica

LAST = 1 << 62
"""The ticket of who has none yet: it stands behind all that have one. Of several such the later one's is higher."""

T = TypeVar("T")
_ROW = re.compile(rb"\d{1,18} [01](?: \d{1,9}){3} -?\d{1,18} \d{1,18} -?\d{1,18} (?:\d{1,18}(?:,\d{1,18})*)?")
"""What a notification says of one who waits."""
_WAITER = struct.Struct("IIQQ")
"""As a `wanzoche_waiter` lies in memory."""

LATEST = 1_000_000_000
"""A notification that took longer than so many nanoseconds tells too little of who waits now: who gets it asks."""
EARLIEST = -LATEST
"""Nor does one that seems to have come so long before it was sent: then one of the two clocks was set."""


class Standing(NamedTuple):
    """One who waits, or asks whether it has to."""

    operation: int
    priority: int
    ticket: int
    arrived: int
    """When, by the monotonic clock, in nanoseconds."""
    patience: int
    """For so many nanoseconds others may pass it."""
    worker: int
    caller: int = 0
    """Which thread or task, of this process; 0 in others."""
    slot: int = -1
    holds: Tuple[int, ...] = ()
    """What it has in progress, of another process."""

    def key(self) -> Tuple[int, int]:
        """Who stands before another has a lower one."""
        return -self.priority, self.ticket

    def shut_at(self, now: int) -> int:
        """Starts of those who came later than this are withheld for it by then."""
        times = self._times_shut(now)
        return NEVER if times == 0 else 0 if times == 1 else self.opens_at(now) - _order.SHUT

    def opens_at(self, now: int) -> int:
        """When its door opens next."""
        return self.arrived + self.patience + self._times_shut(now) * _order.SHUT

    def told(self, now: int) -> Told:
        """What is told of it."""
        return self.operation, self.worker, self.priority, max(now - self.arrived, 0) * 1e-9

    def _times_shut(self, now: int) -> int:
        """How often its door has been shut by then; 0 before it has waited for its patience."""
        age = now - self.arrived - self.patience
        return 0 if age < 0 else 1 + age // _order.SHUT


class Here(NamedTuple):
    """What the clerk tells of this process."""

    firsts: Sequence[Standing]
    """Who waits here, of each operation and priority at least the first."""
    resting: Callable[[int], Set[int]]
    """Which activations those have that wait here, and this thread or task. It is only asked where somebody's door is shut."""


class ServedLine:
    """Those who wait in other processes."""

    def __init__(self, replica: Replica) -> None:
        self._replica = replica
        self.others: List[Standing] = []
        """Of each operation and priority the first of them."""
        self.known = b"{}"
        """The tickets of all that were told, also of those that seem to be dead, as an array for a call."""
        self.tickets: Dict[int, int] = {}
        """Those of this process, by their slots."""
        self._rows: List[List[bytes]] = []
        self._ahead_of_server = 0  # what the monotonic clock has more than the server's, in nanoseconds
        self._holds: Set[int] = set()

    def take(self, told: bytes, worker: int, now: int) -> None:
        """What the server says of all that wait, to one who has asked."""
        head, *lines = told.split(b"\n")
        self._ahead_of_server = now - int(head) * 1000
        self._keep([line.split(b" ") for line in lines], worker)

    def take_sent(self, told: bytes, worker: int, now: int) -> bool:
        """The same, to one who hasn't asked: False if that was too long ago, or can't be read."""
        head, *lines = told.split(b"\n")
        if not head.isdigit() or not EARLIEST <= now - int(head) * 1000 - self._ahead_of_server <= LATEST:
            return False
        if not all(map(_ROW.fullmatch, lines)):
            return False
        self._keep([line.split(b" ") for line in lines], worker)
        return True

    def _keep(self, rows: List[List[bytes]], worker: int) -> None:
        server = self._ahead_of_server
        own = b"%d" % worker
        self._rows = [row for row in rows if row[2] != own]
        self.known = b"{%b}" % b",".join(row[0] for row in self._rows)
        self.tickets = {int(row[3]): int(row[0]) for row in rows if row[2] == own}
        alive = [row for row in self._rows if row[1] == b"1"]
        self.others = [_standing(row, server) for row in _first_of_each(alive, lambda row: (row[4], row[5]))]
        self._holds = {int(each) for row in alive if row[8] for each in row[8].split(b",")}

    def withheld_for(self, asker: Standing, here: Here, now: int) -> Optional[Standing]:
        """For whom a start is withheld that no path forbids now; None if it isn't."""
        ahead = self._ahead(asker, here)
        if native.may_start is None or not any(each.shut_at(now) < asker.arrived for each in ahead):
            return None
        waiting = b"".join([_WAITER.pack(it.operation, it.priority, max(it.arrived, 0), max(it.shut_at(now), 0)) for it in ahead])
        running = self._running(asker, here)
        given = waiting, len(ahead), struct.pack("{}I".format(len(running)), *running), len(running)
        answer = native.may_start(self._replica.at, asker.operation, asker.priority, max(asker.arrived, 0), *given)
        return ahead[answer.number] if answer.code == native.WITHHELD else None

    def may_go_on(self, here: Here, now: int) -> Set[int]:
        """The operations of which the first in another process may begin now."""
        able = [each for each in self.others if self._replica.can_start(each.operation)]
        return {each.operation for each in able if not self.withheld_for(each, here, now)}

    def all(self, here: Sequence[Standing]) -> List[Standing]:
        """All who wait, in order, with these."""
        others = [_standing(row, self._ahead_of_server) for row in self._rows if row[1] == b"1"]
        return sorted([*others, *here], key=Standing.key)

    def _ahead(self, asker: Standing, here: Here) -> List[Standing]:
        """Those who stand before one who asks, in order, but of each operation and priority the first alone: the others can't begin before
        it. None of them is the one who asks: a signal handler may do so in the middle of its thread's wait, which can't go on before."""
        key, own = asker.key(), (asker.worker, asker.caller)
        ahead = [each for each in [*self.others, *here.firsts] if each.key() < key and (each.worker, each.caller) != own]
        return _first_of_each(sorted(ahead, key=Standing.key), lambda each: (each.operation, each.priority))

    def _running(self, asker: Standing, here: Here) -> List[int]:
        """The operations in progress of those who don't wait, and aren't who asks."""
        resting = here.resting(asker.caller) | set(asker.holds) | self._holds
        return [each.operation for each in self._replica.live() if each.number not in resting]


def _first_of_each(waiting: Iterable[T], kind: Callable[[T], object]) -> List[T]:
    """Of those who stand in order: the first of each kind."""
    firsts: Dict[object, T] = {}
    for each in waiting:
        firsts.setdefault(kind(each), each)
    return list(firsts.values())


def _standing(row: Sequence[bytes], server: int) -> Standing:
    """One who waits, as the server says, with what the monotonic clock has more than the server's."""
    ticket, _, worker, slot, operation, priority, since, patience = map(int, row[:8])
    holds = tuple(int(each) for each in row[8].split(b",") if each)
    return Standing(operation, priority, ticket, since * 1000 + server, NEVER if patience < 0 else patience * 1000, worker, 0, slot, holds)
