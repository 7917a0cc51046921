"""Who comes next among those who wait at paths of one process: docs/waiting.md has the rule, and the library judges by it.

Here is who stands in line, since when, and what the others have in progress. This is the form in Python over ctypes; `_order.c` does the
same in C. Each step that changes something is one call of a dictionary, which the interpreter doesn't divide.
"""

from __future__ import annotations

import ctypes
import itertools
import struct
import time
from collections import OrderedDict
from typing import TYPE_CHECKING, Dict, Iterator, List, Optional, Tuple

from . import _native as native
from ._form import core

SHUT = 200_000_000
"""For so many nanoseconds the door of one who waits stays shut. Then it opens for those who came meanwhile."""
NEVER = 2**64 - 1
"""The patience of a line where nothing is ever withheld."""

_WAITER, _ACTIVATION = struct.Struct("IIQQ"), struct.Struct("QII")
"""As a `wanzoche_waiter` and a `wanzoche_activation` lie in memory."""

Told = Tuple[int, int, int, float]
"""Of one who waits: the operation, the worker, the priority, and for how many seconds it has waited."""

_turns = itertools.count(1)


class Place:
    """The place of one who waits, or is going to, for an operation, with a priority: a worker."""

    __slots__ = ("line", "op", "priority", "worker", "arrived", "turn", "stands", "_away")

    def __init__(self, line: "Line", op: int, priority: int, worker: int) -> None:
        self.line, self.op, self.priority, self.worker = line, op, priority, worker
        self.arrived = self.turn = 0
        self.stands = False
        self._away: Optional[Tuple[int, Place]] = None
        """When it is to ask again, in nanoseconds, and for whom it was turned away."""

    def stand(self) -> None:
        """Stands in line from now on. To do so twice does no harm."""
        if not self.stands:
            self.arrived, self.turn, self.stands = time.monotonic_ns(), next(_turns), True
        self.line.places[self] = None

    def step_out(self) -> None:
        """Stands in line no more. To do so twice does no harm."""
        self.line.places.pop(self, None)

    def asks(self) -> int:
        """Called by who waits: what its start would be answered now. Of one that is withheld it is noted when it is to ask again."""
        now = time.monotonic_ns()
        code, ahead = self.line.ruling(self, now)
        self._away = None if ahead is None else (self.line.opens_at(ahead, now), ahead)
        return code

    def is_held_back(self) -> bool:
        """Whether a path forbids its start, or it is withheld and asks again by itself."""
        code, ahead = self.line.ruling(self, time.monotonic_ns())
        return code == native.BLOCKED or ahead is not None and self._away is not None

    @property
    def opens(self) -> Optional[float]:
        """When it is to ask again, by the monotonic clock; None where no start of it is withheld."""
        away = self._away
        return None if away is None else away[0] * 1e-9

    @property
    def behind(self) -> Optional[Told]:
        """For whom its start is withheld. None as above."""
        away = self._away
        return None if away is None else away[1].told()

    def told(self) -> Told:
        """What is told of it."""
        return self.op, self.worker, self.priority, (time.monotonic_ns() - self.arrived) * 1e-9

    def key(self) -> Tuple[int, int]:
        """Who stands before another has a lower one."""
        return -self.priority, self.turn


class Line:
    """Those who wait at a handle. `holder` has it in its memory."""

    __slots__ = ("_at", "_holder", "_patience", "_shut", "places")

    def __init__(self, handle: int, holder: object, patience: int, shut: int) -> None:
        self._at = handle
        self._holder = holder
        self._patience = patience
        self._shut = shut
        self.places: "OrderedDict[Place, None]" = OrderedDict()
        """All who stand in line, as they came."""

    def __len__(self) -> int:
        return len(self.places)

    def withholds(self) -> bool:
        """Whether somebody has waited for so long that starts may be withheld."""
        while self.places and self._patience != NEVER:
            try:
                return self._times_shut(next(iter(self.places)), time.monotonic_ns()) > 0
            except (RuntimeError, StopIteration):
                pass  # another thread changed it meanwhile
        return False

    def holds(self, worker: int) -> bool:
        """Whether this worker has something in progress."""
        return any(each == worker for _, each, _ in self._live())

    def ahead_of(self, op: int, priority: int, worker: int) -> Optional[Told]:
        """For whom the start of an operation is withheld of a worker who comes now with a priority; None if it isn't."""
        comes = Place(self, op, priority, worker)
        comes.arrived, comes.turn = time.monotonic_ns(), NEVER
        ahead = self.ruling(comes, comes.arrived)[1]
        return None if ahead is None else ahead.told()

    def waiters(self) -> List[Told]:
        """All who wait, in order."""
        return [each.told() for each in sorted(list(self.places), key=Place.key)]

    # For places

    def ruling(self, asker: Place, now: int) -> Tuple[int, Optional[Place]]:
        """What a start would be answered now, and for whom it is withheld if it is."""
        ahead = self._ahead(asker) if self.withholds() else []
        if any(self._shut_at(each, now) < asker.arrived for each in ahead):
            waiting = b"".join([_WAITER.pack(it.op, it.priority, it.arrived, self._shut_at(it, now)) for it in ahead])
            resting = {asker.worker, *[each.worker for each in list(self.places)]}
            running = [op for _, worker, op in self._live() if worker not in resting]
            given = waiting, len(ahead), struct.pack("{}I".format(len(running)), *running), len(running)
            answer = native.may_start(self._at, asker.op, asker.priority, asker.arrived, *given)
            if answer.code != native.OUT_OF_MEMORY:  # else nothing is withheld
                return answer.code, ahead[answer.number] if answer.code == native.WITHHELD else None
        return native.can_start(self._at, asker.op).code, None

    def opens_at(self, place: Place, now: int) -> int:
        """When the door opens next that one has shut."""
        return place.arrived + self._patience + self._times_shut(place, now) * self._shut

    def _ahead(self, asker: Place) -> List[Place]:
        """Those who stand before one who asks, in order, but of each operation and priority the first alone: the others can't begin before
        it. None of them is the one who asks: a signal handler may do so in the middle of its thread's wait, which can't go on before."""
        firsts: Dict[Tuple[int, int], Place] = {}
        for each in list(self.places):
            if each.worker != asker.worker:
                firsts.setdefault((each.op, each.priority), each)
        key = asker.key()
        return sorted((each for each in firsts.values() if each.key() < key), key=Place.key)

    def _live(self) -> Iterator[Tuple[int, ...]]:
        """What is in progress: of each the number, the worker and the operation."""
        room = native.live(self._at)
        while True:
            listed = bytearray(room * _ACTIVATION.size)
            count = native.list_live(self._at, (ctypes.c_char * len(listed)).from_buffer(listed) if listed else None, room)
            if count <= room:
                return _ACTIVATION.iter_unpack(bytes(listed[: count * _ACTIVATION.size]))
            room = count

    def _times_shut(self, place: Place, now: int) -> int:
        """How often the door of one has been shut by then; 0 before it has waited for the patience."""
        age = now - place.arrived - self._patience
        return 0 if age < 0 else 1 + age // self._shut

    def _shut_at(self, place: Place, now: int) -> int:
        """Starts of those who came later than this are withheld for one by then."""
        times = self._times_shut(place, now)
        if times < 2:
            return NEVER if times == 0 else 0
        return place.arrived + self._patience + (times - 1) * self._shut


def new_line(handle: native.Handle, patience: int) -> Line:
    """Those who wait at a handle, where starts are withheld for one who has waited for so many nanoseconds."""
    return Line(ctypes.addressof(handle), handle, patience, SHUT)


if not TYPE_CHECKING and core is not None:
    Line, Place = core.Line, core.Place
    _CALLS = [native.address(name) for name in ("can_start", "may_start", "list_live")] if native.may_start else []

    def new_line(handle: native.Handle, patience: int) -> Line:
        """The same in C."""
        return core.Line(*_CALLS, ctypes.addressof(handle), handle, patience, SHUT)


def nanoseconds_of(patience: float) -> int:
    """How long one waits before starts are withheld for it. Raises TypeError for what is no number, and ValueError for one below 0."""
    if not isinstance(patience, (int, float)) or isinstance(patience, bool):
        raise TypeError("the patience is a number of seconds, not {!r}".format(patience))
    if not patience >= 0:
        raise ValueError("the patience is 0 or more seconds, not {!r}".format(patience))
    return int(patience * 1e9) if patience < 1e9 else NEVER
