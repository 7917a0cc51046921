"""Who waits for which operation, and how they are woken.

Nothing here takes a lock, so no lock can stay held. A signal handler, a finalizer or another thread may come in between any two
instructions: each step that changes something is one call of a dictionary or a set, which the interpreter doesn't divide. Two rules keep
a turn from being lost:

* Whoever is going to wait joins its queue, and then asks once more whether it may start. So a finish either comes before that question,
  or finds it in the queue.
* Whoever stops waiting, admitted or not, wakes the next.

Who stands in whose way is the line's to say (`_order.py`): from whom a start is withheld asks again by itself when a door opens. It is woken
before if it may go on.
"""

from __future__ import annotations

import asyncio
import threading
import time
from collections import OrderedDict
from typing import Dict, Iterator, Optional, Protocol, Sequence, Set, Tuple, cast

from . import _native as native
from ._metrics import Waits
from ._order import Line, Place


class Calls(Protocol):
    """What is called of a handle."""

    def is_blocked(self, op: int, /) -> bool:
        """Whether a path forbids the operation of this number now."""

    def entries(self, op: int, /) -> int:
        """How often the operation of this number was begun."""


class Looking(Protocol):
    """Who looks at waiters."""

    def _look_at(self, waiters: "Sequence[Waiter]", /) -> None:
        """Tells those that are in their own way so, of these that wait for one operation."""


_new_lock = threading.Lock


def patched_by() -> Optional[str]:
    """`gevent` or `eventlet`, where one has put its greenlets in the place of threads; else None."""
    name = threading.local.__module__.partition(".")[0]
    return name if name in ("gevent", "eventlet") else None


FIRST_LOOK = 1.0
"""After so many seconds of sleep it is looked whether a waiter is in its own way."""


class Waiter:
    """Who waits for one operation, and until when."""

    __slots__ = ("op", "priority", "place", "loop", "paths", "worker", "looks", "since", "_until")

    def __init__(self, op: int, seconds: Optional[float], priority: int = 0) -> None:
        self.op, self.priority = op, priority
        self.place: Optional[Place] = None
        """Where it stands in line; None before, and where there is none."""
        self.loop: Optional[asyncio.AbstractEventLoop] = None
        self.paths: Optional[Looking] = None
        """Who looks whether it is in its own way; None if that isn't to be found out, or has been."""
        self.worker = self.looks = 0
        self.since = 0.0
        """When it joined its queue, by the monotonic clock."""
        self._until = None if seconds is None else time.monotonic() + seconds

    def left(self) -> Optional[float]:
        """How many seconds are left; None if the time isn't limited."""
        return None if self._until is None else self._until - time.monotonic()

    def sleeps(self) -> Optional[float]:
        """For how many seconds it may sleep: until its time is over, or a door opens. None for ever."""
        place = self.place
        opens = None if place is None else place.opens
        ends = self._until if opens is None else opens if self._until is None else min(opens, self._until)
        return None if ends is None else max(ends - time.monotonic(), 0.0)

    def wake(self) -> None:
        """Ends the wait, or the next one. To wake it twice is to wake it once."""
        raise NotImplementedError


class ThreadWaiter(Waiter):
    """A thread that waits."""

    __slots__ = ("_asleep",)

    def __init__(self, op: int, seconds: Optional[float], priority: int = 0) -> None:
        self.op, self.priority, self.place = op, priority, None
        self.loop, self.paths, self.worker, self.looks = None, None, 0, 0
        self._until = None if seconds is None else time.monotonic() + seconds
        self._asleep = asleep = _new_lock()
        asleep.acquire()

    def wake(self) -> None:
        try:
            self._asleep.release()
        except RuntimeError:
            pass  # it is awake already

    def wait(self) -> None:
        """Waits until it is woken, the time is over, or a door opens."""
        if self.place is not None and self.place.opens is not None:
            self._wait_for_door()
            return
        if self._until is None and self._asleep.acquire(True, FIRST_LOOK):
            return
        looks = FIRST_LOOK
        while not self._asleep.acquire(True, self._sleeps(looks)):
            if self._until is not None and self._until <= time.monotonic():
                return
            if self.paths is not None:
                self.paths._look_at([self])
            looks *= 2

    def _wait_for_door(self) -> None:
        if self._asleep.acquire(True, self.sleeps() or 0.0) or self.paths is None:
            return
        if time.monotonic() - self.since >= FIRST_LOOK * 2**self.looks:
            self.looks += 1
            self.paths._look_at([self])

    def _sleeps(self, looks: float) -> float:
        """For how many seconds it may sleep now, if it is looked after so many. Without a time limit it has slept for the first ones."""
        most = threading.TIMEOUT_MAX if self.paths is None else looks
        if self._until is not None:
            return min(max(self._until - time.monotonic(), 0.0), most)
        return 0.0 if looks == FIRST_LOOK else most


class TaskWaiter(Waiter):
    """A task that waits, on its loop. To wake it raises RuntimeError if that is closed, and the task over with it."""

    __slots__ = ("_awake",)

    def __init__(self, op: int, seconds: Optional[float], priority: int = 0) -> None:
        super().__init__(op, seconds, priority)
        self.loop = asyncio.get_running_loop()
        self._awake = asyncio.Event()

    def wake(self) -> None:
        assert self.loop is not None
        self.loop.call_soon_threadsafe(self._awake.set)

    async def wait(self) -> None:
        """Waits until it is woken, the time is over, or a door opens."""
        left = self.sleeps()
        alarm = None if left is None or self.loop is None else self.loop.call_later(left, self._awake.set)
        try:
            await self._awake.wait()
        finally:
            if alarm is not None:
                alarm.cancel()
        self._awake.clear()


_Loop = Optional[asyncio.AbstractEventLoop]


class Queue:
    """Who waits for one operation with one priority, in the order in which they came: threads, or the tasks of one loop."""

    __slots__ = ("op", "priority", "loop", "waiters", "_look_comes")

    def __init__(self, op: int, priority: int, loop: _Loop) -> None:
        self.op = op
        self.priority = priority
        self.loop = loop
        self.waiters: "OrderedDict[Waiter, None]" = OrderedDict()
        self._look_comes = False

    def is_over(self) -> bool:
        """Whether nobody can wait here any more, since the loop is closed."""
        return self.loop is not None and self.loop.is_closed()

    def look_later(self) -> None:
        """Of tasks: while any waits, it is looked whether one that has waited for a second, for two, four and so on is in its own way."""
        if not self._look_comes and self.loop is not None:
            self._look_comes = True
            self.loop.call_later(FIRST_LOOK, self._look)

    def _look(self) -> None:
        self._look_comes = False
        for each in self.waiters:
            each.looks += 1
        # The first time it has waited for less than a second; then the times are doubled.
        due = [each for each in self.waiters if each.paths is not None and each.looks > 1 and each.looks - 1 & each.looks - 2 == 0]
        if due:
            cast(Looking, due[0].paths)._look_at(due)
        if self.waiters:
            self.look_later()

    def first(self) -> Optional[Waiter]:
        """Who came first; None if nobody waits."""
        while self.waiters:
            try:
                return next(iter(self.waiters))
            except (RuntimeError, StopIteration):
                pass  # another thread changed it meanwhile
        return None


class Queues:
    """Who waits at the system of a handle.

    Each operation and priority has a queue for threads, and one for the tasks of each loop: a loop that ends while the first of its tasks is
    being woken holds up nobody else. A queue is in `due` if its first has to be woken once it may start, and not if one of it has been woken
    already: that one asks again, or quits, and puts the queue back.
    """

    __slots__ = ("_is_blocked", "_line", "_queues", "due", "waits")

    def __init__(self, calls: Calls, line: Optional[Line] = None) -> None:
        self._is_blocked = calls.is_blocked
        self._line = line
        self._queues: Dict[Tuple[int, int, _Loop], Queue] = {}
        self.due: Set[Queue] = set()
        self.waits = Waits()

    def join(self, waiter: Waiter) -> Queue:
        """The waiter waits for its operation, behind those that wait for it already, in this queue."""
        queue = self._queues.get((waiter.op, waiter.priority, waiter.loop)) or self._new_queue(waiter)
        waiter.since = time.monotonic()
        queue.waiters[waiter] = None
        if self._line is not None:
            waiter.place = Place(self._line, waiter.op, waiter.priority, waiter.worker)
            waiter.place.stand()
        self.due.add(queue)
        return queue

    def asks(self, waiter: Waiter) -> int:
        """The waiter is going to begin, if it may: what its start would be answered."""
        if waiter.place is not None:
            return waiter.place.asks()
        return native.BLOCKED if self._is_blocked(waiter.op) else native.CAN_START

    def woken(self, waiter: Waiter) -> None:
        """The waiter was woken, and is going to ask whether it may start."""
        queue = self._queues.get((waiter.op, waiter.priority, waiter.loop))
        if queue is not None:
            self.due.add(queue)

    def withholds(self) -> bool:
        """Whether a start may be withheld now for one who waits."""
        return self._line is not None and self._line.withholds()

    def rests(self, waiter: Waiter) -> None:
        """The waiter has joined: what it has in progress isn't waited for any more, so others may go on."""
        if self._line is not None and self._line.withholds() and self._line.holds(waiter.worker):
            self.wake_all()

    def quit(self, waiter: Waiter) -> None:
        """The waiter waits no more, and the next is woken. To do so twice does no harm."""
        withheld = self.withholds()
        queue = self._queues.get((waiter.op, waiter.priority, waiter.loop))
        waiter.paths = None
        if queue is not None:
            self.leave(queue, waiter)
            self.due.add(queue)
            self._wake_first(queue)
        if withheld:
            self.wake_all()

    def leave(self, queue: Queue, waiter: Waiter) -> None:
        """The waiter waits no more in this queue; how long it did is noted once."""
        if waiter.place is not None:
            waiter.place.step_out()
        if queue.waiters.pop(waiter, waiter) is None:
            self.waits.note(waiter.op, time.monotonic() - waiter.since)

    def waiting(self, op: int) -> int:
        """How many wait for the operation."""
        return sum(len(queue.waiters) for queue in list(self._queues.values()) if queue.op == op and not queue.is_over())

    def workers(self, op: int) -> Iterator[int]:
        """Who waits for the operation, of those of whom it is known."""
        for queue in list(self._queues.values()):
            if queue.op == op and not queue.is_over():
                yield from (each.worker for each in list(queue.waiters) if each.worker)

    def wake_all(self, again: bool = False) -> None:
        """Wakes the first of each queue that may start, if it is due; of all queues after an interrupt, which may have come just before a
        wake."""
        for queue in list(self._queues.values() if again else self.due):
            self._wake_first(queue)

    def end_all(self) -> None:
        """Wakes all that wait."""
        for queue in list(self._queues.values()):
            for waiter in list(queue.waiters):
                self._wake(queue, waiter)

    def _new_queue(self, waiter: Waiter) -> Queue:
        for queue in list(self._queues.values()):
            if queue.is_over():
                self._drop(queue)
        return self._queues.setdefault((waiter.op, waiter.priority, waiter.loop), Queue(waiter.op, waiter.priority, waiter.loop))

    def _wake_first(self, queue: Queue) -> None:
        if not queue.waiters:
            self.due.discard(queue)
            if queue.waiters:  # one that came meanwhile
                self.due.add(queue)
        elif not self._is_blocked(queue.op) and not self._is_withheld(queue):
            self.due.discard(queue)
            try:
                for first in queue.waiters:
                    first.wake()
                    break
            except RuntimeError:  # another thread changed the queue meanwhile, or the loop is closed
                first_now = queue.first()
                if first_now is not None:
                    self._wake(queue, first_now)

    def _is_withheld(self, queue: Queue) -> bool:
        """Whether the start of the first of a queue is withheld, and it needs no wake to ask again."""
        line = self._line
        if line is None or not line.withholds():
            return False
        first = queue.first()
        place = None if first is None else first.place
        return place is not None and place.is_held_back()

    def _wake(self, queue: Queue, waiter: Waiter) -> None:
        try:
            waiter.wake()
        except RuntimeError:
            self._drop(queue)

    def _drop(self, queue: Queue) -> None:
        self._queues.pop((queue.op, queue.priority, queue.loop), None)
        self.due.discard(queue)
