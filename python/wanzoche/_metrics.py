"""What is counted of entries: how many there were, how many had to wait, and for how long."""

from __future__ import annotations

import bisect
import itertools
import threading
from collections import deque
from typing import Any, Deque, Dict, Iterator, List, NamedTuple, Tuple

BOUNDS = (0.001, 0.005, 0.025, 0.1, 0.5, 1.0, 5.0, 30.0, 120.0, 600.0)
"""The seconds up to which waits are counted together."""
MOST_NEW = 256
"""After so many new waits they are added up."""


class Histogram(NamedTuple):
    """How long waits took."""

    bounds: Tuple[float, ...]
    """Up to how many seconds the waits of each count took, in rising order; the last count has those that took longer."""
    counts: Tuple[int, ...]
    """How many waits took at most as long as their bound, and longer than the bound before."""
    seconds: float
    """How long all of them took together."""


class Metrics(NamedTuple):
    """What was counted of one operation since the paths were opened, in this process."""

    entries: int
    """How often it was begun."""
    waits: int
    """How often somebody had to wait for it, and waits no more: who was admitted, and who gave up."""
    waited: Histogram
    """How long these waits took."""
    waiting: int
    """How many threads and tasks wait for it now."""
    in_progress: int
    """How often it is in progress now."""


def new_counters(count: int) -> List[Iterator[int]]:
    """So many counters, which `next` raises: one call, which the interpreter doesn't divide."""
    return [itertools.count() for _ in range(count)]


def value_of(counter: Iterator[int]) -> int:
    """How often a counter was raised. (Only its text tells without raising it.)"""
    return int(repr(counter)[len("count(") : -1])


class Waits:
    """The waits for each operation. Nobody waits for a lock here, so a signal handler or a finalizer may note one, too. An interrupt may lose
    the wait that it comes to."""

    __slots__ = ("_new", "_sums", "_adding")

    def __init__(self) -> None:
        self._new: Deque[Tuple[int, float]] = deque()
        self._sums: Dict[int, List[float]] = {}
        self._adding = threading.RLock()

    def note(self, op: int, seconds: float) -> None:
        """Somebody has waited for so many seconds."""
        self._new.append((op, seconds))
        if len(self._new) > MOST_NEW:
            self._add_up()

    def of(self, op: int) -> Histogram:
        """The waits for an operation."""
        self._add_up()
        seconds, *counts = list(self._sums.get(op, ())) or [0.0] * (len(BOUNDS) + 2)
        return Histogram(BOUNDS, tuple(int(each) for each in counts), seconds)

    def _add_up(self) -> None:
        adding: Any = self._adding
        if adding._is_owned():  # as threading.Condition asks of its lock: this thread is adding up, and was interrupted
            return
        try:  # not `with`: see Paths._rotate
            if adding.acquire(False):
                self._add_new()
                adding.release()
        except BaseException:
            if adding._is_owned():
                adding.release()
            raise

    def _add_new(self) -> None:
        while self._new:
            op, seconds = self._new.popleft()
            sums = self._sums.setdefault(op, [0.0] * (len(BOUNDS) + 2))
            sums[0] += seconds
            sums[1 + bisect.bisect_left(BOUNDS, seconds)] += 1
