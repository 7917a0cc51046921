"""The last minutes of a store as bars: each operation from the moment at which somebody saw its start to that at which its finish was seen."""

from __future__ import annotations

import re
from collections import deque
from typing import Deque, Dict, Iterable, List, Optional, Tuple

SECONDS = 600.0
"""So long what is over is kept."""
MOST = 2000
"""So many bars are kept of what is over."""
SHORT = 1.0
"""Operations that take less than so many seconds, and follow each other within them, are one bar."""
_LONGEST = 30.0
"""A bar of several doesn't get longer than so many seconds."""
_LINE = re.compile(rb"^\+?(\d+) (?:start (\w+): started (\d+)|finish (\d+): finished)$", re.M)


class Bar:
    """One operation, or several short ones that follow each other."""

    __slots__ = ("operation", "worker", "activation", "begin", "end", "count")

    def __init__(self, operation: str, worker: int, activation: int, begin: Optional[float]) -> None:
        self.operation = operation
        self.worker: Optional[int] = worker
        """None of several workers."""
        self.activation = activation
        """Of several the first."""
        self.begin = begin
        """None if it had begun when all was read."""
        self.end: Optional[float] = None
        """None while it is in progress."""
        self.count = 1

    def told(self) -> Tuple[object, ...]:
        """What the page is told of it."""
        return self.operation, self.worker, self.activation, self.begin, self.end, self.count


class Bars:
    """The bars, as lines of the journal come. What is in progress before has for each an activation, an operation and a worker."""

    def __init__(self, live: Iterable[Tuple[int, str, int]] = ()) -> None:
        self._live = {number: Bar(operation, worker, number, None) for number, operation, worker in live}
        self._over: Deque[Bar] = deque()
        self._short: Dict[str, Bar] = {}  # for each operation the last bar of short ones
        self.whole_since: Optional[float] = None
        """What ended before that isn't all there; None if nothing is missing but for what is too old."""

    def see(self, text: bytes, moment: float) -> None:
        """Takes whole lines of a journal as what comes at this moment."""
        for worker, name, started, finished in _LINE.findall(text):
            if name:
                number = int(started)
                self._live[number] = Bar(name.decode("ascii"), int(worker), number, moment)
            else:
                self._finish(int(finished), moment)

    def _finish(self, number: int, moment: float) -> None:
        bar = self._live.pop(number, None)
        if bar is None:
            return
        bar.end = moment
        if bar.begin is None or moment - bar.begin > SHORT:
            self._add(bar)
        elif not self._joins(bar, bar.begin, moment):
            self._short[bar.operation] = bar
            self._add(bar)

    def _joins(self, bar: Bar, begin: float, end: float) -> bool:
        """Makes a short one a part of the bar before it, if it follows that closely."""
        last = self._short.get(bar.operation)
        if last is None or last.begin is None or last.end is None or begin - last.end > SHORT or end - last.begin > _LONGEST:
            return False
        last.begin, last.end = min(last.begin, begin), max(last.end, end)
        last.count += 1
        if last.worker != bar.worker:
            last.worker = None
        return True

    def _add(self, bar: Bar) -> None:
        self._over.append(bar)
        if len(self._over) > MOST:
            self.whole_since = self._over.popleft().end

    def all(self, now: float) -> List[Bar]:
        """What is over and not too old, and behind that what is in progress."""
        while self._over and (self._over[0].end or now) < now - SECONDS:
            self._over.popleft()
        if self.whole_since is not None and self.whole_since < now - SECONDS:
            self.whole_since = None
        return list(self._over) + list(self._live.values())

    def began(self, activation: int) -> Optional[float]:
        """When the start of an activation in progress was seen; None if it wasn't."""
        bar = self._live.get(activation)
        return None if bar is None else bar.begin
