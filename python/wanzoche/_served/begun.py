"""An operation over a log that is to begin, in progress or over, and the starts that are asked for it."""

from __future__ import annotations

import time
from typing import TYPE_CHECKING, Any, Callable, Optional, cast

from .. import _native as native
from .._attempts import check_priority
from .._held import Begun
from .requests import Start

from . import times

if TYPE_CHECKING:
    from .paths import ServedPaths
    from .store import ServedStore


class ServedBegun(Begun):
    """What an entry and the clerk know of it. Of its thread or task; its number and whether it is in progress are written at the clerk's desk."""

    __slots__ = ("attempt", "_priority")

    def __init__(self, paths: "ServedPaths", name: str, timeout: Optional[float], priority: int) -> None:
        super().__init__(paths, name, timeout)
        self._priority = check_priority(priority)
        self.attempt: Optional[Start] = None
        """The last start that was asked for it."""

    def store(self) -> "ServedStore":
        """Where it is begun."""
        return cast("ServedPaths", self._paths).served

    def new_attempt(self, worker: int, wake: Callable[[], None], until: Optional[float], loop: Any = None) -> Start:
        """A start that waits until then for its turn. Without a time it waits; with one that is over it doesn't."""
        waits = until is None or until > time.monotonic()
        self.attempt = start = Start(wake, self, worker, waits, loop, self._priority)
        start.until = self.ends(until)
        return start

    def ends(self, until: Optional[float]) -> Optional[float]:
        """When nobody waits any longer for the server; None if only the outage says so, as where the turn isn't waited for."""
        return until + times.SPARE if self._timeout and until is not None else None

    def note_wait(self, start: Start) -> None:
        """Notes how long that has waited, if it had to."""
        if start.has_waited:
            self._paths._queues.waits.note(self._op, time.monotonic() - start.since)

    def _begin(self, worker: int) -> int:
        """Starts it, if it is admitted now."""
        return self.store().start(self, worker, 0.0)

    def _end(self) -> int:
        """The finish of one that nobody will leave."""
        self.store().drop(self)
        return native.FINISHED
