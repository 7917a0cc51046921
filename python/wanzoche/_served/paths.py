"""Paths that processes of several machines share, over a log that a PostgreSQL server keeps."""

from __future__ import annotations

import collections
import weakref
from typing import Any, Callable, Dict, List, Mapping, Optional

from .. import _native as native
from .._entries import AsyncEntry, Entry
from .._errors import Blocked
from .._order import NEVER, Told, nanoseconds_of
from .._paths import Paths
from .._sharing import SharedStore
from .._stored import StoredPaths
from .._texts import Report, Waiting, Worker, read_report
from .._waiting import Queues
from . import times
from .begun import ServedBegun
from .entries import ServedAsyncEntry, ServedEntry
from .log import Given
from .requests import Start, wake_nobody
from .segments import MOST_IN_SEGMENT
from .store import ServedStore
from .wanted import Wanted

SCHEMES = ("postgresql://", "postgres://")


class ServedQueues(Queues):
    """Nobody waits in these: the clerk has its own."""

    __slots__ = ("_wanted",)

    def __init__(self, calls: Any, wanted: Wanted) -> None:
        super().__init__(calls)
        self._wanted = wanted

    def waiting(self, op: int) -> int:
        return self._wanted.waiting(op)


class ServedPaths(StoredPaths):
    """Paths over a log in PostgreSQL: what `Paths(text, store="postgresql://..", name=..)` makes. See `Paths`."""

    served: ServedStore
    """The opening."""
    _may_finish = True
    """Whether what the dead have in progress is finished, if the log says so."""
    _only_looks = False
    """Whether nothing is begun, and nothing written, so that it takes no right but to read."""

    def _new_store(
        self,
        store: Any,
        source: bytes,
        handle: native.Handle,
        other: Dict[str, Any],
        *,
        room: Optional[int],
        sync: bool,
        lost: Optional[str],
    ) -> SharedStore:
        name, grace, outage = other.pop("name", None), other.pop("grace", None), other.pop("outage", None)
        if not isinstance(name, str) or not name or "\0" in name:
            raise ValueError('a store in PostgreSQL needs the log\'s name: `name="pool"`')
        if room is not None and room > MOST_IN_SEGMENT:
            raise ValueError("the room of a log in PostgreSQL is 1 to {:,} lines, not {:,}".format(MOST_IN_SEGMENT, room))
        given = Given(lost, None if grace is None else float(grace), room)
        seconds = times.OUTAGE if outage is None else float(outage)
        if not (0 <= (given.grace or 0.0) < float("inf") and seconds >= 0):
            raise ValueError("`grace` and `outage` are seconds, not {} and {}".format(grace, outage))
        patience = other.pop("patience", None)
        if patience is not None:
            self._wait = nanoseconds_of(patience)
        waits = float("inf") if self._wait == NEVER else self._wait * 1e-9
        kind: Dict[str, Any] = {"may_finish": self._may_finish, "only_looks": self._only_looks, "patience": waits}
        self.served = ServedStore(str(store), source, handle, name=name, sync=sync, given=given, outage=seconds, **kind)
        return self.served

    def __call__(self, operation: str, timeout: Optional[float] = None, priority: int = 0) -> Entry:
        return ServedEntry(self, operation, timeout, priority)

    def aio(self, operation: str, timeout: Optional[float] = None, priority: int = 0) -> AsyncEntry:
        return ServedAsyncEntry(self, operation, timeout, priority)

    def _new_queues(self) -> Queues:
        this = weakref.ref(self)
        self.served.clerk.replies.explains = lambda op, told: _known_of(this(), op, told)
        return ServedQueues(self._calls, self.served.clerk.wanted)

    def _begin_with(self, opened: SharedStore, source: bytes, handle: native.Handle) -> None:
        super()._begin_with(opened, source, handle)
        this = weakref.ref(self)
        self.served.clerk.checks.waits_long = lambda op, worker, since, told: _tell_wait_of(this(), op, worker, since, told)

    def can_start(self, operation: str) -> bool:
        op = self._number(operation)
        return self._asked(lambda: self.served.log.replica.can_start(op))

    def waiting(self) -> Dict[str, int]:
        """How many threads and tasks wait for each operation in this process, of those for which any does."""
        return Paths.waiting(self)

    def _waiting_here(self) -> Dict[str, int]:
        return self.waiting()

    def _in_progress(self) -> Mapping[str, int]:
        return collections.Counter(self._operations[each._op] for each in list(self.served.held.values()))

    def _process(self, worker: int) -> Worker:
        return self._process_at(worker, None)

    def _read_report(self) -> Report:
        told = read_report(self._text_of(native.report), self._process)
        gone = {each.number for each in self.served.lost()}
        return told._replace(lost=tuple(each for each in told.live if each.activation in gone))

    def _report_for_log(self) -> Report:
        return self._read_report()  # it is the desk that asks

    def why(self, operation: str) -> Optional[Blocked]:
        op, caller = self._number(operation), self._worker_now()
        return self._asked(lambda: self._blocked_now(operation, lambda: self.served.clerk.turns.ahead_of(op, caller)))

    def _why_waits(self, operation: str) -> Optional[Blocked]:
        """The same for the first who waits for the operation in this process, if any does: it isn't in its own way."""
        return self._asked(lambda: self._why_first_waits(operation))

    def waiters(self) -> List[Waiting]:
        return [self._waiting_of(told) for told in self._asked(self.served.clerk.turns.waiters)]

    def _waiting_of(self, told: Told) -> Waiting:
        op, worker, priority, waited = told
        return Waiting(self._operations[op], self._process(worker), priority, waited)

    # At the desk

    def _why_first_waits(self, operation: str) -> Optional[Blocked]:
        op, clerk = self._number(operation), self.served.clerk
        start = clerk.wanted.first_of(op)
        return self._blocked_now(operation, lambda: clerk.turns.ahead_of(op, 0) if start is None else clerk.turns.behind(start))

    def refused_now(self, begun: ServedBegun) -> Optional[Blocked]:
        """At the desk: what is in the way of one that would come now."""
        caller = begun.attempt.caller if begun.attempt else begun._worker
        start = Start(wake_nobody, begun, caller, False, None, begun._priority)
        return self._blocked_now(begun._name, lambda: self.served.clerk.turns.behind(start))

    def _blocked_now(self, operation: str, behind: Callable[[], Optional[Told]]) -> Optional[Blocked]:
        """What forbids the operation, or else for whom it is withheld."""
        if not self._can_start_now(operation):
            return self._reasons.forbids(operation, self._read_report())
        told = behind()
        return None if told is None else self._behind(operation, told, self._read_report())

    def _blocked_as_known(self, operation: str, told: Optional[Told]) -> Optional[Blocked]:
        """The same of one that is withheld for this one, without a call at the server: nobody is asked who is dead."""
        if told is None and self._can_start_now(operation):
            return None
        report = read_report(self._text_of(native.report), self._process)
        return self._reasons.forbids(operation, report) if told is None else self._behind(operation, told, report)

    def _can_start_now(self, operation: str) -> bool:
        return self.served.log.replica.can_start(self._number(operation))


def _known_of(paths: Optional[ServedPaths], op: int, told: Optional[Told]) -> Optional[Blocked]:
    """What is in the way of an operation, as far as its paths know, if they are still there."""
    return None if paths is None else paths._blocked_as_known(paths._operations[op], told)


def _tell_wait_of(paths: Optional[ServedPaths], op: int, worker: int, since: float, told: Optional[Told]) -> None:
    if paths is not None:
        paths._waits_long(op, worker, since, 0, told)


class KeepingPaths(ServedPaths):
    """The same for commands that finish nothing by themselves, whatever the log says."""

    _may_finish = False


class LookingPaths(KeepingPaths):
    """The same for commands that only look."""

    _only_looks = True
