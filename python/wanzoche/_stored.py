"""Paths that all processes of a machine share, over a store."""

from __future__ import annotations

import collections
import concurrent.futures
import logging
import os
import threading
import time
import warnings
import weakref
from typing import Any, Callable, Dict, Iterator, List, Mapping, Optional, Sequence, TypeVar, Union

from . import _native as native
from ._attempts import frames_of_package
from ._auditing import audit
from ._declaring import declaration_error
from ._entries import AsyncEntry, Entry
from ._errors import Blocked, Closed, WanzocheError
from ._filed import Begun as FiledBegun
from ._filed import StoredAsyncEntry, StoredEntry
from ._held import Begun as Begun
from ._held import _Stored as _Stored
from ._held import process_name as process_name
from ._listening import Listener
from ._metrics import new_counters, value_of
from ._opening import Waiter as WaiterOfLibrary
from ._order import Told as Ahead
from ._order import nanoseconds_of
from ._paths import Paths
from ._replica import Replica
from ._sharing import SharedStore
from ._service import host
from ._store import Store, Told
from ._telling import tell_wait
from ._texts import Live, Report, Verdict, Waiting, Worker, read_report
from ._waiting import Queues, Waiter, patched_by

T = TypeVar("T")
_logger = logging.getLogger("wanzoche")


def _worker_number(name: Union[str, int]) -> int:
    word = str(name).split()[-1:]
    if not word or not word[0].isdecimal():
        raise ValueError("a worker is a number or `process NUMBER`, not {!r}".format(name))
    return int(word[0])


class StoredPaths(Paths):
    """Paths over a store: what `Paths(text, store=..)` makes. See `Paths`."""

    _looks = False
    _store: SharedStore
    _file: Store
    """The same, of paths over a file."""
    _listener: Listener
    """Who listens for the tasks of paths over a file."""

    def __init__(
        self,
        text: Union[str, bytes],
        *,
        store: Any,
        sync: bool = True,
        lost: Optional[str] = None,
        room: Optional[int] = None,
        **other: Any,
    ) -> None:
        if other.pop("log", None) is not None or not other.pop("journal", True) or other.pop("resume", None) is not None:
            raise ValueError("a store is the journal itself: it takes no `log`, no `journal` and no `resume`")
        if lost not in (None, "finish", "keep"):
            raise ValueError("`lost` is 'finish' or 'keep', not {!r}".format(lost))
        source = self._source_of(text, native.MOST_LINES if room is None else room)
        if patched_by() is not None:
            told = "{} has put greenlets in the place of threads, and over a store who waits holds up all of them: docs/shared.md has what helps"
            warnings.warn(told.format(patched_by()), RuntimeWarning, frames_of_package())
        handle = native.Handle()
        self._store = opened = self._new_store(store, source, handle, other, room=room, sync=sync, lost=lost)
        if other:
            raise TypeError("Paths has no {}".format(", ".join(other)))
        answer = opened.open()
        if answer.code == native.OUT_OF_MEMORY:
            raise MemoryError("no memory for a system")
        if answer.code != native.OPENED:
            raise declaration_error(answer, source)
        try:
            self._begin_with(opened, source, handle)
        except BaseException:
            opened.end()
            raise

    def _begin_with(self, opened: SharedStore, source: bytes, handle: native.Handle) -> None:
        """From now on these are the paths of this store."""
        self._finalizer = weakref.finalize(self, opened.end)
        self._finalizer.atexit = False
        self._executor: Optional[concurrent.futures.Executor] = None
        self._begun: List[Iterator[int]] = []
        self._claims = threading.RLock()
        self._set_out(source, opened.room, None)
        self._read_names(handle)
        opened.operations = self._operations
        self._begun = new_counters(len(self._numbers))

    def _new_store(
        self,
        store: Any,
        source: bytes,
        handle: native.Handle,
        other: Dict[str, Any],
        *,
        room: Optional[int],
        sync: bool,
        lost: Optional[str],
    ) -> SharedStore:
        """The store, not yet open. It takes what it knows of the other options. None is what wasn't given."""
        patience = other.pop("patience", None)
        if patience is not None:
            self._wait = nanoseconds_of(patience)
        most = native.MOST_LINES if room is None else room
        self._file = Store(store, source, handle, room=most, sync=sync, finishes_lost=lost != "keep", patience=patience)
        self._listener = Listener(self._file)
        return self._file

    def __call__(self, operation: str, timeout: Optional[float] = None, priority: int = 0) -> Entry:
        return StoredEntry(self, operation, timeout, priority)

    def aio(self, operation: str, timeout: Optional[float] = None, priority: int = 0) -> AsyncEntry:
        return StoredAsyncEntry(self, operation, timeout, priority)

    def waiters(self) -> List[Waiting]:
        """Who waits in all processes, in the order in which they come next where nothing is in their way."""
        return [self._waiting_at(each) for each in self._asked(self._file.waiters)]

    def _waiting_at(self, one: WaiterOfLibrary) -> Waiting:
        """One who waits, as the library tells of it."""
        worker = Worker(process_name(one.worker), None, one.process or None, host() if one.process else None)
        return Waiting(self._operations[one.operation], worker, one.priority, one.waited / 1000)

    def waiting(self) -> Dict[str, int]:
        """How many threads and tasks wait for each operation in all processes, of those operations for which any does."""
        return self._count(self._asked(self._file.waiters))

    def _waiting_here(self) -> Dict[str, int]:
        """The same in this process."""
        return self._count([each for each in self._asked(self._file.waiters) if each.worker == self._store.worker])

    def _count(self, waiters: Sequence[WaiterOfLibrary]) -> Dict[str, int]:
        counts = collections.Counter(each.operation for each in waiters)
        return {name: counts[op] for op, name in enumerate(self._operations) if counts[op]}

    @property
    def worker(self) -> str:
        """Who these paths are in the journal, as `process 3`. Each opening of a store has a number of its own."""
        return process_name(self._store.worker)

    def can_start(self, operation: str) -> bool:
        op = self._number(operation)
        return self._asked(lambda: self._file.may_start(op, self._worker_now())[0] != native.BLOCKED)

    def why(self, operation: str) -> Optional[Blocked]:
        op = self._number(operation)
        code, behind = self._asked(lambda: self._file.may_start(op, self._worker_now()))
        return None if code == native.CAN_START else self._why_now(operation, code, behind)

    def _why_now(self, operation: str, code: int, behind: WaiterOfLibrary) -> Optional[Blocked]:
        """Why it was answered so to a start. Raises `StoreLate` if a turn to find that out is long in coming."""
        report = self._asked(lambda: self._report_of(self._file.told_now()))
        if code != native.WITHHELD:
            return self._reasons.forbids(operation, report)
        return self._reasons.withheld(operation, self._waiting_at(behind), report)

    def _told_why(self, begun: FiledBegun, code: int) -> Optional[Blocked]:
        """The same to this one. Raises `StoreLate` if there was no turn to ask."""
        if code == native.LATE:
            raise self._file.refusal(native.Answer(code, 0))
        return self._why_now(begun._name, code, begun._behind)

    def _why_waits(self, operation: str) -> Optional[Blocked]:
        """What is in the way of who waits for the operation in this process."""
        return self.why(operation)

    def report(self) -> Report:
        return self._asked(self._read_report)

    def _read_report(self) -> Report:
        return self._report_of(self._file.told())

    def _report_of(self, parts: Told) -> Report:
        """A report of the library, with who the workers are."""
        text, lost, processes = parts
        told = read_report(text, lambda worker: self._process_at(worker, processes.get(worker)))
        return told._replace(lost=tuple(each for each in told.live if each.activation in lost))

    def _tell_long_wait(self, begun: FiledBegun, code: int, worker: int, since: float) -> None:
        """Writes to the log that this one has waited since then, and what is in its way."""
        try:
            if code != native.LATE and _logger.isEnabledFor(logging.INFO):
                why = self._told_why(begun, code)
                if why is not None:
                    _logger.info("%s has waited for %.0f s: %s", super()._worker(worker).told, time.monotonic() - since, why)
        except (WanzocheError, MemoryError, OSError):
            pass  # who waits is told the same

    def _look_at(self, waiters: Sequence[Waiter]) -> None:
        self._waits_long(waiters[0].op, waiters[0].worker, waiters[0].since, len(waiters) - 1)

    def _waits_long(self, op: int, worker: int, since: float, others: int = 0, told: Optional[Ahead] = None) -> None:
        """Writes to the log who waits, and for whom."""
        try:
            if _logger.isEnabledFor(logging.INFO):
                tell_wait(self, self._operations[op], self._report_for_log(), worker, since, others, told)
        except (WanzocheError, MemoryError, OSError):
            pass  # who waits is told the same

    def _report_for_log(self) -> Report:
        return self.report()

    def _process_at(self, worker: int, known: Optional[int]) -> Worker:
        """Who a worker is, of which this process is known, if it is."""
        pid = os.getpid() if worker == self._store.worker else known
        return Worker(process_name(worker), None, pid, None if pid is None else host())

    def _process(self, worker: int) -> Worker:
        return self._process_at(worker, None)

    def _entries(self, op: int) -> int:
        return value_of(self._begun[op])

    def _in_progress(self) -> Mapping[str, int]:
        return collections.Counter(each.operation for each in self.report().live if each.worker == self.worker)

    def recover(self, worker: Union[str, int, Live], even_alive: bool = False) -> int:
        """Finishes what a dead worker has in progress: how many operations that was. The worker is one of `report().lost`, or its name, or
        its number.

        Raises `ValueError` if the worker is alive, unless `even_alive`: then it gets `Lost` when it uses or leaves what it had. Only do
        that when what it guards refuses a late writer by the token.
        """
        number = _worker_number(worker.worker if isinstance(worker, Live) else worker)
        try:
            return self._store.recover(number, even_alive)
        except Closed:
            raise self._closed() from None

    def journal(self) -> str:
        """All lines of the store, by all processes, without their marks; those too that were moved away."""
        return "".join(self._texts())

    def _texts(self) -> List[str]:
        try:
            return self._store.texts()
        except Closed:
            raise self._closed() from None

    def rotate(self) -> None:
        """Moves the journal's file away, to `FILE.1`, `FILE.2` and so on, and begins another. The paths do so by themselves when it has no
        room left. All of them are read when the store is opened. In PostgreSQL it moves all lines but the last into segments: see
        docs/machines.md. Raises `StoreError`."""
        try:
            self._store.rotate()
        except Closed:
            raise self._closed() from None

    def audit(self, text: Optional[str] = None, room: int = native.MOST_LINES) -> Verdict:
        if self._forked:
            raise self._closed()
        if text is not None:
            return audit(self._source, text, room)
        replica = Replica(self._source, native.Handle())
        replica.open()
        try:
            sound = all(replica.take_over(each.encode()) is None for each in self._texts())
            return Verdict(None if sound else replica.lines)
        finally:
            replica.close()

    def close(self) -> None:
        """Finishes what this process has in progress, and gives the store and all memory back. Whoever waits gets `Closed`. A second close
        does nothing, nor does one in the child of a fork."""
        if self._forked:
            return
        try:
            self._store.close()
        finally:
            self._queues.end_all()

    # For entries

    def _new_queues(self) -> Queues:
        return Queues(self._calls)

    def _new_line(self, handle: native.Handle) -> None:
        return None

    def _pool(self) -> concurrent.futures.Executor:
        if self._executor is None:
            self._executor = concurrent.futures.ThreadPoolExecutor(8, "wanzoche")
        return self._executor

    def _asked(self, question: Callable[[], T]) -> T:
        try:
            return self._store.ask(question)
        except Closed:
            raise self._closed() from None

    def _made_room(self, before: Optional[int]) -> bool:
        return False

    def _after_fork(self) -> None:
        self._store.abandon()
        super()._after_fork()
