"""Paths that threads and tasks wait on."""

from __future__ import annotations

import collections
import ctypes
import itertools
import os
import weakref
from types import TracebackType
from typing import Any, Callable, Dict, Iterable, List, Mapping, NoReturn, Optional, Sequence, Tuple, Type, TypeVar, Union

from . import _native as native
from ._auditing import audit
from ._declaring import declaration_error
from ._entries import AsyncEntry, Entry, new_async_entry, not_copied
from ._errors import Blocked, Closed
from ._guarding import Call, guarding
from ._metrics import Metrics
from ._order import Told, nanoseconds_of
from ._resumed import go_on
from ._rotation import Ended, Log
from ._service import Service
from ._signature import Signature
from ._telling import tell_waits
from ._texts import Live, Path, Report, Verdict, Waiting, read_report, worker_name
from ._waiting import Waiter

Own = TypeVar("Own", bound="Paths")


def _call(self: Any, operation: str, timeout: Optional[float] = None, priority: int = 0) -> Entry:
    """What the core takes where paths are called."""
    raise NotImplementedError


class Paths(Service):
    """A system of path expressions that threads and tasks wait on.

    >>> paths = Paths("resource slot cell operation deposit, remove path deposit ; remove end end")
    >>> with paths("deposit"):
    ...     pass  # whatever belongs to the deposit

    `paths(operation, timeout=None, priority=0)` is an entry for a `with` statement, which waits until the operation is admitted, or at most
    so many seconds. Among those who wait a higher priority comes first, and then who came first. Raises `UnknownOperation`.

    Starts of others are withheld for one who has waited for `patience` seconds, if they would stand in its way: docs/waiting.md. With 0 that
    is so from the first moment on, and with `math.inf` never: then whoever is quicker comes first.

    `room` is how many lines the journal takes before the paths rotate it by themselves, 1 to 1,048,576. `log` gets the lines that a
    rotation gives up, in their order, as strings: a callable, a list, or a file that is open for text. Without one they are dropped.
    Whoever needs room waits while it is called, so it has to be quick, and it starts and leaves nothing itself. If it raises, nothing is
    rotated, whoever needed the room gets the exception, and the log gets these lines again the next time.

    With `journal=False` no lines are kept, for a service that wants no log: entries are a little quicker, and nothing is rotated. Then
    `room` is that of what is in progress, one operation less than it says, and `journal()`, and `audit()` without a text, raise `NoJournal`.
    All else is the same: also `report()`, `why(..)` and `audit(text)`.

    `resume` is the text of a journal, whoever wrote it, of any version: the paths go on behind its lines, as if they had answered them
    themselves. What was in progress there is in progress, with the same tokens, and devices have what they had. The lines stay the
    caller's: `journal()` and the log have only new ones. The text may be cut anywhere; `resumed` says how much of it is whole lines.
    Raises `JournalError`, which names the line, if a reply isn't owed or the text isn't a journal, and `OutOfRoom`.

    With `store` all processes share the paths that open it: a file, or a URL of PostgreSQL with the log's `name`. docs/shared.md and
    docs/machines.md say what `sync`, `lost`, `grace` and `outage` are.

    All methods may be called by any thread, by a signal handler and by a finalizer. Raises `DeclarationError` if the text isn't a
    declaration, and `ValueError` for a bad room, a bad patience or for a log without a journal.
    """

    __signature__ = Signature(_call)

    def __new__(cls, *given: Any, **named: Any) -> Any:
        if cls is Paths and named.get("store") is not None:
            return super().__new__(_paths_over(named["store"]))
        return super().__new__(cls)

    def __init__(
        self,
        text: Union[str, bytes],
        *,
        room: Optional[int] = None,
        log: Optional[Log] = None,
        journal: bool = True,
        resume: Union[None, str, bytes] = None,
        store: Union[None, str, "os.PathLike[str]"] = None,
        sync: bool = True,
        lost: Optional[str] = None,
        name: Optional[str] = None,
        grace: Optional[float] = None,
        outage: Optional[float] = None,
        patience: Optional[float] = None,
    ) -> None:
        if store is not None:
            raise TypeError("a subclass of Paths has no store: derive it from StoredPaths")
        if (name, grace, outage) != (None, None, None):
            raise TypeError("`name`, `grace` and `outage` are of a store in PostgreSQL")
        if patience is not None:
            self._wait = nanoseconds_of(patience)
        room = 65536 if room is None else room
        source = self._source_of(text, room)
        if log is not None and not journal:
            raise ValueError("without a journal there are no lines for a log")
        handle = native.Handle()
        message = ctypes.create_string_buffer(native.MESSAGE)
        opens = native.open if journal else native.open_without_journal
        answer = opens(ctypes.addressof(handle), source, len(source), room, message, len(message))
        if answer.code == native.OUT_OF_MEMORY:
            raise MemoryError("no memory for a system with room for {} lines".format(room))
        if answer.code != native.OPENED:
            raise declaration_error(answer, source)
        self._set_out(source, room, log)
        if resume is not None:
            self._resumed, self._gone = go_on(handle, resume.encode() if isinstance(resume, str) else bytes(resume), room)
            self._threads = itertools.filterfalse(self._gone.__contains__, self._threads)
            self._tasks = itertools.filterfalse(self._gone.__contains__, self._tasks)
        self._read_names(handle)
        self._finalizer = weakref.finalize(self, _close, handle)
        self._finalizer.atexit = False  # threads may still run then, and the process gives all back

    # What can be entered

    @property
    def operations(self) -> Tuple[str, ...]:
        """The declared operations, in the order of the text."""
        return self._operations

    @property
    def paths(self) -> Tuple[Path, ...]:
        """The declared paths, in the order of their numbers."""
        return self._paths_of_text

    @property
    def resumed(self) -> Optional[int]:
        """How many bytes of the journal that these paths go on behind are whole lines. Behind them is a torn end: cut it off before new
        lines are appended. None if they go on behind none."""
        return self._resumed

    def enter(self, operation: str, timeout: Optional[float] = None, priority: int = 0) -> Entry:
        """Starts an operation, and waits until it is admitted. Leave it by `entry.leave()`.

        Raises `Timeout` if it isn't admitted within so many seconds, `UnknownOperation`, and `Closed` if the paths are closed.
        """
        return self(operation, timeout, priority).__enter__()

    def try_enter(self, operation: str, priority: int = 0) -> Optional[Entry]:
        """Starts an operation if it is admitted now; None if a path forbids it, or it is withheld for one who waits (`why` says which)."""
        entry = self(operation, None, priority)
        return entry if entry._try(self._thread_worker()) else None

    def aio(self, operation: str, timeout: Optional[float] = None, priority: int = 0) -> AsyncEntry:
        """An entry for an `async with` statement."""
        return new_async_entry(self, operation, timeout, priority)

    def guards(self, operation: str, timeout: Optional[float] = None, priority: int = 0) -> Callable[[Call], Call]:
        """A decorator: each call of the function is this operation. A coroutine function waits as a task."""
        return guarding(self, operation, timeout, priority)

    # What can be asked

    def can_start(self, operation: str) -> bool:
        """Whether no path forbids the operation now."""
        answer = native.can_start(self._at, self._number(operation))
        if answer.code == native.CLOSED:
            raise self._closed()
        return bool(answer.code == native.CAN_START)

    def why(self, operation: str) -> Optional[Blocked]:
        """What forbids the operation now, or for whom a start of it is withheld, as an exception that isn't raised; None if nothing is in the
        way."""
        op = self._number(operation)
        why = self._why(operation, self._queues.workers(op))
        told = self._line.ahead_of(op, 0, self._worker_now()) if why is None and self._line else None
        return why if told is None else self._behind(operation, told)

    def _why(self, operation: str, waiting: Iterable[int]) -> Optional[Blocked]:
        """The same, where these wait for it, as far as it is known who waits."""
        return None if self.can_start(operation) else self._reasons.forbids(operation, self.report(), waiting)

    def _behind(self, operation: str, told: Told, report: Optional[Report] = None) -> Blocked:
        """That a start is withheld for this one, where the report says what is in progress."""
        return self._reasons.withheld(operation, self._waiting_of(told), report or self.report())

    def _waiting_of(self, told: Told) -> Waiting:
        """One who waits, as the line tells of it."""
        op, worker, priority, waited = told
        return Waiting(self._operations[op], self._worker(worker), priority, waited)

    def _look_at(self, waiters: Sequence[Waiter]) -> None:
        """Tells the program's log of these that wait for one operation."""
        try:
            tell_waits(self, self._operations[waiters[0].op], self.report(), waiters)
        except (Closed, MemoryError):
            pass  # the first is told to all that wait, and without memory the wait goes on

    def report(self) -> Report:
        """What can be started now, which path blocks what, and what is in progress."""
        told = read_report(self._text_of(native.report), self._worker)
        if not self._gone:
            return told
        names = [worker_name(worker) for worker in self._gone]
        return told._replace(lost=tuple(each for each in told.live if each.worker in names))

    def recover(self, worker: Union[str, int, Live], even_alive: bool = False) -> int:
        """Finishes what a worker had in progress at the end of the journal that these paths go on behind: how many operations that was.
        The worker is one of `report().lost`, or its name, or its number. Raises `ValueError` for all others: what they have in progress
        is left by its entry. Over a store see `StoredPaths.recover`."""
        name = worker.worker if isinstance(worker, Live) else worker_name(worker) if isinstance(worker, int) else worker
        number = next((each for each in self._gone if worker_name(each) == name), None)
        if number is None:
            raise ValueError("{} isn't of the journal that these paths go on behind".format(name))
        found = [each.activation for each in self.report().lost if each.worker == name]
        count = [native.finish(self._at, number, each).code for each in found].count(native.FINISHED)
        self._queues.wake_all(again=True)
        return count

    def waiting(self) -> Dict[str, int]:
        """How many threads and tasks wait for each operation, of those for which any does."""
        if native.can_start(self._at, 0).code == native.CLOSED:
            raise self._closed()
        waiting = {name: self._queues.waiting(op) for name, op in self._numbers.items()}
        return {name: number for name, number in waiting.items() if number}

    def _waiting_here(self) -> Dict[str, int]:
        """The same of this process."""
        return self.waiting()

    def waiters(self) -> List[Waiting]:
        """Who waits, in the order in which they come next where nothing is in their way. Of a task and a thread alike: the operation, the
        worker, the priority, and for how many seconds it has waited."""
        if native.can_start(self._at, 0).code == native.CLOSED:
            raise self._closed()
        return [] if self._line is None else [self._waiting_of(told) for told in self._line.waiters()]

    def metrics(self) -> Dict[str, Metrics]:
        """What was counted of each operation in this process since the paths were opened: how often it was begun, how many had to wait for
        it, for how long, and how many do so now. Costs about what a report does."""
        waiting, waits = self._waiting_here(), self._queues.waits
        live = self._in_progress()
        found = ((name, waits.of(op), op) for name, op in self._numbers.items())
        return {
            name: Metrics(self._entries(op), sum(waited.counts), waited, waiting.get(name, 0), live.get(name, 0))
            for name, waited, op in found
        }

    def _entries(self, op: int) -> int:
        return self._calls.entries(op)

    def _in_progress(self) -> Mapping[str, int]:
        """How often each operation is in progress in this process, of those that are."""
        return collections.Counter(each.operation for each in self.report().live)

    def journal(self) -> str:
        """The lines that the log hasn't got, since the last rotation, as a text: one for each start, use and finish, and for each that
        was refused. Raises `NoJournal` if none are kept."""
        try:
            return self._rotation.unlogged()
        except Ended:
            raise self._closed() from None

    def rotate(self) -> None:
        """Gives the lines so far to the log, and counts the room anew. Without a journal it does nothing."""
        try:
            self._rotation.rotate(None)
        except Ended:
            raise self._closed() from None

    def audit(self, text: Optional[str] = None, room: int = native.MOST_LINES) -> Verdict:
        """Replays a journal under this declaration: `sound` if each reply was owed by the lines before it.

        Without a text it is the journal of these paths; after a rotation that is only the end of one, and `ValueError` says so. To
        audit all of it, join what the log got and `journal()`, while these are at most 1,048,576 lines. A text that begins with
        `journal 2 room N` has that room. Raises `JournalError` if the text isn't a journal, and `NoJournal` if there is neither a text
        nor a journal of these paths.
        """
        if self._forked:
            raise self._closed()
        if text is None:
            text = self.journal()
            if self._rotation.has_given():
                raise ValueError("the journal was rotated: audit what the log got, and then journal(), as one text")
            if self._resumed is not None:
                raise ValueError("these paths go on behind a journal: audit that, and then journal(), as one text")
        return audit(self._source, text, room)

    # Ending

    def close(self) -> None:
        """Gives all memory back. Whoever waits gets `Closed`. What is in progress is over. A second close does nothing, nor does one in
        the child of a fork."""
        try:
            native.close(self._at)
            self._queues.end_all()
        except BaseException:
            self._queues.end_all()
            raise

    def __enter__(self: Own) -> Own:
        return self

    def __exit__(
        self, kind: Optional[Type[BaseException]], error: Optional[BaseException], trace: Optional[TracebackType]
    ) -> None:
        self.close()

    def __reduce__(self) -> NoReturn:
        raise not_copied("paths belong")

    def __repr__(self) -> str:
        return "<Paths: {}>".format("; ".join("path " + path.text for path in self._paths_of_text) or "no path")

def _paths_over(store: Any) -> "Type[Paths]":
    """What makes paths over this store."""
    from ._stored import StoredPaths

    if isinstance(store, str) and store.startswith(("postgresql://", "postgres://")):
        from ._served.paths import ServedPaths

        return ServedPaths
    return StoredPaths


def _close(handle: native.Handle) -> None:
    native.close(ctypes.addressof(handle))
