"""What is quick of paths and entries, in Python over ctypes: the form that needs nothing but the library."""

from __future__ import annotations

import warnings
from ctypes import addressof
from types import TracebackType
from typing import TYPE_CHECKING, Any, Dict, Generator, Optional, Set, Type, TypeVar, cast

from . import _native as native
from ._attempts import Operation, admitted, check_priority, check_seconds, in_use, undo, waiting, warn_in_loop
from ._metrics import new_counters, value_of
from ._order import Line
from ._waiting import Queue, Queues, TaskWaiter, ThreadWaiter, Waiter

if TYPE_CHECKING:
    from ._entries import Entry as PublicEntry
    from ._paths import Paths

_begin, _end = native.begin, native.end
_STARTED, _FINISHED = native.STARTED, native.FINISHED


class Calls:
    """What is called of a handle."""

    __slots__ = ("_at", "begun")

    def __init__(self, handle: native.Handle, operations: int) -> None:
        self._at = addressof(handle)
        self.begun = new_counters(operations)

    def is_blocked(self, op: int) -> bool:
        """Whether a path forbids the operation of this number now."""
        return bool(native.can_start(self._at, op).code == native.BLOCKED)

    def entries(self, op: int) -> int:
        """How often the operation of this number was begun."""
        return value_of(self.begun[op])


class System:
    """The base of paths."""

    _entry_class: "Type[PublicEntry]"

    def _set_up(
        self,
        calls: Calls,
        numbers: Dict[str, int],
        queues: Queues,
        due: Set[Queue],
        line: Optional[Line],
        entry_class: "Type[PublicEntry]",
        has_threads: bool,
    ) -> None:
        """What belongs to it."""
        self._entry_class = entry_class

    def __call__(self, operation: str, timeout: Optional[float] = None, priority: int = 0) -> "PublicEntry":
        """An entry for a `with` statement, which waits until the operation is admitted, or at most so many seconds."""
        return self._entry_class(cast("Paths", self), operation, timeout, priority)


class _Operation(native.Record):
    """What the library writes of an entry, and what else its turn has to know: the turn has to do without the entry itself."""

    def __init__(self, paths: "Paths", name: str, timeout: Optional[float], priority: int) -> None:
        check_seconds(timeout)
        self._priority = check_priority(priority)
        self._paths = paths
        self._op = paths._number(name)
        self._name = name
        self._timeout = timeout
        self._at = addressof(self)

    def _begin(self, worker: int) -> int:
        return int(_begin(self._paths._at, worker, self._op, self._at))

    def _ask(self, worker: int) -> int:
        """The same of one who comes now: as of one that is blocked where it is withheld for one who waits. Others may go on behind it."""
        line, queues = self._paths._line, self._paths._queues
        if not line or not line.withholds():
            return self._begin(worker)
        if line.ahead_of(self._op, self._priority, worker) is not None:
            self._worker = worker  # as the library writes it with an attempt: somebody enters this entry
            return native.BLOCKED
        code = self._begin(worker)
        if code == _STARTED:
            queues.wake_all()
        return code

    def _end(self) -> int:
        return int(_end(self._paths._at, self._at))


_Turn = Generator[Optional[Waiter], None, int]


def _turn(operation: _Operation, worker: int, waiter_of: Optional[Type[Waiter]]) -> _Turn:
    """An operation, from its first attempt to its finish.

    Yields a waiter each time it has to wait, None when it is in progress, and goes on when it is to be finished: it returns what the
    finish answered. Without a kind of waiter it doesn't wait, and returns that it was blocked.

    It is a generator because Python ends each one: if an interrupt comes between `next` and what the caller does with it, nobody has the
    generator any more, and Python raises GeneratorExit where it stands. The library writes to the operation before a call returns, so what
    was begun is known here at each instruction.
    """
    paths = operation._paths
    if operation._live:
        raise in_use(operation)
    try:
        try:
            code = operation._ask(worker) if paths._line else _begin(paths._at, worker, operation._op, operation._at)
            if code != _STARTED:
                if waiter_of is not None:
                    yield from waiting(operation, code, worker, waiter_of)
                elif not admitted(operation, code, worker):
                    return int(code)
            next(paths._calls.begun[operation._op])
            yield None
            code = _end(paths._at, operation._at)
            if paths._queues.due:
                paths._queues.wake_all()
            return int(code)
        except BaseException as error:
            _undo(operation, error, worker)
            raise
    except BaseException as error:
        _undo(operation, error, worker)  # again, for an interrupt may have cut it off
        raise


def _undo(operation: _Operation, error: BaseException, worker: int) -> None:
    """Undoes a turn, and says so if it was in progress and nobody holds it any more."""
    dropped = operation._live and isinstance(error, GeneratorExit)
    undo(operation, error, worker, None)
    if dropped:
        warnings.warn("an entry of {} was dropped in progress, and is finished now".format(operation._name), ResourceWarning)


def _new_worker(operation: Operation) -> int:
    """Who a thread is that enters these paths for the first time."""
    warn_in_loop(operation)
    return operation._paths._thread_worker()


def _wait_for_turn(turn: _Turn) -> None:
    """Goes on with a turn until it is in progress."""
    waiter = next(turn)
    while waiter is not None:
        cast(ThreadWaiter, waiter).wait()
        waiter = next(turn)


async def _wait_for_turn_as_task(turn: _Turn) -> None:
    """The same in a task."""
    waiter = next(turn)
    while waiter is not None:
        await cast(TaskWaiter, waiter).wait()
        waiter = next(turn)


_Self = TypeVar("_Self", bound="Entry")


class Entry:
    """The base of entries."""

    __slots__ = ("_operation", "_turn")

    _entered: Any = None
    """The class that it gets when somebody enters it. Until then its class has a finalizer besides. Python loses an interrupt that comes
    while a finalizer runs, so only those have one of which there is something to say."""

    def __init__(self, paths: "Paths", operation: str, timeout: Optional[float], priority: int = 0) -> None:
        self._operation: Operation = _Operation(paths, operation, timeout, priority)
        self._turn: Optional[_Turn] = None

    def __enter__(self: _Self) -> _Self:
        operation = self._operation
        turn = self._new_turn(getattr(operation._paths._local, "worker", None) or _new_worker(operation), ThreadWaiter)
        try:
            _wait_for_turn(turn)
        except BaseException as error:
            turn.throw(error)  # which raises it again, when nothing of the turn is left
            raise
        self._turn = turn
        return self

    async def _enter_as_task(self) -> None:
        turn = self._new_turn(self._operation._paths._task_worker(), TaskWaiter)
        try:
            await _wait_for_turn_as_task(turn)
        except BaseException as error:
            turn.throw(error)
            raise
        self._turn = turn

    def _new_turn(self, worker: int, waiter_of: Optional[Type[Waiter]]) -> _Turn:
        entered = self._entered
        if entered is not None:
            self.__class__ = entered
        return _turn(cast(_Operation, self._operation), worker, waiter_of)

    def __exit__(
        self, kind: Optional[Type[BaseException]], error: Optional[BaseException], trace: Optional[TracebackType]
    ) -> None:
        turn = self._turn
        try:
            if turn is not None:
                next(turn, None)  # which does nothing if the body has left it
        except ValueError:
            pass  # another thread is leaving it

    def leave(self) -> None:
        """Finishes the operation. Raises `NotInProgress` if it isn't in progress, and `Closed` if the paths were closed meanwhile."""
        code: Optional[int] = None
        try:
            if self._operation._live:
                next(cast(_Turn, self._turn))
        except StopIteration as over:
            code = over.value
        except ValueError:
            pass  # another thread is leaving it
        if code == native.CLOSED:
            raise self._operation._paths._closed()
        if code != _FINISHED:
            raise self._not_in_progress()

    def _try(self, worker: int) -> bool:
        """Begins it, if it is admitted now."""
        turn = self._new_turn(worker, None)
        for _ in turn:
            self._turn = turn
            return True
        return False

    def _not_in_progress(self) -> Exception:
        raise NotImplementedError

    def _unused(self) -> None:
        raise NotImplementedError
