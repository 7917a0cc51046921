"""From an attempt to begin an operation to its turn: what both forms of entries share."""

from __future__ import annotations

import asyncio
import math
import sys
import warnings
from typing import TYPE_CHECKING, Generator, Optional, Protocol, Type

from . import _native as native
from ._errors import OutOfRoom
from ._form import core
from ._waiting import Waiter

if TYPE_CHECKING:
    from ._paths import Paths

_WAITS = (native.BLOCKED, native.WITHHELD)

if TYPE_CHECKING or core is None:

    class InUse(RuntimeError):
        """The entry is in progress already."""

else:
    InUse = core.InUse


class Operation(Protocol):
    """An operation that is to begin, in progress or over: the record that the library writes, and what else its turn has to know."""

    @property
    def _paths(self) -> "Paths": ...

    @property
    def _op(self) -> int: ...

    @property
    def _name(self) -> str: ...

    @property
    def _priority(self) -> int: ...

    @property
    def _timeout(self) -> Optional[float]: ...

    @property
    def _live(self) -> bool: ...

    @property
    def _number(self) -> int: ...

    _worker: int
    """The number of who began it, or tried to; 0: nobody has."""

    def _begin(self, worker: int, /) -> int: ...

    def _end(self) -> int: ...


def in_use(operation: Operation) -> InUse:
    """What a second that enters it gets."""
    return InUse("this entry of {} is in progress already".format(operation._name))


def admitted(operation: Operation, code: int, worker: int) -> bool:
    """Of what a begin has answered: whether the operation is in progress now. Rotates for room, and raises what else is in the way."""
    paths = operation._paths
    before: Optional[int] = None
    while code == native.NO_ROOM and paths._made_room(before):
        before = paths._rotation.count.value
        code = operation._begin(worker)
    if code == native.NOT_YOURS:
        raise in_use(operation)
    if code == native.NO_ROOM:
        running = native.live(paths._at)
        raise OutOfRoom("no room for {}: {} in progress, in a room of {}".format(operation._name, running, paths._room))
    if code == native.CLOSED:
        raise paths._closed()
    return code == native.STARTED


def check_seconds(timeout: Optional[float]) -> None:
    """Raises TypeError for what is no limit of time, and ValueError for a number that is none: `nan`, or a whole one past all floats."""
    if timeout is None:
        return
    try:
        seconds = float(timeout)
    except (TypeError, ValueError, OverflowError):
        seconds = math.nan
    if isinstance(timeout, (str, bytes)) or math.isnan(seconds):
        kind = ValueError if isinstance(timeout, (int, float)) else TypeError
        raise kind("a limit of time is None or a number of seconds, not {!r}".format(timeout))


def frames_of_package() -> int:
    """How many frames of the package are above that of who calls it, and that one: the `stacklevel` of a warning there."""
    frame, level = sys._getframe(1), 1
    while frame.f_back is not None and (frame.f_globals.get("__package__") or "").split(".")[0] == __package__:
        frame, level = frame.f_back, level + 1
    return level


def warn_in_loop(operation: Operation) -> None:
    """Warns where a thread that runs a loop in debug mode may wait: it would hold up all tasks of the loop."""
    loop, limit = asyncio._get_running_loop(), operation._timeout
    if loop is None or not loop.get_debug() or limit is not None and limit <= 0:
        return
    told = "with paths({0!r}) in a coroutine holds up its loop while it waits: write `async with paths.aio({0!r}):`"
    warnings.warn(told.format(operation._name), RuntimeWarning, frames_of_package())


def watched(operation: Operation, worker: int, waiter: Waiter) -> Waiter:
    """The waiter of this worker, which is going to wait."""
    if waiter.loop is None and asyncio._get_running_loop() is not None:
        warn_in_loop(operation)
    waiter.paths, waiter.worker = operation._paths, worker
    return waiter


def check_priority(priority: int) -> int:
    """The same. Raises TypeError for what is no whole number, and ValueError for one below 0 or past 32 bits."""
    if not isinstance(priority, int) or not 0 <= priority < 1 << 32:
        kind = ValueError if isinstance(priority, int) else TypeError
        raise kind("a priority is a number from 0 to 4,294,967,295, not {!r}".format(priority))
    return priority


def raise_if_late(operation: Operation, waiter: Waiter) -> None:
    """Raises `Timeout` if the time is over, and a path still forbids the start, or it is withheld."""
    left, paths = waiter.left(), operation._paths
    if left is None or left > 0:
        return
    told = None if waiter.place is None else waiter.place.behind
    if told is not None:
        raise paths._behind(operation._name, told).over(operation._timeout)
    why = paths._why(operation._name, [waiter.worker]) if waiter.worker and paths._looks else paths.why(operation._name)
    if why is not None:
        raise why.over(operation._timeout)


def _until_admitted(operation: Operation, worker: int, waiter: Waiter) -> Generator[Waiter, None, None]:
    """Of one that has joined its queue: yields the waiter each time it has to wait."""
    # A function of its own, as is each loop of the package that stands in a `try` or `with`: in CPython 3.13 no handler of the function
    # itself sees an interrupt that comes as a loop jumps back by its condition.
    while not _admitted_by_now(operation, worker, waiter):
        yield waiter
        operation._paths._queues.woken(waiter)


def _admitted_by_now(operation: Operation, worker: int, waiter: Waiter) -> bool:
    """Tries once more, where no path forbids it and it isn't withheld. Raises `Timeout` if the time is over."""
    if operation._paths._queues.asks(waiter) not in _WAITS:
        if admitted(operation, operation._begin(worker), worker):
            return True
    raise_if_late(operation, waiter)
    return False


def undo(operation: Operation, error: BaseException, worker: int, waiter: Optional[Waiter]) -> None:
    """After an exception: what was begun isn't in progress, nobody waits for it, and others have their turn. To do so twice does no
    harm."""
    paths = operation._paths
    if waiter is not None:
        paths._queues.quit(waiter)
    if operation._worker == worker and not isinstance(error, InUse):  # else another turn has begun the same entry
        operation._end()
    paths._queues.wake_all(again=True)


def waiting(operation: Operation, code: int, worker: int, waiter_of: Type[Waiter]) -> Generator[Waiter, None, None]:
    """From the answer to the first attempt until the operation is in progress: yields a waiter each time it has to wait. If it raises, it
    leaves nothing behind."""
    waiter: Optional[Waiter] = None
    try:
        try:
            if not admitted(operation, code, worker):
                waiter = watched(operation, worker, waiter_of(operation._op, operation._timeout, operation._priority))
                queue = operation._paths._queues.join(waiter)
                if waiter.paths is not None:
                    queue.look_later()
                operation._paths._queues.rests(waiter)
                yield from _until_admitted(operation, worker, waiter)
                operation._paths._queues.quit(waiter)
        except BaseException as error:
            undo(operation, error, worker, waiter)
            raise
    except BaseException as error:
        undo(operation, error, worker, waiter)  # again, for an interrupt may have cut it off
        raise
