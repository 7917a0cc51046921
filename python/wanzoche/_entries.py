"""Entries: operations that are begun and left."""

from __future__ import annotations

import warnings
from types import TracebackType
from typing import TYPE_CHECKING, NoReturn, Optional, Type

from . import _native as native
from ._attempts import Operation, frames_of_package
from ._errors import NotInProgress, OutOfRoom, UseRefused
from ._form import core
from ._texts import TASKS, device_of, worker_name

if TYPE_CHECKING or core is None:
    from ._plain import Calls as Calls
    from ._plain import Entry as Base
    from ._plain import System as System
else:
    from ._quick import Calls as Calls
    from ._quick import Entry as Base
    from ._quick import System as System

_VERBS = ("put {}", "take", "look", "add {}")
NOBODY = TASKS
"""No worker has this number: threads have those below, and tasks those above."""
_OFFERED = {"cell": "put and look", "queue": "put, take and look", "tally": "add and look"}


def not_copied(whose: str) -> TypeError:
    """What a copy of it gets, also one for another process."""
    told = "{} to one process, and can't be copied or pickled: let the other process open Paths(TEXT, store=FILE), and they share the paths"
    return TypeError(told.format(whose))


def raise_refused_use(operation: Operation, code: int, verb: int, number: int) -> NoReturn:
    """Raises what a use gets that is refused."""
    if code == native.NO_ROOM:
        told = "no room for a use in {}: a room of {} lines is all for what is in progress"
        raise OutOfRoom(told.format(operation._name, operation._paths._room))
    told = "{} in {}: {}".format(_VERBS[verb].format(number), operation._name, native.words(code).decode())
    if code == native.NOT_OFFERED:
        resource, law = device_of(operation._paths._text_of(native.declaration), operation._name)
        told += ": {} is a {}, which has {}".format(resource, law, _OFFERED[law.split()[0]])
    raise UseRefused(told)


def check_number(number: int) -> None:
    """Raises TypeError for what is no whole number, and OverflowError for one that no device holds."""
    if not isinstance(number, int):
        raise TypeError("a device holds whole numbers, not {!r}".format(number))
    if not 0 <= number < 1 << 64:
        raise OverflowError("a device holds numbers from 0 to 2**64 - 1, not {}".format(number))


class Entry(Base):
    """One operation: not begun, in progress, or over.

    A `with` statement begins it, waiting until the paths admit it, and finishes it on the way out, also on an exception. Any
    thread may use and leave it; while it is in progress, a second that enters it gets a `RuntimeError`. An entry that is over may be
    entered again. One that is in progress when nobody holds it any more is finished, with a `ResourceWarning`; and one that nobody has
    entered by then is a `with` that was forgotten, and gives a `ResourceWarning`, too.
    """

    __slots__ = ()

    _written = "with paths({!r}):"
    """How it is entered."""

    @property
    def operation(self) -> str:
        """Its name."""
        return str(self._operation._name)

    @property
    def activation(self) -> int:
        """The number of this entry in the journal. Raises `NotInProgress` before it is begun and when it is over."""
        self._has_to_be_live()
        return int(self._operation._number)

    @property
    def token(self) -> int:
        """The same number, for what the operation guards: it rises with each start, over a store with those of all processes. Who keeps the
        highest that it saw can refuse one that comes too late. Raises `NotInProgress` likewise."""
        return self.activation

    @property
    def worker(self) -> str:
        """Who began it: `thread 3` or `task 3`. Raises `NotInProgress` before it is begun and when it is over."""
        self._has_to_be_live()
        return worker_name(self._operation._worker)

    def put(self, number: int) -> int:
        """Puts a number into the resource's cell or queue: the number before, or how many there are now."""
        return self._use(native.PUT, number)

    def take(self) -> int:
        """Takes the first number out of the resource's queue."""
        return self._use(native.TAKE, 0)

    def look(self) -> int:
        """The number in the resource's cell or tally, or the first of its queue."""
        return self._use(native.LOOK, 0)

    def add(self, number: int) -> int:
        """Adds to the resource's tally: the new total."""
        return self._use(native.ADD, number)

    async def __aenter__(self: "AsyncWithIsForAio") -> NoReturn:  # type: ignore[misc]  # so that a checker of types refuses it
        self._is_told()
        raise TypeError("write `async with paths.aio({!r})`: this entry is for `with` in a thread".format(self.operation))

    async def __aexit__(
        self, kind: Optional[Type[BaseException]], error: Optional[BaseException], trace: Optional[TracebackType]
    ) -> None:
        pass

    def _use(self, verb: int, number: int) -> int:
        check_number(number)
        self._has_to_be_live()
        operation = self._operation
        paths = operation._paths
        before: Optional[int] = None
        answer = native.use(paths._at, operation._worker, operation._number, verb, number)
        while answer.code == native.NO_ROOM and paths._made_room(before):
            before = paths._rotation.count.value
            answer = native.use(paths._at, operation._worker, operation._number, verb, number)
        if answer.code == native.USED:
            return int(answer.number)
        if answer.code == native.CLOSED:
            raise paths._closed()
        raise_refused_use(operation, answer.code, verb, number)

    def _has_to_be_live(self) -> None:
        if not self._operation._live:
            raise self._not_in_progress()

    def _not_in_progress(self) -> NotInProgress:
        return NotInProgress("this entry of {} isn't in progress".format(self.operation))

    def __reduce__(self) -> NoReturn:
        raise not_copied("an entry belongs")

    def _unused(self) -> None:
        """Called where it is dropped and nobody has entered it."""
        told = "an entry of {} was dropped, and nobody had entered it: write `{}`"
        warnings.warn(told.format(self.operation, self._written.format(self.operation)), ResourceWarning, frames_of_package(), self)

    def _is_told(self) -> None:
        """Nobody enters it so, who is told by an exception: nothing has to be said again when it is dropped."""
        if self._operation._worker == 0:  # else it is somebody's
            self._operation._worker = NOBODY

    def __repr__(self) -> str:
        operation = self._operation
        state = "activation {} of {}".format(operation._number, worker_name(operation._worker)) if operation._live else "not in progress"
        return "<Entry of {}: {}>".format(operation._name, state)


class AsyncWithIsForAio(Entry):
    """What `async with paths(..)` would be of, which is refused: write `async with paths.aio(..)`."""


class AioIsForAsyncWith(Entry):
    """What `with paths.aio(..)` would be of, which is refused: write `async with paths.aio(..)`, or `with paths(..)` for threads."""


class AsyncEntry(Entry):
    """The same for asyncio: `async with` waits without holding up the loop. A task that is cancelled while it waits has started
    nothing."""

    __slots__ = ()

    _written = "async with paths.aio({!r}):"

    def __enter__(self: "AioIsForAsyncWith") -> NoReturn:  # type: ignore[misc]  # likewise
        self._is_told()
        raise TypeError("write `async with paths.aio({!r})`, or `with paths({!r})` for threads".format(self.operation, self.operation))

    async def __aenter__(self) -> "AsyncEntry":  # type: ignore[override]
        await self._enter_as_task()
        return self

    async def __aexit__(
        self, kind: Optional[Type[BaseException]], error: Optional[BaseException], trace: Optional[TracebackType]
    ) -> None:
        self.__exit__(kind, error, trace)


def _finalize(entry: Entry) -> None:
    """Of one in Python that nobody has entered."""
    operation: Optional[Operation] = getattr(entry, "_operation", None)
    if operation is not None and operation._worker == 0:
        entry._unused()


class _NewEntry(Entry):
    """One in Python that nobody has entered."""

    __slots__ = ()

    _entered = Entry
    __del__ = _finalize


class _NewAsyncEntry(AsyncEntry):
    """The same for asyncio."""

    __slots__ = ()

    _entered = AsyncEntry
    __del__ = _finalize


new_entry: Type[Entry] = Entry if core else _NewEntry
"""What makes an entry that nobody has entered yet."""
new_async_entry: Type[AsyncEntry] = AsyncEntry if core else _NewAsyncEntry
"""The same for asyncio."""
