"""Entries of paths over a log: what threads and tasks enter and leave."""

from __future__ import annotations

import asyncio
import time
from types import TracebackType
from typing import TYPE_CHECKING, NoReturn, Optional, Type, TypeVar, cast

from .. import _native as native
from .._attempts import InUse, admitted, in_use
from .._entries import AsyncEntry
from .._errors import Blocked, Closed, StoreError
from .._held import _Stored
from .begun import ServedBegun
from .requests import Finish, Question, Request, wake_nobody
from .store import ServedStore

if TYPE_CHECKING:
    from .paths import ServedPaths

T = TypeVar("T")


class _Served(_Stored):
    """An entry of paths over a server's log."""

    __slots__ = ()

    def __init__(self, paths: "ServedPaths", operation: str, timeout: Optional[float], priority: int) -> None:
        self._begun = ServedBegun(paths, operation, timeout, priority)

    def __enter__(self: T) -> T:
        begun = cast(ServedBegun, cast(_Served, self)._begun)
        begun._is_tried = True
        worker = begun._paths._thread_worker()
        if begun._live:
            raise in_use(begun)
        try:
            _begin(begun, worker)
            next(begun._paths._begun[begun._op])
        except InUse:
            raise
        except BaseException:
            begun.store().give_up(begun)
            raise
        return self

    def _try(self, worker: int) -> bool:
        begun = cast(ServedBegun, self._begun)
        begun._is_tried = True
        if begun._live:
            raise in_use(begun)
        try:
            if not admitted(begun, _code_of_start(begun, worker, 0.0), worker):
                return False
            next(begun._paths._begun[begun._op])
            return True
        except InUse:
            raise
        except BaseException:
            begun.store().give_up(begun)
            raise

    def __del__(self) -> None:
        begun = cast(Optional[ServedBegun], getattr(self, "_begun", None))
        if begun is None or begun._paths._forked:
            return
        store = begun.store()
        if begun._live and not store.is_closed:
            store.drop(begun)
            begun._paths._dropped(begun._name)
        elif not begun._is_tried:
            self._unused()


def _begin(begun: ServedBegun, worker: int) -> None:
    """Begins it when it is admitted. Raises `Timeout`."""
    limit = begun._timeout
    until = None if limit is None else time.monotonic() + limit
    while not admitted(begun, _code_of_start(begun, worker, until), worker):
        why = _why(begun, until)
        if why is not None:
            raise why.over(limit)


def _why(begun: ServedBegun, until: Optional[float]) -> Optional[Blocked]:
    """What is in its way. If the server doesn't say so in time: what was so when its time was over."""
    paths, told = cast("ServedPaths", begun._paths), begun.attempt and begun.attempt.told
    try:
        return begun.store().ask(lambda: paths.refused_now(begun), begun.ends(until))
    except Closed:
        raise paths._closed() from None
    except StoreError:
        if told is None:
            raise
        return cast(Blocked, told)


def _code_of_start(begun: ServedBegun, worker: int, until: Optional[float]) -> int:
    try:
        return begun.store().start(begun, worker, until)
    except Closed:
        return native.CLOSED


class ServedEntry(_Served):
    """An entry of paths over a server's log."""

    __slots__ = ("_begun",)


class ServedAsyncEntry(_Served, AsyncEntry):
    """The same for asyncio: the loop goes on while the server is asked. A task that is cancelled meanwhile may have started, and finishes
    then."""

    __slots__ = ("_begun",)

    def __enter__(self) -> NoReturn:
        AsyncEntry.__enter__(self)  # type: ignore[arg-type]

    async def _enter_as_task(self) -> None:
        begun = cast(ServedBegun, self._begun)
        begun._is_tried = True
        worker = begun._paths._task_worker()
        if begun._live:
            raise in_use(begun)
        try:
            await self._begin(begun, worker)
            next(begun._paths._begun[begun._op])
        except InUse:
            raise
        except BaseException:
            begun.store().give_up(begun)
            raise

    async def _begin(self, begun: ServedBegun, worker: int) -> None:
        limit, paths, loop = begun._timeout, cast("ServedPaths", begun._paths), asyncio.get_running_loop()
        until = None if limit is None else time.monotonic() + limit
        while True:
            start = begun.new_attempt(worker, wake_nobody, until, loop)
            alarm = None
            if start.waits and until is not None:
                alarm = loop.call_later(until - time.monotonic(), begun.store().late, start)
            try:
                await _replied(begun.store(), start)
            finally:
                begun.note_wait(start)
                if alarm is not None:
                    alarm.cancel()
            if admitted(begun, _code_unless_closed(begun, start), worker):
                return
            question = Question(wake_nobody, lambda: paths.refused_now(begun))
            question.until = start.until
            await _replied(begun.store(), question)
            if question.error is not None and start.told is not None and isinstance(question.error, StoreError):
                raise start.told.over(limit)
            if _code_unless_closed(begun, question) == native.CLOSED:
                raise paths._closed()
            if question.value is not None:
                raise question.value.over(limit)

    async def __aexit__(self, kind: Optional[Type[BaseException]], error: Optional[BaseException], trace: Optional[TracebackType]) -> None:
        if self._is_in_progress():
            begun = cast(ServedBegun, self._begun)
            finish = Finish(wake_nobody, begun)
            cancelled: Optional[BaseException] = None
            future = _replied(begun.store(), finish)
            task = asyncio.ensure_future(future)
            while not task.done():
                try:
                    await asyncio.wait([task])
                except asyncio.CancelledError as told:
                    cancelled = told
            if begun.store().finished(begun, _code_unless_closed(begun, finish)) == native.CLOSED:
                begun._live = False
                raise begun._paths._closed()
            if cancelled is not None:
                raise cancelled


def _code_unless_closed(begun: ServedBegun, request: Request) -> int:
    try:
        return begun.store().code_of(request)
    except Closed:
        return native.CLOSED


async def _replied(store: ServedStore, request: Request) -> None:
    """Hands a request to the clerk. Returns when the reply is there. Who has waited as long as he may for the server replies himself."""
    loop, event, clerk = asyncio.get_running_loop(), asyncio.Event(), store.clerk
    request.wake = lambda: cast(None, loop.call_soon_threadsafe(event.set))
    clerk.submit(request)
    while not request.is_over():
        seconds = clerk.trouble.ends_at(request) - time.monotonic()
        if seconds <= 0 and clerk.trouble.give_up(request):
            return
        alarm = loop.call_later(min(max(seconds, 0.001), 3600.0), event.set)
        try:
            await event.wait()
        finally:
            alarm.cancel()
        event.clear()
