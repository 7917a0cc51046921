"""Entries of paths over a file."""

from __future__ import annotations

import asyncio
import concurrent.futures
import time
from ctypes import addressof
from types import TracebackType
from typing import TYPE_CHECKING, Any, Callable, NoReturn, Optional, Tuple, Type, TypeVar, cast

from . import _native as native
from . import _store
from ._attempts import InUse, check_priority, check_seconds, in_use, warn_in_loop
from ._entries import AsyncEntry
from ._errors import Closed, OutOfRoom
from ._held import _Stored
from ._listening import TaskWait
from ._opening import LISTEN, TRY, WAIT
from ._waiting import FIRST_LOOK

if TYPE_CHECKING:
    from ._stored import StoredPaths

T = TypeVar("T")


class Begun(_store.Begun):
    """An operation that is to begin, waits, is in progress or over."""

    def __init__(self, paths: "StoredPaths", name: str, timeout: Optional[float], priority: int) -> None:
        check_seconds(timeout)
        self._priority = check_priority(priority)
        self._paths = paths
        self._op = paths._number(name)
        self._name = name
        self._timeout = timeout
        self._at = addressof(self)
        self._is_tried = False
        """Whether somebody has tried to begin it."""

    def limit(self) -> Optional[float]:
        """When its time is over, of one that comes now."""
        return None if self._timeout is None else time.monotonic() + self._timeout

    def waits(self, how: int) -> int:
        """Whether it is to wait if it isn't admitted: so, or not."""
        return how if self._timeout is None or self._timeout > 0 else TRY

    def _begin(self, worker: int) -> int:
        """Starts it, if it is admitted now."""
        return self._paths._file.start(self, worker, TRY)

    def _end(self) -> int:
        """The finish of one that nobody will leave."""
        self._paths._file.undo(self)
        return native.FINISHED


def _admits(begun: Begun, code: int) -> bool:
    """What a start was answered: whether it is in progress. Raises what is in the way but for paths and those that wait."""
    paths = begun._paths
    try:
        is_admitted = paths._file.admits(begun, code)
    except Closed:
        raise paths._closed() from None
    if code == native.NOT_YOURS:
        raise in_use(begun)
    if code == native.NO_ROOM:
        running = len(paths.report().live)
        raise OutOfRoom("no room for {}: {} in progress, in a room of {}".format(begun._name, running, paths._file.room))
    return is_admitted


def _raise_if_late(begun: Begun, code: int) -> None:
    """Of one whose time is over, and that was answered so: raises `Timeout` if a path still forbids it, or it is withheld; and `StoreLate`
    if there was no turn to ask."""
    why = begun._paths._told_why(begun, code)
    if why is not None:
        raise why.over(begun._timeout)


def _is_over(until: Optional[float]) -> bool:
    return until is not None and time.monotonic() >= until


def _enter(begun: Begun, worker: int) -> bool:
    """Begins it when it is admitted, and it is on the disk then. Whether it has waited for that."""
    store, until = begun._paths._file, begun.limit()
    code = store.start(begun, worker, begun.waits(WAIT))
    has_waited = code != native.STARTED and not _admits(begun, code)
    if has_waited:
        since = time.monotonic()
        try:
            _until_admitted(begun, worker, code, until)
        finally:
            begun._paths._queues.waits.note(begun._op, time.monotonic() - since)
        store.tell_news()
    if store.sync:
        store.wait_for_sync(begun)
    return has_waited


def _until_admitted(begun: Begun, worker: int, code: int, until: Optional[float]) -> None:
    """Of one that wasn't admitted: waits, and tries again."""
    store, since, looks, known = begun._paths._file, time.monotonic(), FIRST_LOOK, code
    warn_in_loop(begun)
    while not _admits(begun, code):
        now, known = time.monotonic(), known if code == native.LATE else code
        if _is_over(until):
            _raise_if_late(begun, known)
        elif begun._waits:
            ends = since + looks if until is None else min(since + looks, until)
            store.sleep(begun, ends - now)
        if time.monotonic() >= since + looks:
            begun._paths._tell_long_wait(begun, code, worker, since)
            looks *= 2
        code = store.start(begun, worker, TRY if _is_over(until) else begun.waits(WAIT))


def _begun_of(entry: "_Filed") -> Begun:
    """What this thread or task begins by an entry: another one's own, where one waits by the entry already."""
    begun = entry._begun
    begun._is_tried = True
    if begun._live:
        raise in_use(begun)
    return Begun(begun._paths, begun._name, begun._timeout, begun._priority) if begun._waits else begun


def _claim(entry: "_Filed", begun: Begun) -> None:
    """What was waited for is the entry's from now on. Raises `InUse` if another has entered it meanwhile."""
    claims: Any = begun._paths._claims
    try:  # not `with`, which Python 3.8 can leave without a release when a signal comes
        claims.acquire()
        is_free = entry._begun is begun or not entry._begun._live
        if is_free:
            entry._begun = begun  # type: ignore[misc]  # a slot of the entries below
        claims.release()
    except BaseException:
        if claims._is_owned():
            claims.release()
        raise
    if not is_free:
        begun._paths._file.undo(begun)
        raise in_use(begun)


def _undo(begun: Begun, error: BaseException, worker: int) -> None:
    """After an exception: what was begun isn't in progress, and nobody waits for it. To do so twice does no harm."""
    if begun._worker == worker and not isinstance(error, InUse):  # else another has begun the same entry
        begun._paths._file.undo(begun)


class _Filed(_Stored):
    """An entry of paths over a file."""

    __slots__ = ()
    _begun: Begun

    def __init__(self, paths: "StoredPaths", operation: str, timeout: Optional[float], priority: int = 0) -> None:
        self._begun = Begun(paths, operation, timeout, priority)  # type: ignore[misc]  # likewise

    def __enter__(self: T) -> T:
        entry = cast(_Filed, self)
        begun = _begun_of(entry)
        worker = begun._paths._thread_worker()
        try:
            try:
                if _enter(begun, worker) or entry._begun is not begun:
                    _claim(entry, begun)
                next(begun._paths._begun[begun._op])
            except BaseException as error:
                _undo(begun, error, worker)
                raise
        except BaseException as error:
            _undo(begun, error, worker)  # again, for an interrupt may have cut it off
            raise
        return self

    def _try(self, worker: int) -> bool:
        begun = self._begun
        begun._is_tried = True
        if begun._live:
            raise in_use(begun)
        try:
            code = begun._paths._file.start(begun, worker, TRY)
            if not _admits(begun, code):
                if code == native.LATE:
                    raise begun._paths._file.refusal(native.Answer(code, 0))
                return False
            begun._paths._file.tell_news()
            begun._paths._file.wait_for_sync(begun)
            next(begun._paths._begun[begun._op])
            return True
        except BaseException as error:
            _undo(begun, error, worker)
            raise

    def __del__(self) -> None:
        begun: Optional[Begun] = getattr(self, "_begun", None)
        if begun is None or begun._paths._forked:
            return
        if begun._live and not begun._paths._file.is_closed:
            begun._paths._file.undo(begun)
            begun._paths._dropped(begun._name)
        elif not begun._is_tried:
            self._unused()


class StoredEntry(_Filed):
    """An entry of paths over a file."""

    __slots__ = ("_begun",)


class StoredAsyncEntry(_Filed, AsyncEntry):
    """The same for asyncio. Another thread waits for the turn, where that is not to be had at once, and for the disk; one listens for all that
    wait. A task that is cancelled while it waits for the disk has started, and is finished."""

    __slots__ = ("_begun",)

    def __enter__(self) -> NoReturn:
        AsyncEntry.__enter__(self)  # type: ignore[arg-type]

    async def _enter_as_task(self) -> None:
        begun = _begun_of(self)
        worker = begun._paths._task_worker()
        try:
            if await _enter_as_task(begun, worker) or self._begun is not begun:
                _claim(self, begun)
            next(begun._paths._begun[begun._op])
        except BaseException as error:
            _undo(begun, error, worker)
            raise

    async def __aexit__(
        self, kind: Optional[Type[BaseException]], error: Optional[BaseException], trace: Optional[TracebackType]
    ) -> None:
        if self._is_in_progress():
            begun = self._begun
            code, _ = await self._finish_as_task()
            if code == native.FINISHED:
                await _synced(begun)

    async def _finish_as_task(self) -> Tuple[int, Any]:
        begun = self._begun
        store = begun._paths._file
        try:
            code = store.finish_now(begun)
            if code == native.LATE:
                return await aside(begun._paths._pool(), store.finish, begun)
            return store.finished(begun, code), begun
        except Closed:
            begun._live = False
            raise begun._paths._closed() from None


async def _enter_as_task(begun: Begun, worker: int) -> bool:
    """Begins it when it is admitted, and it is on the disk then. Whether it has waited for that."""
    until = begun.limit()
    code = begun._paths._file.start_now(begun, worker, begun.waits(LISTEN))
    has_waited = code != native.STARTED and not _admits(begun, code)
    if has_waited:
        has_waited = await _wait_as_task(begun, worker, code, until)
        begun._paths._file.tell_news()
    await _synced(begun)
    return has_waited


async def _wait_as_task(begun: Begun, worker: int, code: int, until: Optional[float]) -> bool:
    """Of one that wasn't admitted at once: waits until it is. Whether it had to wait for more than its turn."""
    wait, listener, since, has_waited = TaskWait(begun), begun._paths._listener, time.monotonic(), False
    try:
        listener.know(wait)
        if code == native.LATE:
            code = await _ask_aside(begun, worker, begun.waits(LISTEN), wait)
        has_waited = not _admits(begun, code)
        if has_waited:
            await _until_admitted_as_task(begun, worker, code, until, wait)
    finally:
        listener.forget(wait)
        if has_waited:
            begun._paths._queues.waits.note(begun._op, time.monotonic() - since)
    return has_waited


async def _ask(begun: Begun, worker: int, waits: int, wait: TaskWait) -> int:
    """Tries to begin it, without a sleep of the loop."""
    code = begun._paths._file.start_now(begun, worker, waits)
    return await _ask_aside(begun, worker, waits, wait) if code == native.LATE else code


async def _ask_aside(begun: Begun, worker: int, waits: int, wait: TaskWait) -> int:
    """The same in another thread, which waits for the turn."""
    store = begun._paths._file

    def asks() -> int:
        try:
            return store.start_soon(begun, worker, waits)
        finally:
            if wait.is_asked_in_vain():
                store.undo(begun)

    wait.is_asking = True
    return await aside(begun._paths._pool(), asks)


async def _until_admitted_as_task(
    begun: Begun, worker: int, code: int, until: Optional[float], wait: TaskWait
) -> None:
    """Of one that wasn't admitted: waits, and tries again."""
    paths, since, looks, known = begun._paths, time.monotonic(), FIRST_LOOK, code
    while not _admits(begun, code):
        now, known = time.monotonic(), known if code == native.LATE else code
        if _is_over(until):
            await aside(paths._pool(), _raise_if_late, begun, known)
        elif begun._waits:
            paths._listener.call(wait)
            await wait.sleep((since + looks if until is None else min(since + looks, until)) - now)
        if time.monotonic() >= since + looks:
            paths._tell_long_wait(begun, code, worker, since)
            looks *= 2
        code = await _ask(begun, worker, TRY if _is_over(until) else begun.waits(LISTEN), wait)


async def _synced(begun: Begun) -> None:
    """Waits until its last line is on the disk."""
    store = begun._paths._file
    if store.sync:
        await aside(begun._paths._pool(), store.wait_for_sync, begun)


async def aside(pool: concurrent.futures.Executor, call: Callable[..., T], *given: Any) -> T:
    """What a call returns that another thread makes. A task that is cancelled meanwhile waits for its end, and then is."""
    future = asyncio.get_running_loop().run_in_executor(pool, call, *given)
    try:
        return await asyncio.shield(future)
    except asyncio.CancelledError:
        while not future.done():
            try:
                await asyncio.wait([future])
            except asyncio.CancelledError:
                pass
        if not future.cancelled():
            future.exception()  # it is over, whatever it was
        raise
