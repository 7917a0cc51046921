"""What is quick of paths and entries, in C: this is what the module `_core` calls, and what takes longer."""

from __future__ import annotations

from asyncio import _get_running_loop
from ctypes import addressof
from typing import TYPE_CHECKING, cast

from . import _native as native
from ._attempts import admitted, in_use, raise_if_late, undo, waiting, warn_in_loop
from ._form import core
from ._waiting import TaskWaiter, ThreadWaiter

if TYPE_CHECKING:
    from ._core import Calls as CoreCalls
    from ._core import Entry as CoreEntry
    from ._core import System as System
else:
    CoreCalls, CoreEntry, System = core.Calls, core.Entry, core.System

_STARTED = native.STARTED
_BEGIN, _END, _CAN_START = (native.address(name) for name in ("begin", "end", "can_start"))


def Calls(handle: native.Handle, operations: int) -> CoreCalls:
    """What is called of a handle."""
    return CoreCalls(_BEGIN, _END, _CAN_START, addressof(handle), handle)


class Entry(CoreEntry):
    """The base of entries."""

    __slots__ = ()

    def _thread_worker(self) -> int:
        """Called where a thread enters that hasn't entered these paths, or others meanwhile: who it is."""
        warn_in_loop(self)
        return self._paths._thread_worker()

    def _new_waiter(self, worker: int) -> ThreadWaiter:
        """Called where a thread has to wait."""
        if _get_running_loop() is not None:
            warn_in_loop(self)
        waiter = ThreadWaiter(self._op, self._timeout, self._priority)
        waiter.paths, waiter.worker = self._paths, worker
        return waiter

    def _admitted(self, code: int, worker: int) -> bool:
        """Called where an attempt of a thread was neither admitted nor blocked: makes room, or raises what is in the way."""
        return admitted(self, code, worker)

    def _is_late(self, waiter: ThreadWaiter) -> None:
        """Called before a thread with a time limit waits: raises `Timeout` if the time is over."""
        raise_if_late(self, waiter)

    async def _enter_as_task(self) -> None:
        worker = self._paths._task_worker()
        if self._live:
            raise in_use(self)
        try:
            code = self._ask(worker)
            if code != _STARTED:
                for waiter in waiting(self, code, worker, TaskWaiter):
                    await cast(TaskWaiter, waiter).wait()
        except BaseException as error:
            undo(self, error, worker, None)
            raise

    def _try(self, worker: int) -> bool:
        """Begins it, if it is admitted now."""
        if self._live:
            raise in_use(self)
        try:
            code = self._ask(worker)
            return code == _STARTED or admitted(self, code, worker)
        except BaseException as error:
            undo(self, error, worker, None)
            raise
