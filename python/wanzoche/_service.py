"""Paths that were opened, as their entries know them: numbers of operations, threads and tasks, who waits, and what became of the system."""

from __future__ import annotations

import asyncio
import ctypes
import functools
import itertools
import os
import socket
import threading
import warnings
from typing import Any, Callable, Dict, FrozenSet, Iterator, Optional, Union

from . import _native as native
from ._declaring import bytes_of
from ._entries import Calls, System, new_entry
from ._errors import Closed, Forked, UnknownOperation
from ._forks import remember
from ._order import Line, new_line
from ._reasons import Reasons
from ._rotation import Ended, Log, Rotation, log_call, text_of
from ._texts import TASKS, Worker, read_declaration, worker_name
from ._waiting import Queues, patched_by
from ._workers import Workers


@functools.lru_cache(maxsize=None)
def host() -> str:
    """The name of this machine."""
    return socket.gethostname()


class Service(System):
    """What entries, and those who wait, call of the paths that they are of. Any thread may call it, a signal handler and a finalizer, too: each
    step is one call of the library or of a dictionary, which the interpreter doesn't divide."""

    _finalizer: Any

    _wait = 5_000_000
    """So many nanoseconds one waits before starts are withheld for it."""

    _looks = True
    """Whether it is known which thread or task has what in progress, so that it can be told that it is in its own way."""

    @staticmethod
    def _source_of(text: Union[str, bytes], room: int) -> bytes:
        """The text in bytes. Raises ValueError for a bad room, and TypeError for what is no room or no text."""
        if not isinstance(room, int) or not 0 < room <= native.MOST_LINES:
            kind = ValueError if isinstance(room, int) else TypeError
            raise kind("the room is 1 to 1,048,576 lines, not {!r}".format(room))
        return bytes_of(text)

    def _set_out(self, source: bytes, room: int, log: Optional[Log]) -> None:
        """What there is before anything is attempted."""
        self._source = source
        self._room = room
        self._log = log_call(log)
        self._forked = False
        self._local = threading.local()
        self._threads: Iterator[int] = itertools.count(1)
        self._tasks: Iterator[int] = itertools.count(TASKS + 1)
        self._workers = Workers()
        self._resumed: Optional[int] = None
        self._gone: FrozenSet[int] = frozenset()  # whose operations were in progress at the end of the journal that was resumed

    def _read_names(self, handle: native.Handle) -> None:
        """From now on these are the paths of this handle."""
        self._aim(handle, {})
        names, paths = read_declaration(self._text_of(native.declaration))
        self._operations, self._paths_of_text = tuple(names), tuple(paths)
        self._reasons = Reasons(self._paths_of_text)
        self._aim(handle, names)
        remember(self)

    def _aim(self, handle: native.Handle, numbers: Dict[str, int]) -> None:
        """From now on these are the paths of this handle, with these operations, and nobody waits."""
        self._handle = handle
        self._at = ctypes.addressof(handle)
        self._rotation = Rotation(handle, self._log)
        self._numbers = numbers
        self._calls = Calls(handle, len(numbers))
        self._line = self._new_line(handle)
        self._queues = self._new_queues()
        self._set_up(self._calls, numbers, self._queues, self._queues.due, self._line, new_entry, patched_by() is None)

    def _new_line(self, handle: native.Handle) -> Optional[Line]:
        """Who waits, in order; None where there is no order."""
        return new_line(handle, self._wait) if native.may_start else None

    def _new_queues(self) -> Queues:
        return Queues(self._calls, self._line)

    def _dropped(self, operation: str) -> None:
        """Called after an entry in progress that nobody holds was finished: others have their turn, and a warning says so."""
        self._queues.wake_all(again=True)
        warnings.warn("an entry of {} was dropped in progress, and is finished now".format(operation), ResourceWarning)

    def _number(self, operation: str) -> int:
        try:
            return self._numbers[operation]
        except KeyError:
            if self._forked:
                raise self._closed() from None
            known = ", ".join(self._operations)
            raise UnknownOperation("no operation {!r} is declared; there are {}".format(operation, known)) from None

    def _thread_worker(self) -> int:
        worker: Optional[int] = getattr(self._local, "worker", None)
        if worker is None:
            worker = self._local.worker = next(self._threads)
            self._workers.add_this_thread(worker)
        return worker

    def _task_worker(self) -> int:
        task = asyncio.current_task()
        worker = self._workers.of_task(task)
        if worker is None:
            worker = next(self._tasks)
            self._workers.add_task(task, worker)
        return worker

    def _worker(self, number: int) -> Worker:
        """Who a worker is, with the name that its thread or task has now."""
        return Worker(worker_name(number), self._workers.name(number), os.getpid(), host())

    def _closed(self) -> Closed:
        if self._forked:
            told = "these paths belong to the parent of this process: open them here, too. What processes open with the same `store=` they share"
            return Forked(told)
        return Closed("these paths were closed")

    def _made_room(self, before: Optional[int]) -> bool:
        """Of an attempt that had no room: whether there may be room now, by a rotation here or by another since there were so many."""
        try:
            return self._rotation.made_room(before)
        except Ended:
            raise self._closed() from None

    def _text_of(self, call: Callable[..., native.Answer]) -> str:
        """A text that the library writes."""
        try:
            return text_of(self._handle, call)
        except Ended:
            raise self._closed() from None

    def _after_fork(self) -> None:
        """In the child of a fork: the system is the parent's, whose threads aren't here."""
        self._forked = True
        self._finalizer.detach()
        self._aim(native.Handle(), {})

    def _worker_now(self) -> int:
        """The number of the task or thread that asks; 0 if it has none."""
        in_loop = asyncio._get_running_loop() is not None
        of_task = self._workers.of_task(asyncio.current_task()) if in_loop else None
        of_thread: int = getattr(self._local, "worker", 0)
        return of_task or of_thread
