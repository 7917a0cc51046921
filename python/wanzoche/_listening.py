"""Tasks that wait at a store: one thread of the process sleeps for all of them, and wakes those that may ask again."""

from __future__ import annotations

import asyncio
import ctypes
import threading
from typing import TYPE_CHECKING, Dict, List, Optional

from . import _native as native

if TYPE_CHECKING:
    from ._store import Begun, Store

LINGER = 1000
"""So many milliseconds the thread stays for the next who waits."""


class TaskWait:
    """A task that waits, on its loop."""

    __slots__ = ("begun", "is_asleep", "is_asking", "is_left", "_loop", "_awake")

    def __init__(self, begun: "Begun") -> None:
        self.begun = begun
        self.is_asleep = False
        """Whether it is to be woken when it may ask again."""
        self.is_asking = False
        """Whether another thread asks for it now."""
        self.is_left = False
        """Whether it waits no more."""
        self._loop = asyncio.get_running_loop()
        self._awake = asyncio.Event()

    def is_over(self) -> bool:
        """Whether its loop is closed, so that it never goes on, and nobody asks for it either."""
        return not self.is_asking and self._loop.is_closed()

    def is_asked_in_vain(self) -> bool:
        """Of what another thread has just asked: whether nobody takes the answer. Then that thread has to undo it."""
        self.is_asking = False
        return self.is_left or self._loop.is_closed()

    def wake(self) -> None:
        """Ends its sleep, or the next one. Raises RuntimeError if the loop is closed."""
        self._loop.call_soon_threadsafe(self._awake.set)

    async def sleep(self, seconds: Optional[float]) -> None:
        """Sleeps until it is woken, or so many seconds."""
        alarm = None if seconds is None else self._loop.call_later(max(seconds, 0.0), self._awake.set)
        try:
            await self._awake.wait()
        finally:
            if alarm is not None:
                alarm.cancel()
        self._awake.clear()


class Listener:
    """Who waits, and the thread that listens for them. The thread knows the store alone: paths that nobody holds are closed.

    A task stays known from before it asks to when it waits no more, also while it is awake: its loop may be closed at any moment, and then the
    thread takes its place among those who wait away from it, within a second.
    """

    def __init__(self, store: "Store") -> None:
        self._store = store
        self._waits: Dict[int, TaskWait] = {}
        self._thread: Optional[threading.Thread] = None

    def know(self, wait: TaskWait) -> None:
        """From now on it is looked whether its loop is closed."""
        self._waits[wait.begun._at] = wait
        if self._thread is None:
            self._start()

    def call(self, wait: TaskWait) -> None:
        """It is woken when it may ask again: once."""
        wait.is_asleep = True
        self._store.ring()

    def forget(self, wait: TaskWait) -> None:
        """It waits no more."""
        wait.is_left = True
        if self._waits.get(wait.begun._at) is wait:
            self._waits.pop(wait.begun._at, None)

    def _start(self) -> None:
        thread = threading.Thread(target=self._run, name="wanzoche listener", daemon=True)
        self._thread = thread
        thread.start()

    def _run(self) -> None:
        goes_on = True
        while goes_on:
            try:
                self._listen()
            finally:
                self._thread = None
            goes_on = bool(self._waits) and self._thread is None and not self._store.is_closed
            if goes_on:  # one that came as this one ended
                self._thread = threading.current_thread()

    def _listen(self) -> None:
        """While somebody waits, and a while longer."""
        heard = ctypes.c_uint32()
        code = native.INTERRUPTED
        while code != native.CLOSED and not (code == native.LATE and not self._waits):
            waits = self._asleep()
            answer = self._store.listen([each.begun._at for each in waits], heard, LINGER)
            code = answer.code
            if code == native.CALLED:
                self._wake(waits[answer.number])
        for each in list(self._waits.values()) if code == native.CLOSED else []:
            self._wake(each)

    def _asleep(self) -> List[TaskWait]:
        """Those that are to be woken. Those that never go on don't wait any more."""
        waits = list(self._waits.values())
        for each in waits:
            if each.is_over():
                self._drop(each)
        return [each for each in waits if each.is_asleep]

    def _wake(self, wait: TaskWait) -> None:
        wait.is_asleep = False
        try:
            wait.wake()
        except RuntimeError:  # its loop is closed, and the task over with it
            self._drop(wait)

    def _drop(self, wait: TaskWait) -> None:
        wait.is_asleep = False
        self.forget(wait)
        self._store.undo(wait.begun)
