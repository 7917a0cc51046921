"""The lines of a journal in memory, the log that gets them, and the texts that the library writes of a system."""

from __future__ import annotations

import ctypes
import threading
from typing import Any, Callable, List, Optional, Tuple, Union, cast

from . import _native as native
from ._errors import NoJournal

Log = Union[Callable[[str], Any], List[str], Any]
"""What gets lines: a callable, a list, or a file that is open for text."""


class Ended(Exception):
    """The system was closed."""


def log_call(log: Optional[Log]) -> Optional[Callable[[str], Any]]:
    """What gives lines to a log; None without one. Raises TypeError for what is none."""
    if log is None or callable(log):
        return cast(Optional[Callable[[str], Any]], log)
    if isinstance(log, list):
        return log.append
    if not callable(getattr(log, "write", None)):
        raise TypeError("a log is a callable, a list, or a file that is open for text, not {!r}".format(log))
    return cast(Callable[[str], Any], log.write)


def text_of(handle: native.Handle, call: Callable[..., native.Answer]) -> str:
    """A text that the library writes. Raises `Ended`, `MemoryError`, and `NoJournal` for the lines of a system that keeps none."""
    at, size, buffer = ctypes.addressof(handle), 4096, ctypes.create_string_buffer(4096)
    while True:
        answer = call(at, buffer, size)
        if answer.code == native.WRITTEN:
            return ctypes.string_at(buffer, answer.number).decode("ascii")
        if answer.code == native.TOO_SMALL:
            size = answer.number + 1
            buffer = ctypes.create_string_buffer(size)
        elif answer.code == native.OUT_OF_MEMORY:
            raise MemoryError("no memory for a text of the library")
        elif answer.code == native.NO_JOURNAL:
            raise NoJournal("these paths were opened without a journal")
        else:
            raise Ended


class Rotation:
    """Gives lines to the log, and has their room counted anew. Any thread may call it, a signal handler too; its lock has one at a time give
    lines, so the log gets them in their order."""

    def __init__(self, handle: native.Handle, log: Optional[Callable[[str], Any]]) -> None:
        self._handle, self._log = handle, log
        self._lock = threading.RLock()
        self.count = ctypes.c_uint64()
        """So many rotations there were. The library counts them."""
        self._logged = (0, 0)  # how often the journal had been rotated, and how much of its text since then the log has

    def has_given(self) -> bool:
        """Whether lines of the journal are elsewhere."""
        return bool(self.count.value or self._logged[1])

    def made_room(self, before: Optional[int]) -> bool:
        """Of an attempt that had no room: whether there may be room now, by a rotation here or by another since there were so many. Raises
        `Ended`, and what the log does."""
        rotations = self.count.value
        if native.lines(ctypes.addressof(self._handle)):
            self.rotate(rotations)
            return True
        return before != rotations

    def rotate(self, before: Optional[int]) -> None:
        """The lines go to the log, unless another thread has rotated the journal since there were so many rotations. Raises `Ended`, and what
        the log does: then nothing is rotated, and it gets these lines again."""
        lock: Any = self._lock
        if lock._is_owned():  # as threading.Condition asks of its lock
            raise RuntimeError("this thread is rotating these paths: their log, and what interrupts it, have to do without a rotation")
        try:  # not `with`, which Python 3.8 can leave without a release when a signal comes
            lock.acquire()
            if before is None or before == self.count.value:
                self._hand_over()
            lock.release()
        except BaseException:
            if lock._is_owned():
                lock.release()
            raise

    def _hand_over(self) -> None:
        """Gives lines to the log until it has all, also those that others write meanwhile, and then rotates."""
        at, code = ctypes.addressof(self._handle), native.TOO_SMALL
        while code == native.TOO_SMALL:
            lines = native.lines(at) if self._log is None else self._give(self._log)
            code = native.rotate_at(at, lines, ctypes.addressof(self.count)).code
        if code != native.ROTATED:
            raise Ended

    def _give(self, log: Callable[[str], Any]) -> int:
        """Gives the log what it hasn't got of the journal: how many lines the journal has, all of which the log has then."""
        new, length, lines = self._unlogged()
        if new:
            log(new)
            self._logged = (self.count.value, length)
        return lines

    def unlogged(self) -> str:
        """What the log hasn't got of the journal. Raises `Ended`, `MemoryError` and `NoJournal`."""
        return self._unlogged()[0]

    def _unlogged(self) -> Tuple[str, int, int]:
        """The same, and how long the journal is, in characters and in lines."""
        while True:
            before = self.count.value
            text = text_of(self._handle, native.journal)
            rotations, length = self._logged
            if before == self.count.value:
                return text[length:] if rotations == before else text, len(text), text.count("\n")
