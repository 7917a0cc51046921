"""One opening of a store by the C library: how it begins and ends, and what is raised where the library refuses something."""

from __future__ import annotations

import ctypes
import functools
import logging
import math
import os
from collections import deque
from typing import TYPE_CHECKING, Any, Callable, Deque, List, Optional, Tuple

from . import _native as native
from ._beside import Beside
from ._errors import Closed, CorruptStore, OtherDeclaration, StoreError, StoreInUse, StoreLate
from ._form import core
from ._opening import MESSAGE, MOVED, Calls, News, Options, Record, has_stores

if TYPE_CHECKING or core is None:
    from ._steps import Steps
else:
    Steps = core.Steps

PATIENCE = 30_000
"""For so many milliseconds an opening waits for another that makes the store or mends it."""
CLOSING = 1000
"""So many milliseconds a close waits for its turn; then others finish what is in progress."""
_logger = logging.getLogger("wanzoche")


@functools.lru_cache(maxsize=None)
def _calls() -> Calls:
    """The library's calls. Raises `StoreError` if it has none."""
    if not has_stores():
        raise StoreError("{} has no stores that processes share: this package wants a newer one".format(native._at))
    return Calls()


class Begun(Record):
    """An operation that is to begin, waits, is in progress or over: what the library writes of it, and what else has to be known."""

    _op: int
    _priority: int
    _at: int


class Opened(Steps):
    """One opening of a store, of which each process has its own.

    What a call has done stands in the record of its entry before it returns. So an interrupt at any instruction loses nothing: whoever is cut
    off ends what stands there. A call that sleeps lets the interpreter go on, and ends after a while, or by a signal.
    """

    def __init__(
        self, path: str, source: bytes, handle: native.Handle, *, room: int, sync: bool, finishes_lost: bool, patience: Optional[float]
    ) -> None:
        self.path = os.path.realpath(path)  # so that a symbolic link is the same store
        self.sync, self.room = sync, room
        self._source, self._handle = source, handle
        self._options = Options(not sync, not finishes_lost, patience == 0, _milliseconds(patience), room)
        self._opened = ctypes.c_void_p()
        self._at: Optional[int] = None
        self.is_closed = False
        """Whether these paths were closed."""
        self._has_fault = False
        self._dropped: Deque[Begun] = deque()
        self._lent: List[int] = []
        self.worker = 0
        self.operations: Tuple[str, ...] = ()
        """Their names, as far as news have to be told."""

    # Opening and ending

    def open(self) -> native.Answer:
        """Opens the store, or makes it. The answer is `OPENED`, or why the text isn't a declaration. Raises `StoreError`."""
        message = ctypes.create_string_buffer(native.MESSAGE)
        given = ctypes.addressof(self._handle), self._source, len(self._source)
        answer: native.Answer = native.open_without_journal(*given, 1, message, len(message))
        if answer.code == native.OPENED:
            try:
                self._open_file()
            except BaseException:
                self._at = self._opened.value
                self.close()
                native.close(given[0])
                raise
        return answer

    def _open_file(self) -> None:
        self._calls = calls = _calls()
        message = ctypes.create_string_buffer(MESSAGE)
        given = ctypes.addressof(self._opened), os.fsencode(self.path), self._source, len(self._source), self._options, PATIENCE
        answer = calls.open(*given, message, len(message))
        if answer.code == native.OTHER_DECLARATION:
            self._has_to_declare()
        if answer.code != native.OPENED:
            raise self.refusal(answer, message.value)
        self._at = self._opened.value
        self._aim(calls.address("begin"), calls.address("end"), self._at or 0)
        self.worker = calls.worker(self._at)

    def _has_to_declare(self) -> None:
        """Raises `OtherDeclaration`, with where the store's differs first from the one that is given, if it can be read."""
        try:
            beside = Beside(self.path + ".shared")
        except StoreError:
            return
        try:
            told = difference(beside.declaration(), self._declaration())
        finally:
            beside.close()
        if told:
            raise OtherDeclaration("{} is of another declaration: {}".format(self.path, told))

    def _declaration(self) -> str:
        """The declaration, as the library spells it."""
        at = ctypes.addressof(self._handle)
        buffer = ctypes.create_string_buffer(int(native.declaration(at, None, 0).number) + 1)
        native.declaration(at, buffer, len(buffer))
        return buffer.value.decode("ascii")

    def close(self) -> None:
        """Finishes what this process has in progress, and ends its part. A second close does nothing."""
        self.is_closed = True
        if self._at is None:
            return
        answer = self._calls.stop(self._at, CLOSING)
        self._take_back()
        if answer.code in (native.SYSTEM, native.UNSYNCED) and not self._has_fault:
            raise self.refusal(answer)

    def _take_back(self) -> None:
        """Closes what was lent to other programs."""
        while self._lent:
            os.close(self._lent.pop())

    def end(self) -> None:
        """The same, for a finalizer."""
        self.close()

    def abandon(self) -> None:
        """Ends its part without a word: in the child of a fork, whose paths are the parent's."""
        self.is_closed = True
        self._take_back()

    def __del__(self) -> None:
        if self._at is not None and self.is_closed:
            self._calls.close(self._at, 0)  # what it has in progress was finished by then, or is a parent's

    # What goes wrong

    def refusal(self, answer: native.Answer, message: Optional[bytes] = None) -> Exception:
        """What is raised where the library has answered so. Without its words these are asked for."""
        code, number = answer.code, answer.number
        if code == native.OUT_OF_MEMORY:
            return MemoryError("no memory for {}".format(self.path))
        if code in (native.CLOSED, native.FORKED):
            return Closed("these paths were closed")
        if code == native.LATE:
            return StoreLate("{}: no turn was to be had in time, since a process that has it is stopped".format(self.path))
        told = self._message() if message is None else os.fsdecode(message)
        self._has_fault = self._has_fault or code in (native.CORRUPT, native.UNSYNCED)
        return self._refusal_of_file(code, int(number), told)

    @staticmethod
    def _refusal_of_file(code: int, number: int, told: str) -> StoreError:
        if code == native.CORRUPT:
            return CorruptStore(told, number or None)
        error = {native.IN_USE: StoreInUse, native.OTHER_DECLARATION: OtherDeclaration}.get(code, StoreError)(told)
        if code in (native.SYSTEM, native.UNSYNCED):
            error.__cause__ = OSError(number, os.strerror(number))
        return error

    def _message(self) -> str:
        message = ctypes.create_string_buffer(MESSAGE)
        self._calls.message(self._at, message, len(message))
        return os.fsdecode(message.value)

    def _made(self, call: Callable[..., native.Answer], *given: Any) -> native.Answer:
        """What a call answers in a turn, however long that takes to come. An interrupt comes in between."""
        answer = call(self._at, *given, 0)
        while answer.code == native.LATE:
            answer = call(self._at, *given, 0)
        self.tell_news()
        return answer

    def _made_once(self, call: Callable[..., native.Answer], *given: Any) -> native.Answer:
        """What a call answers in a turn, or that this was long in coming."""
        return call(self._at, *given, 0)

    def _expected(self, answer: native.Answer, *codes: int) -> native.Answer:
        """The same answer. Raises what is wrong if it has none of these codes."""
        if answer.code not in codes:
            raise self.refusal(answer)
        return answer

    # What it does by itself

    def tell_news(self) -> None:
        """Writes to the program's log what this opening has done by itself since."""
        news = News()
        while self._calls.next_news(self._at, news):
            if news.kind == MOVED:
                _logger.info("%s was moved to %s.%d", self.path, self.path, news.number)
            else:
                _logger.info("process %d is dead, and its %s is finished", news.worker, self.operations[news.operation])


def _milliseconds(patience: Optional[float]) -> int:
    """The patience as the library has it."""
    if patience is None or patience == 0:
        return 0
    return -1 if patience > 1e9 else max(math.ceil(patience * 1000), 1)


def difference(found: str, given: str) -> Optional[str]:
    """Where two declarations differ first, in words; None if they are the same."""
    if found == given:
        return None
    ours, theirs = given.split(), found.split()
    same = 0
    while same < min(len(ours), len(theirs)) and ours[same] == theirs[same]:
        same += 1
    before = " ".join(ours[max(0, same - 4) : same])
    there, here = (" ".join(each[same : same + 4]) or "the end" for each in (theirs, ours))
    return "behind `{}` it has `{}`, and this one `{}`".format(before, there, here)
