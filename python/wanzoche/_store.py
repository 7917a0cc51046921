"""A store: the journal in a file that all processes of a machine share, by the C library (include/wanzoche_store.h)."""

from __future__ import annotations

import ctypes
import math
import os
from typing import Callable, Dict, List, NamedTuple, Optional, Tuple, TypeVar, cast

from . import _native as native
from ._errors import Lost
from ._opened import Begun as Begun
from ._opened import Opened
from ._opened import difference as difference
from ._opening import Waiter

TURN = 45
"""For so many milliseconds a call waits for its turn before an interrupt comes in."""
T = TypeVar("T")
_LOST = "activation {} was finished by others, which took this process for dead"
_WAITS = (native.BLOCKED, native.WITHHELD, native.LATE)
_WRONG = (native.SYSTEM, native.CORRUPT, native.UNSYNCED, native.CLOSED, native.FORKED, native.OUT_OF_MEMORY)


class Told(NamedTuple):
    """A report of the library, in its parts."""

    text: str
    """The report itself."""
    lost: Tuple[int, ...]
    """What dead workers have in progress."""
    processes: Dict[int, int]
    """The numbers of the processes of workers that have something in progress, as far as they are known."""


def _parts_of(text: str) -> Told:
    lines = text.splitlines(True)
    rest = next(number for number, line in enumerate(lines, 1) if line.startswith("frozen "))
    words = [line.split() for line in lines[rest:]]
    lost = tuple(int(each[1]) for each in words if each[0] == "lost")
    return Told("".join(lines[:rest]), lost, {int(each[1]): int(each[2]) for each in words if each[0] == "process"})


class Store(Opened):
    """What is done by an opening, and asked of it."""

    # Entries

    def start_now(self, begun: Begun, caller: int, waits: int) -> int:
        """Tries to begin an operation, if the turn is to be had at once: the code of the answer, whose number is the record's then. There it is
        in progress, or waits, if it is to."""
        if self._dropped:
            self._finish_dropped()
        return self._begin_now(begun._at, begun._op, begun._priority, caller, waits)

    def start_soon(self, begun: Begun, caller: int, waits: int) -> int:
        """The same, but that it waits for the turn for a while."""
        return int(self._calls.begin(self._at, begun._op, begun._priority, caller, waits, begun._at, TURN).code)

    def start(self, begun: Begun, caller: int, waits: int) -> int:
        """The same, first so and then so."""
        code = self.start_now(begun, caller, waits)
        return self.start_soon(begun, caller, waits) if code == native.LATE else code

    def admits(self, begun: Begun, code: int) -> bool:
        """What a start was answered: whether it is in progress; False if it waits, or may. Raises all else, but for `NOT_YOURS` and `NO_ROOM`,
        of which the paths have more to say."""
        if code in _WAITS:
            return False
        self._expected(native.Answer(code, begun._answered), native.STARTED, native.NOT_YOURS, native.NO_ROOM)
        return code == native.STARTED

    def sleep(self, begun: Begun, seconds: float) -> None:
        """Waits until it may ask again, so many seconds are over, or a signal comes."""
        self._calls.wait(self._at, begun._at, max(math.ceil(seconds * 1000), 0))

    def listen(self, records: List[int], heard: ctypes.c_uint32, limit: int) -> native.Answer:
        """Sleeps until one of these may ask again, whose place the answer names; or until `ring`."""
        listed = (ctypes.c_void_p * len(records))(*records)
        return cast(native.Answer, self._calls.listen(self._at, listed, len(records), ctypes.addressof(heard), limit))

    def ring(self) -> None:
        """Has whoever listens come back."""
        self._calls.ring(self._at)

    def finish_now(self, begun: Begun) -> int:
        """Ends an operation, if the turn is to be had at once: the code of the answer."""
        return self._end_now(begun._at)

    def finish(self, begun: Begun) -> Tuple[int, Begun]:
        """Ends an operation, now or by whoever has the turn next: the answer's code, and what has to be on the disk before somebody is told.
        Raises `Lost` if others have finished it."""
        code = self.finish_now(begun)
        if code == native.LATE:
            code = int(self._calls.end(self._at, begun._at, TURN).code)
        return self.finished(begun, code), begun

    def finished(self, begun: Begun, code: int) -> int:
        """The code of the answer to a finish. Raises what is wrong."""
        if code == native.FINISHED:
            return code
        if code == native.LOST:
            raise Lost(_LOST.format(begun._number))
        self._expected(native.Answer(code, begun._answered), native.OWED, native.STALE, native.NOT_YOURS)
        return native.FINISHED if code == native.OWED else code

    def undo(self, begun: Begun) -> None:
        """After an exception, or of one that nobody holds any more: it isn't in progress, and doesn't wait. What can't be written now is
        written before this process begins something else."""
        if self.is_closed or not (begun._live or begun._waits):
            return
        if self.finish_now(begun) == native.LATE:
            self._calls.end(self._at, begun._at, 1)
        if begun._live:
            self._dropped.append(begun)

    def _finish_dropped(self) -> None:
        for _ in range(len(self._dropped)):
            self.undo(self._dropped.popleft())

    def use(self, begun: Begun, verb: int, number: int) -> native.Answer:
        """Uses the device of the operation's resource: its answer. Raises `Lost`."""
        answer = self._made(self._calls.use, begun._number, verb, number)
        if answer.code in (native.STALE, native.NOT_YOURS):
            raise Lost(_LOST.format(begun._number))
        if answer.code in _WRONG:
            raise self.refusal(answer)
        return answer

    def pass_at_once(self, op: int, behind: Optional[Begun]) -> Optional[int]:
        """Ends the one behind which it is, and begins and ends this one, if it is admitted, in one turn: its number, or None. Raises `Lost`,
        and then it wasn't begun."""
        answer = self._made(self._calls.can_pass, op, None if behind is None else behind._at)
        if answer.code == native.LOST and behind is not None:
            raise Lost(_LOST.format(behind._number))
        if answer.code == native.NO_ROOM:
            return None  # as a start says it, which is made then
        answer = self._expected(answer, native.STARTED, *_WAITS)
        return int(answer.number) if answer.code == native.STARTED else None

    # The disk

    def is_ahead_of_disk(self, begun: Begun) -> bool:
        """Whether a sync may be wanted before somebody is told of this one's last line."""
        return self.sync

    def wait_for_sync(self, begun: Begun) -> None:
        """Returns when its last line is on the disk. Those who wait at once share a sync."""
        if self.sync:
            self._expected(self._calls.sync(self._at, begun._at), native.SYNCED)

    # Asking

    def ask(self, question: Callable[[], T]) -> T:
        """What a question gives, which takes its own turns."""
        return question()

    def told(self) -> Told:
        """What is in progress, and what may begin."""
        return _parts_of(self._text_by(self._calls.report, self._made))

    def told_now(self) -> Told:
        """The same. Raises `StoreLate` if the turn for it is long in coming."""
        return _parts_of(self._text_by(self._calls.report, self._made_once))

    def _text_by(self, call: Callable[..., native.Answer], made: Callable[..., native.Answer]) -> str:
        """A text that the library writes."""
        size = 4096
        while True:
            buffer = ctypes.create_string_buffer(size)
            answer = self._expected(made(call, buffer, size), native.WRITTEN, native.TOO_SMALL)
            if answer.code == native.WRITTEN:
                return ctypes.string_at(buffer, answer.number).decode("ascii")
            size = answer.number + 4096

    def texts(self) -> List[str]:
        """All lines of the journal so far, without their marks and without heads."""
        return [self._text_by(self._calls.journal, self._made)]

    def may_start(self, op: int, caller: int) -> Tuple[int, Waiter]:
        """What a start of one who comes now would be answered, and for whom it would be withheld."""
        behind = Waiter()
        answer = self._made(self._calls.may_start, op, 0, caller, ctypes.addressof(behind))
        return self._expected(answer, native.CAN_START, native.BLOCKED, native.WITHHELD).code, behind

    def waiters(self) -> List[Waiter]:
        """Who waits, in all processes, in their order."""
        room = 64
        while True:
            found = (Waiter * room)()
            answer = self._expected(self._made(self._calls.list_waiting, found, room), native.COUNTED)
            if answer.number <= room:
                return list(found[: answer.number])
            room = int(answer.number) + 64

    def stamp(self) -> int:
        """What is the same as long as nothing is written and the same ones wait."""
        return int(self._calls.stamp(self._at))

    def process_of(self, worker: int) -> Optional[str]:
        """The process of a worker that has something in progress, by the number that it gave itself; None if it isn't known."""
        found = self.told().processes.get(worker)
        return None if found is None else str(found)

    def presence(self) -> List[int]:
        """The file descriptors that tell others that this process is alive, as long as a process has them."""
        self._lent.append(os.dup(self._calls.presence(self._at)))  # a copy, for the library closes its own in the child of a fork
        return self._lent[-1:]

    def recover(self, worker: int, even_alive: bool) -> int:
        """Finishes what a worker has in progress: how much that was. Raises ValueError if it is alive."""
        answer = self._made(self._calls.recover, worker, even_alive)
        if answer.code == native.ALIVE:
            raise ValueError("process {} is alive".format(worker))
        return int(self._expected(answer, native.RECOVERED).number)

    def rotate(self) -> None:
        """Moves the file of the journal away, if it has any lines, and begins another."""
        self._expected(self._made(self._calls.rotate), native.ROTATED)
