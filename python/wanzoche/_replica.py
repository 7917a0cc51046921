"""What one process knows of a store: the system of the proved core, as all lines of the journal leave it."""

from __future__ import annotations

import ctypes
import re
from typing import Any, Dict, List, NamedTuple, Optional, Tuple

from . import _native as native
from ._texts import read_declaration

ROOM = 65536
"""The room of what is in progress, of all processes together. It is the same in each, so that all can take over the same lines."""

_NUMBER = rb"(?:0|[1-9][0-9]{0,19})"
_NAME = rb"[A-Za-z][A-Za-z0-9_]{0,31}"
_USE = rb"use (%b) (?:(put|add) (%b)|(take|look))" % (_NUMBER, _NUMBER)
_ATTEMPT = rb"(%b) (?:start (%b)|finish (%b)|%b)" % (_NUMBER, _NAME, _NUMBER, _USE)
_WORDS = rb"finished|stale|not yours|unknown operation|not offered|empty|full|overflow|device failed|no room"
_REPLY = rb"((?:started|blocked|used) %b|%b)" % (_NUMBER, _WORDS)
LINE = re.compile(_ATTEMPT + rb": " + _REPLY + rb"\n")
"""A whole line without a mark."""

_HEAD = b"journal 3 room 1048576\n"
_VERBS = {b"put": native.PUT, b"take": native.TAKE, b"look": native.LOOK, b"add": native.ADD}
_WITH_NUMBER: Dict[int, bytes] = {native.STARTED: b"started %d", native.BLOCKED: b"blocked %d", native.USED: b"used %d", native.FINISHED: b"finished"}
_MAKING: Tuple[Any, Any, Any] = (native.start, native.finish, native.use)
_ASKING: Tuple[Any, Any, Any] = _MAKING if native.owed_start is None else (native.owed_start, native.owed_finish, native.owed_use)
"""The same without a change, where the library has them."""


class Refusal(NamedTuple):
    """Why a line wasn't taken over, and where it begins, in bytes from the first line of the text that was offered."""

    at: int
    line: bytes
    owed: Optional[bytes]
    """The reply that is owed instead; None if it isn't a line at all."""


class Replica:
    """A system, and how many lines it has taken over. Its handle stays where it is: others may look at it by its address."""

    def __init__(self, source: bytes, handle: native.Handle) -> None:
        self._source = source
        self._handle = handle
        self.at = ctypes.addressof(handle)
        self.lines = 0
        self.operations: Dict[bytes, int] = {}

    def open(self) -> native.Answer:
        """Opens the system anew, without a line. The answer is `OPENED` or says why not."""
        native.close(self.at)
        message = ctypes.create_string_buffer(native.MESSAGE)
        answer: native.Answer = native.open_without_journal(self.at, self._source, len(self._source), ROOM, message, len(message))
        if answer.code == native.OPENED:
            self.lines = 0
            self.operations = {name.encode(): op for name, op in read_declaration(self.declaration())[0].items()}
        return answer

    def close(self) -> None:
        """Gives the memory back. A second close does nothing."""
        native.close(self.at)

    def declaration(self) -> str:
        """The text of the declaration, as the library spells it."""
        buffer = ctypes.create_string_buffer(int(native.declaration(self.at, None, 0).number) + 1)
        native.declaration(self.at, buffer, len(buffer))
        return buffer.value.decode("ascii")

    def report(self) -> str:
        """The text of the report. Raises `MemoryError`."""
        answer = native.Answer(native.TOO_SMALL, 4096)
        while answer.code == native.TOO_SMALL:
            size = answer.number + 1
            buffer = ctypes.create_string_buffer(size)
            answer = native.report(self.at, buffer, size)
        if answer.code != native.WRITTEN:
            raise MemoryError("no memory for a text of the library")
        return ctypes.string_at(buffer, answer.number).decode("ascii")

    def start(self, worker: int, op: int) -> native.Answer:
        """Makes a start, if it is admitted. What is blocked changes nothing."""
        answer: native.Answer = native.start(self.at, worker, op)
        self.lines += answer.code == native.STARTED
        return answer

    def finish(self, worker: int, activation: int) -> bool:
        """Finishes an activation of the worker; False if it isn't live, or another's."""
        is_over = bool(native.finish(self.at, worker, activation).code == native.FINISHED)
        self.lines += is_over
        return is_over

    def use(self, worker: int, activation: int, verb: int, number: int) -> native.Answer:
        """Uses the device, if it serves that. What is refused changes nothing."""
        answer: native.Answer = native.use(self.at, worker, activation, verb, number)
        self.lines += answer.code == native.USED
        return answer

    def has_live(self, worker: int, activation: int) -> bool:
        """Whether an activation of the worker is in progress."""
        return self.owed_use(worker, activation, native.LOOK, 0).code not in (native.STALE, native.NOT_YOURS)

    def owed_start(self, worker: int, op: int) -> native.Answer:
        """What a start would be answered. Nothing changes."""
        answer: native.Answer = native.owed_start(self.at, worker, op)
        return answer

    def owed_use(self, worker: int, activation: int, verb: int, number: int) -> native.Answer:
        """What a use would be answered. Nothing changes."""
        answer: native.Answer = native.owed_use(self.at, worker, activation, verb, number)
        return answer

    def can_start(self, op: int) -> bool:
        """Whether no path forbids the operation."""
        return bool(native.can_start(self.at, op).code == native.CAN_START)

    def live(self) -> List[native.Activation]:
        """What is in progress, in the order of the starts."""
        return self.few_live(ROOM) or []

    def few_live(self, most: int) -> Optional[List[native.Activation]]:
        """The same, if it is so much at most; else None."""
        count = native.live(self.at)
        if count > most:
            return None
        found = (native.Activation * count)()
        return list(found[: native.list_live(self.at, found, count)])

    def take_over(self, text: bytes) -> Optional[Refusal]:
        """Takes over whole lines, those with a mark too, each exactly if its reply is owed. Stops at the first that isn't."""
        if native.take_over is None or not text:
            return self._step(text, 0)
        taken, whole = native.Taken(), _HEAD + text
        answer = native.take_over(self.at, whole, len(whole), ctypes.byref(taken))
        if answer.code not in (native.TAKEN, native.WRONG_LINE):
            return self._step(text, 0)  # nothing was taken, and this finds the line and says what it is
        self.lines += taken.lines
        if answer.code == native.TAKEN and taken.bytes == len(whole):
            return None
        at = 0
        for _ in range(taken.lines):
            at = text.index(b"\n", at) + 1
        return self._step(text, at)

    def _step(self, text: bytes, at: int) -> Optional[Refusal]:
        """The same from there on, a line at a time."""
        match = LINE.match
        while at < len(text):
            line = match(text, at + 1 if text.startswith(b"+", at) else at)
            if line is None:
                return Refusal(at, text[at : text.find(b"\n", at)], None)
            owed = self._reply(line, _ASKING)  # so that a line that isn't owed changes nothing
            if owed != line.group(8):
                return Refusal(at, text[at : line.end() - 1], owed)
            if _ASKING is not _MAKING:
                self._reply(line, _MAKING)
            self.lines += 1
            at = line.end()
        return None

    def _reply(self, line: "re.Match[bytes]", calls: Tuple[Any, Any, Any]) -> bytes:
        """Makes the attempt of a line by one of the calls, or asks what it would be answered: the reply."""
        start, finish, use = calls
        worker, name, finished, used, giving, number, taking, _ = line.groups()
        if int(worker) >= 1 << 32 or int(finished or used or 0) >= 1 << 64 or int(number or 0) >= 1 << 64:
            return b"no number of this size"
        if name is not None:
            if name not in self.operations:
                return b"undeclared"
            answer = start(self.at, int(worker), self.operations[name])
        elif finished is not None:
            answer = finish(self.at, int(worker), int(finished))
        else:
            answer = use(self.at, int(worker), int(used), _VERBS[giving or taking], int(number or 0))
        told = _WITH_NUMBER.get(answer.code)
        if told is None:
            return bytes(native.words(answer.code))
        return told if answer.code == native.FINISHED else told % int(answer.number)
