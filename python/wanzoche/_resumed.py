"""How paths in memory go on behind the lines of a journal."""

from __future__ import annotations

import ctypes
from typing import FrozenSet, List, Tuple

from . import _native as native
from ._errors import JournalError, OutOfRoom

PIECE = 1 << 20
"""So many bytes of a journal are taken over at once; fewer if the room is small."""
_SHORTEST = 12
"""No line has fewer bytes."""
_WITH_NUMBER = (native.STARTED, native.BLOCKED, native.USED)


class Journal:
    """A journal's text, and the address of the system that takes it over. The system gives lines up as it goes: the caller has them."""

    def __init__(self, at: int, text: bytes, room: int) -> None:
        self._at, self._text, self._room = at, text, room
        self._head = text[: text.find(b"\n") + 1] if text.startswith(b"journal ") else b""
        self._lines = 0
        self.whole = len(self._head)
        """In how many bytes of it whole lines stand that were taken over."""

    def take_over(self) -> None:
        """Takes over all whole lines. Raises `JournalError` where it isn't a journal, or a reply isn't owed, and `OutOfRoom`."""
        if native.take_over is None:
            raise RuntimeError("this library is too old to go on behind a journal")
        size = min(PIECE, max(self._room * _SHORTEST, 256))
        goes_on = True
        while goes_on and self.whole < len(self._text):
            end = self._text.rfind(b"\n", self.whole, self.whole + size) + 1
            # What isn't a whole line is damaged if a whole line stands anywhere behind it, and else the torn end.
            goes_on = self._take(end or len(self._text)) or self._take(len(self._text))

    def _take(self, end: int) -> bool:
        """Takes over the lines up to there, or as many as there is room for, and makes room. False if not all of it are whole lines."""
        part, taken = self._head + self._text[self.whole : end], native.Taken()
        answer = native.take_over(self._at, part, len(part), ctypes.byref(taken))
        if answer.code == native.OUT_OF_MEMORY:
            raise MemoryError("no memory to go on behind a journal")
        if answer.code not in (native.TAKEN, native.WRONG_LINE):
            raise JournalError(native.words(answer.code).decode(), self._text, self._lines + answer.number)
        self._lines += taken.lines
        self.whole = self._behind(taken.lines) if answer.code == native.WRONG_LINE else self.whole + taken.bytes - len(self._head)
        if answer.code == native.WRONG_LINE and not self._makes_room(taken):
            raise self._refused(taken.owed)
        return answer.code == native.WRONG_LINE or taken.bytes == len(part)

    def _behind(self, lines: int) -> int:
        """Where the text is behind so many further lines."""
        at = self.whole
        for _ in range(lines):
            at = self._text.index(b"\n", at) + 1
        return at

    def _makes_room(self, taken: native.Taken) -> bool:
        """Whether a line only had no room, and has it now, since the lines before it were given up."""
        if taken.owed.code != native.NO_ROOM or not native.lines(self._at):
            return False
        native.rotate_at(self._at, native.lines(self._at), None)
        return True

    def _refused(self, owed: native.Answer) -> Exception:
        if owed.code == native.NO_ROOM:
            told = "no room for line {} of the journal: {} in progress, in a room of {}"
            return OutOfRoom(told.format(self._lines + 1 + bool(self._head), native.live(self._at), self._room))
        word = native.words(owed.code).decode()
        reply = "{} {}".format(word, owed.number) if owed.code in _WITH_NUMBER else word
        return JournalError("wrong line", self._text, self._lines, reply, bool(self._head))


def live_workers(at: int) -> List[int]:
    """Who has something in progress, each once."""
    count = native.live(at)
    found = (native.Activation * count)()
    return sorted({each.worker for each in found[: native.list_live(at, found, count)]})


def go_on(handle: native.Handle, text: bytes, room: int) -> Tuple[int, FrozenSet[int]]:
    """Has a system that was just opened go on behind the lines of a journal: how many bytes of that are whole lines, and who has something in
    progress there. Nobody else gets their numbers. Closes the system if it raises what `Journal` does."""
    at = ctypes.addressof(handle)
    journal = Journal(at, text, room)
    try:
        journal.take_over()
        native.rotate_at(at, native.lines(at), None)
        return journal.whole, frozenset(live_workers(at))
    except BaseException:
        native.close(at)
        raise
