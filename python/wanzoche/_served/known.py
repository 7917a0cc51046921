"""What a process knows of a log: a replica, and up to where it has taken lines over."""

from __future__ import annotations

from functools import partial
from typing import Optional, Tuple

from .. import _native as native
from .._replica import Replica
from .calls import LogCalls, Moved
from .segments import Segments
from .session import Call, Row
from .wishes import Place

MOST = 20000
"""So many lines the server gives at once."""
COMPANY = 16
"""For so many calls who has found lines of others takes it that others append."""


class Known:
    """The replica of one opening. It takes over the lines that the server gives, each exactly if it is owed. For who is at the clerk's desk."""

    def __init__(self, calls: LogCalls, segments: Segments, replica: Replica) -> None:
        self._calls, self._segments, self._replica = calls, segments, replica
        self._company = 0  # so many calls it is taken that others append
        self.place = Place()
        """Up to where it is."""

    def row(self) -> Tuple[bytes, bytes, Optional[bytes]]:
        """The log, and up to where it is known, for a call."""
        return self._calls.known(self.place)

    def forget(self) -> None:
        """Begins anew, without a line. Raises `MemoryError`."""
        if self._replica.open().code != native.OPENED:
            raise MemoryError("no memory to follow the log {}".format(self._calls.name))
        self.place = Place()

    def follow(self) -> None:
        """Takes over what others have appended. Raises `Gone` and `CorruptStore`."""
        count = MOST
        while count >= MOST:
            try:
                count = self.take(self._calls.call(Call(b"lines", self.row()))[0][0])
            except Moved:
                self._read_segments()

    def _read_segments(self) -> None:
        """Takes over what isn't known yet of segments; meanwhile the server makes the next one ready. Raises `CorruptStore`."""
        calls, segments = self._calls, self._segments
        rows = calls.call(segments.at(self.place.lines))[0]
        while rows:
            place, lines, text, mark = rows[0]
            begin, end, known = int(place or 0), int(place or 0) + int(lines or 0), self.place.lines
            if begin > known:
                raise calls.broken("there is no line", known)
            news = lines_from(text or b"", known - begin), b"%d" % (end - 1), mark
            takes = partial(self.take, news, "a segment has other lines than it says")
            rows = calls.call_beside(segments.at(end), takes)
            segments.know(end)

    def take(self, row: Row, if_others: str = "a line isn't one line") -> int:
        """Takes over lines, the place of the last, and its stamp: how many. Raises `CorruptStore`."""
        news, final, mark = row
        assert final is not None
        before = self._replica.lines
        if news is not None:
            self._take_over(news + b"\n")
        if self._replica.lines != int(final) + 1:
            raise self._calls.broken(if_others, self._replica.lines)
        self.place = Place(self._replica.lines, mark)
        self._company = COMPANY if self._replica.lines > before + 1 else max(self._company - 1, 0)
        return self._replica.lines - before

    def take_all(self, row: Row) -> None:
        """The same, and takes over what stands behind them: the server gives only so many at once."""
        if self.take(row) >= MOST:
            self.follow()

    def has_company(self) -> bool:
        """Whether others have appended lately."""
        return self._company > 0

    def expect_company(self) -> None:
        """Others have."""
        self._company = COMPANY

    def _take_over(self, text: bytes) -> None:
        calls, replica = self._calls, self._replica
        marked = text.find(b"\n+") + 1 if b"+" in text and not text.startswith(b"+") else 0
        refusal = replica.take_over(text)
        if refusal is None and (marked or text.startswith(b"+")):
            raise calls.broken("a line has a mark", replica.lines - text.count(b"\n", marked))
        if refusal is not None:
            told = "`{}` isn't a line of a journal".format(_shown(refusal.line))
            if refusal.owed is not None:
                told = "`{}`, where `{}` is owed".format(_shown(refusal.line), _shown(refusal.owed))
            raise calls.broken(told, replica.lines)


def _shown(text: bytes) -> str:
    """A line for a message."""
    return text[:200].decode("ascii", "backslashreplace")


def lines_from(text: bytes, line: int) -> Optional[bytes]:
    """The lines of a text from that one on; None if it hasn't so many."""
    lines = text.split(b"\n", line) if line else [text]
    return lines[line] if len(lines) > line else None
