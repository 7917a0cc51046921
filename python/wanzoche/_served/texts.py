"""What stands in a log, as it stands there, whatever a replica says to it."""

from __future__ import annotations

from typing import Iterator, Optional, Sequence, Set, Tuple

from .calls import LogCalls
from .known import MOST, lines_from
from .segments import Segments
from .session import Call, array
from .wishes import Starting

BEHIND = 1000
"""A start is appended behind so many lines at most that its process hasn't read."""


class Texts:
    """Looks up lines of one log, in segments and in the table. It changes nothing, and keeps nothing. For who is at the clerk's desk."""

    def __init__(self, calls: LogCalls, segments: Segments) -> None:
        self._calls, self._segments = calls, segments

    def parts(self, begin: int, most: int = MOST) -> Iterator[bytes]:
        """All lines from there on, each with its line feed, in parts: a segment, or so many lines of the table. Raises `CorruptStore`."""
        text, end = self._part(begin, most, begin < self._segments.moved)
        while end > begin:
            yield text
            begin = end
            text, end = self._part(begin, most, begin < self._segments.moved)

    def _part(self, begin: int, most: int, is_moved: bool) -> Tuple[bytes, int]:
        """A part, and up to where it goes: of a segment, if it `is_moved` and is there, or else of the table."""
        calls = self._calls
        if is_moved:
            rows = calls.call(self._segments.at(begin))[0]
            place, lines, text = (0, 0, b"") if not rows else (int(rows[0][0] or 0), int(rows[0][1] or 0), rows[0][2] or b"")
            if place <= begin < place + lines:
                return (lines_from(text, begin - place) or b"") + b"\n", place + lines
        first, last, count, found = calls.call(Call(b"copy", (calls.log, b"%d" % begin, b"%d" % most)))[0][0]
        if first is None or last is None or count is None or found is None:
            return b"", begin
        if int(first) == begin and int(count) == int(last) + 1 - begin:
            return found, int(last) + 1
        if is_moved:
            raise calls.broken("there is no line", begin)
        return self._part(begin, most, True)

    def has(self, text: bytes, place: int) -> bool:
        """Whether these lines stand there."""
        found, wanted = b"", text + b"\n"
        for part in self.parts(place, wanted.count(b"\n")):
            found += part[: len(wanted)]
            if len(found) >= len(wanted):
                break
        return found.startswith(wanted)

    def begun(self, starting: Starting, place: int) -> Optional[int]:
        """Which activation a start of this worker has begun, if its line stands in the log from this place on."""
        found, lines = b"", 0
        for part in self.parts(place, BEHIND + 1):
            found, lines = found + part, lines + part.count(b"\n")
            if lines > BEHIND:
                break
        return starting.begun_in(found, self._calls.worker)

    def own_finishes(self, numbers: Sequence[int]) -> Set[int]:
        """Which of these activations this worker has finished itself, as far as the log says."""
        if not numbers:
            return set()
        rows = self._calls.call(Call(b"own", (self._calls.log, array(numbers), self._calls.own())))[0]
        return {int(row[0]) for row in rows if row[0] is not None}
