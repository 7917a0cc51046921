"""Appends to a log: starts, finishes, and several lines at once."""

from __future__ import annotations

from typing import Optional, Sequence

from .._replica import Replica
from .calls import Gone, LogCalls, Moved
from .known import Known
from .session import Call, Row, array
from .texts import Texts
from .waits import Waits
from .wishes import Appended, Place, Starting, Wishes


class Appends:
    """Appends for one opening of a log, each in one round trip, and takes over what has come meanwhile. It keeps nothing: what is on its way is
    the clerk's to know. For who is at the clerk's desk."""

    def __init__(self, calls: LogCalls, known: Known, replica: Replica, waits: Waits, texts: Texts) -> None:
        self._calls, self._known, self._replica, self._waits, self._texts = calls, known, replica, waits, texts

    def append(
        self,
        text: Optional[bytes],
        wishes: Wishes,
        *,
        before: Place,
        is_stepped: bool,
        starting: Optional[Starting] = None,
        looks: bool = False,
    ) -> Appended:
        """Appends lines if their place is the next one, and finishes, and takes over what has come. With `is_stepped` the replica has taken
        these lines already, in a turn, which ends. One line that is `starting` something may go behind lines of others; with `looks` it is
        known then who waits."""
        over, wakes, waits, leaves = wishes
        try:
            if text is None and not (over or wakes or leaves or is_stepped):
                self._waits.look(waits)
                return Appended(False)
            if starting is not None and text is not None and not over:
                is_alone = not (looks or self._known.has_company() or any(wishes))
                quick = self._put_start(starting, text, before) if is_alone else None
                return quick or self._start(starting, wishes, before, looks)
            if text is None and len(over) == 1 and not (waits or leaves or looks or is_stepped):
                quick = None if self._known.has_company() else self._put_finish(over[0], wakes, before)
                return quick or self._finish(over[0], wakes, before)
            return self._append(text, wishes, before, is_stepped, looks)
        except Moved as error:
            if is_stepped:
                raise Gone(str(error)) from error  # of a turn that was cut off: all is read anew, since the replica is ahead
            self._known.follow()
        return self._append_rest(text, wishes, before, starting, looks)

    # Several lines

    def turn(self) -> None:
        """Takes over what is new, and who waits. From now on nobody else appends or begins to wait, until `append` or `end_turn`."""
        calls = self._calls
        try:
            *row, waiters = calls.call(Call(b"begin"), Call(b"turn", (*self._known.row(), calls.own())))[1][0]
        except Gone:
            self.end_turn()
            raise
        except Moved:
            self.end_turn()
            self._known.follow()
            return self.turn()
        self._known.take_all(row)
        self._waits.know(waiters)

    def end_turn(self) -> None:
        """Ends a turn without a line. Does nothing if there is none."""
        self._calls.call(Call(b"rollback"))

    def _append(self, text: Optional[bytes], wishes: Wishes, before: Place, is_stepped: bool, looks: bool) -> Appended:
        """Appends lines that go nowhere else, and finishes; who waits from now on does so by another call. Raises `Moved` if nothing was
        done since what follows `before` was moved."""
        over, wakes, waits, leaves = wishes
        log, place, stamp = self._calls.known(before)
        calls = [Call(b"append", (log, self._calls.own(), place, stamp, text, array(over), array(wakes), array(leaves)))]
        if is_stepped:
            calls.append(Call(b"commit"))
        if text is not None or over:
            calls += self._calls.lasts()
        asks = looks and not (waits or is_stepped)  # in a turn it is known who waits
        if asks:
            calls.append(self._waits.ask())
        found = self._calls.call(*calls)
        news, final, mark, taken = found[0][0]
        if news is None and int(final or -1) >= before.lines:
            news = self._own(text, over)
        is_in = text is not None and news is not None and (news == text or news.startswith(text + b"\n"))
        if is_stepped and is_in and news is not None and text is not None:
            news = news[len(text) + 1 :] or None
        if is_in or not is_stepped:
            self._known.take_all((news, final, mark))
        if asks:
            self._waits.know(found[-1][0][0])
        elif waits:
            self._waits.look(waits)
        return Appended(is_in, {int(each) for each in (taken or b"{}")[1:-1].split(b",") if each})

    def _own(self, text: Optional[bytes], over: Sequence[int]) -> Optional[bytes]:
        """These lines, and those of these finishes: all that is new, where the server doesn't tell it."""
        own = ([] if text is None else [text]) + [b"%d finish %d: finished" % (self._calls.worker, each) for each in over]
        return b"\n".join(own) or None

    # One line

    def _put_start(self, starting: Starting, line: bytes, before: Place) -> Optional[Appended]:
        """Appends a start in a quicker way, if its place is the next one; None if it isn't."""
        given = array(starting.rivals), starting.known, b"%d" % starting.priority, b"%d" % starting.ticket
        return Appended(True, set(), starting.number) if self._put(b"put_start", line, before, given) else None

    def _put_finish(self, activation: int, wakes: Sequence[int], before: Place) -> Optional[Appended]:
        """A finish likewise."""
        line = b"%d finish %d: finished" % (self._calls.worker, activation)
        return Appended(False) if self._put(b"put_finish", line, before, (array(wakes),)) else None

    def _put(self, name: bytes, line: bytes, before: Place, given: Row) -> bool:
        """Appends a line by a statement, which is quicker than a function where nobody else appends: whether it was the next one."""
        log, place, stamp = self._calls.known(before)
        calls = [Call(name, (log, self._calls.own(), place, stamp, line, *given)), *self._calls.line_lasts(place)]
        rows = self._calls.call(*calls)[0] if before.lines > 0 else []
        if rows:
            self._known.take((line, place, rows[0][0]))
        else:
            self._known.expect_company()
        return bool(rows)

    def _finish(self, activation: int, wakes: Sequence[int], before: Place) -> Appended:
        """Appends a finish, behind whatever lines there are."""
        log, place, stamp = self._calls.known(before)
        given: Row = (log, self._calls.own(), place, stamp, b"%d" % activation, array(wakes))
        news, final, mark, is_taken = self._calls.call(Call(b"finish", given), *self._calls.lasts())[0][0]
        self._known.take_all((news or b"%d finish %d: finished" % (self._calls.worker, activation), final, mark))
        return Appended(False, {activation} if is_taken == b"t" else set())

    def _start(self, starting: Starting, wishes: Wishes, before: Place, looks: bool) -> Appended:
        """Appends a start. If it is in the log, nobody waits in the slots that are left any more."""
        _, wakes, waits, leaves = wishes
        log, place, stamp = self._calls.known(before)
        asks = b"t" if looks and not waits else b"f"
        operation, number, touches, ends, rivals, known, priority, ticket = starting
        given: Row = (log, self._calls.own(), place, stamp, operation, b"%d" % number, touches, ends)
        given = (*given, array(rivals), known, b"%d" % priority, b"%d" % ticket, array(wakes), array(leaves), asks)
        stands = self._waits.stands(waits)
        found = self._calls.call(Call(b"start", given), *self._calls.line_lasts(place), *stands)
        self._waits.stood(waits)
        begun, *row, waiters = found[0][0]
        if waits:
            *row, waiters = found[-1][0]
        news, final, mark = row
        if news is None and begun is not None:
            news = starting.line(self._calls.worker) + begun
        is_begun = starting.begun_in(news or b"", self._calls.worker) if begun is None else int(begun)
        self._known.take_all((news, final, mark))
        if waiters is not None:
            self._waits.know(waiters)
        return Appended(is_begun is not None, set(), is_begun)

    # Behind lines that were moved

    def _append_rest(
        self, text: Optional[bytes], wishes: Wishes, before: Place, starting: Optional[Starting], looks: bool
    ) -> Appended:
        """Appends when the next line was moved, and all is taken over that is there: what isn't done yet is done behind it. What the log
        doesn't know as live is over."""
        number = None if starting is None else self._texts.begun(starting, before.lines)
        is_in = number is not None if starting is not None else text is not None and self._texts.has(text, before.lines)
        left = tuple(each for each in wishes.over if self._replica.has_live(self._calls.worker, each))
        ended = set(wishes.over).difference(left)
        taken = ended - self._texts.own_finishes(sorted(ended))
        rest = wishes._replace(over=left, leaves=wishes.leaves if is_in or text is None else ())
        if is_in or ended:
            self._calls.make_last()
        try:
            if any(rest):
                taken |= self._append(None, rest, self._known.place, False, looks).taken
        except Moved:
            self._known.follow()
            return self._append_rest(text, wishes, before, starting, looks)
        return Appended(is_in, taken, number)
