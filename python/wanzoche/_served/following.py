"""What is heard of a log: lines that others have appended, and notifications, which are hints to look."""

from __future__ import annotations

from .books import Books


class Following:
    """Follows the log for the desk, and notes what that means for who waits here. For who is at the clerk's desk."""

    def __init__(self, books: Books) -> None:
        self._log, self._operations, self._wanted, self._slots = books.log, books.operations, books.wanted, books.slots
        self.is_stale = False
        """Whether something was heard that isn't known yet."""

    def follow(self) -> None:
        """Takes over what is new; where somebody waits or asks, also who waits."""
        if self._log.only_looks or not (self._wanted.has_starts() or self._wanted.questions):
            self._log.known.follow()
        else:
            self._log.waits.look()
        self.looked()

    def looked(self) -> None:
        """The log has just been followed, and who waits is known: a request that is refused now is refused."""
        self.is_stale = False
        self._slots.give_tickets(self._log.waits.line.tickets)
        self._wanted.looked()

    def take_notices(self) -> None:
        """Takes what the notifications bring that have come. From any that brings nothing it is only known that there may be something."""
        notices = self._log.session.notices
        while notices:
            notice = notices.pop(0)
            op = self._operations.of_notice(notice)
            if op is not None and not any(each.is_ready() for each in self._wanted.starts.get(op, ())):
                self._wanted.wakes.add(op)  # nobody here wants it any more
            self.is_stale = not self._log.waits.take_notice(notice) or self.is_stale
