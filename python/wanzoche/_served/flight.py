"""The append that is on its way, and what becomes of those for whom it is."""

from __future__ import annotations

from typing import List, Optional

from .. import _native as native
from .books import Books
from .drafts import Drafts, number_of
from .replies import Replies
from .requests import Batch, Finish, Nobody, Request, Start, Use, wake_nobody


class Flight:
    """One append at most, from before it is sent until it is known what became of it: an error on the way leaves it here. For who is at the
    clerk's desk."""

    def __init__(self, books: Books, drafts: Drafts, replies: Replies) -> None:
        self._wanted, self._holding, self._slots, self._trouble = books.wanted, books.holding, books.slots, books.trouble
        self._drafts, self._replies = drafts, replies
        self.batch: Optional[Batch] = None

    def requests(self) -> List[Request]:
        """Those for whom it is."""
        return [] if self.batch is None else [*(each for each, _ in self.batch.lines), *self.batch.finishes.values()]

    # Its lines are in the log, or aren't

    def confirm(self, batch: Batch) -> None:
        """Its lines are."""
        for request, line in batch.lines:
            if isinstance(request, Start):
                self._started(request, number_of(line))
            elif isinstance(request, Use):
                if request in self._wanted.uses:
                    self._wanted.uses.remove(request)
                request.number = number_of(line)
                request.reply(native.USED)
            elif isinstance(request, Finish):
                self.finished(request, int(line.split(b" ")[2][:-1]), False)

    def _started(self, start: Start, number: int) -> None:
        held, op = start.held, start.held._op
        queue = self._wanted.starts.get(op)
        if queue and start in queue:
            queue.remove(start)
        self._drafts.note_begun(op)
        if held._live or not start.claim():  # another thread has begun the same entry, or nobody waits for this start any more
            self._wanted.strays.add(number)
            start.reply(native.NOT_YOURS)
            return
        self._holding.begin(held, number, start.caller)
        start.tell(native.STARTED)
        if start.is_unwanted:
            self._wanted.inbox.append(Finish(wake_nobody, held))

    def finished(self, finish: Finish, number: int, is_taken: bool) -> None:
        """This activation is over, by others if it `is_taken`."""
        if finish.claim():
            self._holding.let_go(number)
            finish.tell(native.NOT_YOURS if is_taken else native.FINISHED)
        else:
            self._holding.drop(number, not is_taken)  # who was told that it isn't done leaves it again, and is told then

    def revert(self, batch: Batch) -> None:
        """Its lines aren't: what they were for is wanted as before."""
        for request, _ in reversed(batch.lines):
            if isinstance(request, Start):
                if request not in self._wanted.starts.get(request.held._op, ()):
                    self._wanted.stand(request)
            elif isinstance(request, Use) and request not in self._wanted.uses:
                self._wanted.uses.insert(0, request)
            elif isinstance(request, Finish) and isinstance(request.held, Nobody):
                self._wanted.strays.add(request.held._number)
            elif isinstance(request, Finish):
                self._wanted.finishes.append(request)

    # It isn't known

    def take_back(self) -> None:
        """What it was for is wanted as before, and the server may know who waits, or that nobody does."""
        batch, self.batch = self.batch, None
        if batch is not None:
            self.revert(batch)
            self._slots.doubt(batch.wishes)
            self._wanted.wakes.update(batch.wishes.wakes)
            for number, finish in batch.finishes.items():
                if isinstance(finish.held, Nobody):
                    self._wanted.strays.add(number)
                elif finish not in self._wanted.finishes:
                    self._wanted.finishes.append(finish)

    def give_up(self) -> None:
        """Who wanted what is on its way is told that it has gone wrong, though it may have been done."""
        if self.batch is not None:
            requests, batch = self.requests(), self.batch
            self.batch, self._trouble.is_unsure = None, True
            self._slots.doubt(batch.wishes)
            self._replies.fail(requests, self._trouble.away)
