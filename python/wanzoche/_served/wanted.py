"""What threads and tasks of a process want, and haven't got."""

from __future__ import annotations

import itertools
from collections import deque
from typing import Deque, Dict, Iterable, Iterator, List, Optional, Sequence, Set, Tuple

from .requests import Finish, Question, Request, Start, Use


class Wanted:
    """Requests that have no reply yet, but for those on their way. Any thread may hand one in at `inbox`, and ask how many wait; it takes no lock
    for that, so that a finalizer or a signal handler may, too. The rest is for who is at the clerk's desk."""

    def __init__(self) -> None:
        self.inbox: Deque[Request] = deque()
        """What nobody at the desk has read."""
        self.starts: Dict[int, Deque[Start]] = {}
        """Of each operation those who want it, in order."""
        self.uses: List[Use] = []
        self.finishes: List[Finish] = []
        self.questions: List[Question] = []
        self.strays: Set[int] = set()
        """Activations of this worker that nobody here has asked for, or wants any more: they are to be finished."""
        self.wakes: Set[int] = set()
        """The operations of which the next who waits, in whichever process, has yet to be woken."""

    def waiting(self, op: int) -> int:
        """How many threads and tasks wait for an operation."""
        known = list(self.starts.get(op, ())) + [each for each in list(self.inbox) if isinstance(each, Start) and each.held._op == op]
        return sum(each.waits and each.is_wanted() for each in known)

    # At the desk

    def read_inbox(self) -> None:
        """Takes what was handed in."""
        while self.inbox:
            self.put_in(self.inbox.popleft())

    def put_in(self, request: Request) -> None:
        """Wants this, too."""
        if isinstance(request, Start):
            self.stand(request)
        elif isinstance(request, Use):
            self.uses.append(request)
        elif isinstance(request, Finish):
            self.finishes.append(request)
        elif isinstance(request, Question):
            self.questions.append(request)

    def stand(self, start: Start) -> None:
        """Puts it among those who want the same operation: before all of a lower priority, and behind the others."""
        queue, key = self.starts.setdefault(start.held._op, deque()), start.key()
        place = len(queue)
        while place and queue[place - 1].key() > key:
            place -= 1
        queue.insert(place, start)

    def all_starts(self) -> Iterator[Start]:
        """Of each operation those who want it, in order."""
        return itertools.chain.from_iterable(self.starts.values())

    def has_starts(self) -> bool:
        """Whether any operation is wanted."""
        return any(self.starts.values())

    def all_waiting(self, but: Sequence[Request] = ()) -> List[Start]:
        """Those who wait for their turn, but for these."""
        return [each for each in self.all_starts() if each.is_waiting() and each not in but]

    def is_only(self, start: Start) -> bool:
        """Whether nobody else wants a start."""
        return all(each is start for each in self.all_starts())

    def first_of(self, op: int) -> Optional[Start]:
        """The first that waits for an operation."""
        return next((each for each in self.starts.get(op, ()) if each.is_waiting()), None)

    def firsts(self) -> List[Start]:
        """Of those who wait for an operation the first of each priority, in their order."""
        return [each for queue in self.starts.values() for each in _firsts(queue)]

    def in_order(self) -> List[Tuple[int, Deque[Start]]]:
        """The operations that somebody wants, with who does so: as the first of each stand in order."""
        wanted = [(op, queue) for op, queue in self.starts.items() if queue]
        return sorted(wanted, key=lambda each: each[1][0].key())

    def has_other_than_starts(self) -> bool:
        """Whether anything but starts is wanted."""
        return bool(self.finishes or self.uses or self.questions or self.strays)

    def all(self) -> List[Request]:
        """All requests."""
        return [*self.all_starts(), *self.uses, *self.finishes, *self.questions]

    def looked(self) -> None:
        """The log has just been followed: what is refused now is refused."""
        for start in self.all_starts():
            start.has_looked = True
        for use in self.uses:
            use.has_looked = True

    def forget_over(self) -> None:
        """Keeps those that still wait for a reply, and of the starts those that may still begin."""
        for op, queue in self.starts.items():
            if not all(each.is_wanted() for each in queue):
                self.starts[op] = deque(each for each in queue if each.is_wanted())
        self.uses = [each for each in self.uses if not each.is_over()]
        self.finishes = [each for each in self.finishes if not each.is_over()]
        self.questions = [each for each in self.questions if not each.is_over()]

    def clear(self) -> None:
        """Keeps none."""
        self.starts, self.uses, self.finishes, self.questions = {}, [], [], []


def _firsts(queue: Sequence[Start]) -> Iterable[Start]:
    waiting = (each for each in queue if each.is_waiting())
    if queue and queue[0].priority == queue[-1].priority:
        return itertools.islice(waiting, 1)
    return (next(of_one) for _, of_one in itertools.groupby(waiting, lambda each: each.priority))
