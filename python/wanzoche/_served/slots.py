"""Who of a process the server knows as waiting: each has a slot there."""

from __future__ import annotations

from typing import Dict, List, Sequence, Set, Tuple

from .requests import Start
from .wishes import Wait, Wishes


class Slots:
    """The slots of this worker, each for one who waits or did. For who is at the clerk's desk."""

    def __init__(self) -> None:
        self._slots: Dict[int, Start] = {}  # who waits, or did, as far as the server may know
        self._free: List[int] = []
        self._surely: Set[int] = set()  # the slots of which it does know it

    def are_used(self) -> bool:
        """Whether the server may know of anybody."""
        return bool(self._slots)

    def unknown(self, waiting: Sequence[Start]) -> List[Start]:
        """Those of these of whom the server may not know, in the order in which they came."""
        return sorted((each for each in waiting if each.slot not in self._surely), key=lambda each: each.ticket)

    def wait(self, start: Start, holds: Sequence[int]) -> Wait:
        """What the server is told of one that has these in progress. It has a slot then."""
        if start.slot is None:
            start.slot = self._free.pop() if self._free else len(self._slots)
            self._slots[start.slot] = start
        return Wait(start.slot, start.held._op, start.priority, holds)

    def left(self, waiting: Sequence[Start]) -> Tuple[int, ...]:
        """The slots of those who don't wait any more, where these do."""
        stays = {each.slot for each in waiting}
        return tuple(slot for slot in self._slots if slot not in stays)

    def starts(self, slots: Sequence[int]) -> List[Start]:
        """Who waits in these, or did."""
        return [self._slots[slot] for slot in slots]

    def note(self, wishes: Wishes, has_left: bool) -> None:
        """What the server knows now of who waits here."""
        self._surely.update(each.slot for each in wishes.waits)
        for slot in wishes.leaves if has_left else ():
            if self._slots.pop(slot, None) is not None:
                self._free.append(slot)
            self._surely.discard(slot)

    def doubt(self, wishes: Wishes) -> None:
        """The server may know that or not."""
        self._surely.difference_update(each.slot for each in wishes.waits)
        self._surely.difference_update(wishes.leaves)

    def doubt_all(self) -> None:
        """It may have forgotten all."""
        self._surely.clear()

    def give_tickets(self, tickets: Dict[int, int]) -> None:
        """The server has given those in these slots their places in the order."""
        for slot, ticket in tickets.items():
            if slot in self._slots:
                self._slots[slot].ticket = ticket

    def forget(self) -> None:
        """For another worker: the server knows of nobody."""
        for start in self._slots.values():
            start.slot = None
        self._slots.clear()
        self._free.clear()
        self._surely.clear()
