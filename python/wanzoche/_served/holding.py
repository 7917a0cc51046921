"""What a process has in progress over a log."""

from __future__ import annotations

from typing import Dict, Iterable, Set

from .operations import Operations
from .requests import Held


class Holding:
    """The operations in progress that somebody of this process holds. For who is at the clerk's desk; other threads may only count `held`."""

    def __init__(self, operations: Operations) -> None:
        self._operations = operations
        self.held: Dict[int, Held] = {}
        """By the numbers of their activations."""
        self._done: Dict[int, Held] = {}  # those that were finished without a reply

    def has(self, held: Held) -> bool:
        """Whether this is in progress, as far as is known here."""
        return self.held.get(held._number) is held

    def begin(self, held: Held, number: int, caller: int) -> None:
        """It is in progress now, as this activation of this thread or task."""
        self.held[number] = held
        held._number, held._worker = number, caller
        held._live = True

    def let_go(self, number: int) -> None:
        """It isn't in progress any more, and who holds it sees that."""
        held = self.held.pop(number, None)
        if held is not None:
            held._live = False

    def drop(self, number: int, is_done: bool) -> None:
        """Likewise, but who holds it still has to leave it. If it `is_done`, that is a finish like any other."""
        held = self.held.pop(number, None)
        if held is not None and is_done:
            self._done[number] = held

    def was_done(self, held: Held) -> bool:
        """Whether it was finished already, and nobody was told so. The next time nobody asks."""
        is_done = self._done.get(held._number) is held
        if is_done:
            del self._done[held._number]
            held._live = False
        return is_done

    def forget(self, held: Held) -> None:
        """Nobody here knows of it any more."""
        for number in [number for number, each in self.held.items() if each is held]:
            del self.held[number]

    def forget_all(self) -> None:
        """The same of all."""
        self.held.clear()
        self._done.clear()

    def of(self, callers: Set[int]) -> Set[int]:
        """The activations of these threads and tasks."""
        return {number for number, held in self.held.items() if held._worker in callers}

    def rivals_of(self, numbers: Iterable[int]) -> Set[int]:
        """The operations that the ends of these activations may let start. If it isn't known what one is, that is all."""
        return {op for number in numbers for op in self._rivals_of(number)}

    def _rivals_of(self, number: int) -> Set[int]:
        held = self.held.get(number)
        return set(self._operations.names) if held is None else self._operations.rivals[held._op]
