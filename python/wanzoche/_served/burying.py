"""What becomes of what dead processes have in progress."""

from __future__ import annotations

import logging
from typing import List, Sequence

from .. import _native as native
from .books import Books
from .following import Following

_logger = logging.getLogger("wanzoche")


class Burying:
    """Finishes for the dead, if the log says so, and follows the log behind that. For who is at the clerk's desk."""

    def __init__(self, books: Books, following: Following, finishes_lost: bool) -> None:
        """Without `finishes_lost` it finishes only what somebody tells it to."""
        self._log, self._operations, self._following = books.log, books.operations, following
        self._finishes_lost = finishes_lost

    def lost(self) -> List[native.Activation]:
        """What dead workers have in progress."""
        live = [each for each in self._log.replica.live() if each.worker != self._log.worker]
        dead = self._log.dead.among(sorted({each.worker for each in live}))
        return [each for each in live if each.worker in dead]

    def bury_dead(self) -> bool:
        """Finishes that, if it is to be: whether there was any."""
        found = self.lost() if self._finishes_lost else []
        for worker in {each.worker for each in found}:
            own = [each for each in found if each.worker == worker]
            if self.bury(worker, own, False):
                names = ", ".join(self._operations.names[each.operation].decode() for each in own)
                _logger.info("process %d is dead, and what it had in progress is finished: %s", worker, names)
        if found:
            self._following.follow()
        return bool(found)

    def bury(self, worker: int, found: Sequence[native.Activation], even_alive: bool) -> bool:
        """Finishes this for a worker, if it is dead: whether it is."""
        wakes = {op for each in found for op in self._operations.rivals[each.operation]}
        return self._log.dead.bury(worker, [each.number for each in found], sorted(wakes), even_alive)
