"""Why operations can't begin, in the words of `Blocked`."""

from __future__ import annotations

from typing import Iterable, Optional, Sequence, Tuple

from ._errors import Blocked
from ._held_up import held_up
from ._texts import Path, Report, Waiting, worker_name

Own = Tuple[Tuple[str, str], ...]
"""Operations in progress, each with its worker."""


class Reasons:
    """What the declared paths and a report say of an operation. It stays as it is, so any thread may ask it."""

    def __init__(self, paths: Sequence[Path]) -> None:
        self._paths = paths

    def forbids(self, operation: str, report: Report, waiting: Iterable[int] = ()) -> Optional[Blocked]:
        """What a report says that forbids the operation, where these workers wait for it; None if nothing does."""
        if operation not in report.blocked:
            return None
        busy = {each.worker for each in report.live}
        own = (self.own_of(operation, report, [each]) for each in waiting if worker_name(each) in busy)
        return self.blocked(operation, report, next(filter(None, own), ()))

    def blocked(self, operation: str, report: Report, own: Own = ()) -> Blocked:
        """That a path forbids it, where who waits has these in progress, and nobody else can help before they are left."""
        return self._told(operation, report.blocked[operation], report, own, None)

    def withheld(self, operation: str, ahead: Waiting, report: Report) -> Blocked:
        """That a start is withheld for this one."""
        number = next(number for number, path in enumerate(self._paths) if {operation, ahead.operation} <= set(path.operations))
        return self._told(operation, number, report, (), ahead)

    def own_of(self, operation: str, report: Report, workers: Sequence[int]) -> Own:
        """What these workers have in progress, if the operation can't begin before that is left."""
        names = [worker_name(each) for each in workers]
        own = tuple((each.operation, each.worker) for each in report.live if each.worker in names)
        return own if own and operation in held_up(self._paths, report, names) else ()

    def _told(self, operation: str, number: int, report: Report, own: Own, behind: Optional[Waiting]) -> Blocked:
        path = self._paths[number]
        running = [(each.operation, each.worker) for each in report.live if each.operation in path.operations]
        may_begin = [each for each in path.operations if each in report.startable]
        return Blocked(operation, number, path.resource, path.text, running, None, may_begin, own, behind)
