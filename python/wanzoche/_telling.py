"""What the program's log is told of those who wait."""

from __future__ import annotations

import asyncio
import logging
import time
from typing import TYPE_CHECKING, List, Optional, Sequence

from ._order import Told
from ._texts import Report, worker_name
from ._waiting import Waiter

if TYPE_CHECKING:
    from ._paths import Paths

_logger = logging.getLogger("wanzoche")


def tell_waits(paths: "Paths", operation: str, report: Report, waiters: Sequence[Waiter]) -> None:
    """Of these that wait for one operation, where the report says what is in progress: which are in their own way, each once, and how long
    the first of the others has waited."""
    _tell_held_up(paths, operation, report, waiters)
    waiting = [each for each in waiters if each.paths is not None]
    if waiting:
        first = waiting[0]
        told = None if first.place is None else first.place.behind
        tell_wait(paths, operation, report, first.worker, first.since, len(waiting) - 1, told)


def tell_wait(
    paths: "Paths", operation: str, report: Report, worker: int, since: float, others: int, told: Optional[Told] = None
) -> None:
    """That this one has waited since then, and so many others, too, and for whom."""
    if (operation in report.blocked or told is not None) and _logger.isEnabledFor(logging.INFO):
        who = paths._worker(worker).told + (" (and {} more)".format(others) if others else "")
        why = paths._reasons.blocked(operation, report) if told is None else paths._behind(operation, told, report)
        _logger.info("%s has waited for %.0f s: %s", who, time.monotonic() - since, why)


def _tell_held_up(paths: "Paths", operation: str, report: Report, waiters: Sequence[Waiter]) -> None:
    busy = {each.worker for each in report.live}
    for waiter in waiters:
        workers = [each for each in _held_up_by(paths, waiter) if worker_name(each) in busy]
        own = paths._reasons.own_of(operation, report, workers)
        if own:
            waiter.paths = None  # once is enough
            _logger.warning("%s waits for itself: %s", paths._worker(waiter.worker).told, paths._reasons.blocked(operation, report, own))


def _held_up_by(paths: "Paths", waiter: Waiter) -> List[int]:
    """Who doesn't go on while it waits: itself, and of a thread, which is the one that asks, the task in which it waits."""
    task = asyncio.current_task() if waiter.loop is None and asyncio._get_running_loop() else None
    of_task = None if task is None else paths._workers.of_task(task)
    return [waiter.worker] if of_task is None else [waiter.worker, of_task]
