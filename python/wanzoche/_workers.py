"""Which thread or task a worker is."""

from __future__ import annotations

import threading
import weakref
from typing import Any, Dict, Optional

from ._texts import TASKS

# As threading.current_thread finds them, which takes a lock for one that it doesn't know.
_threads: Dict[int, Any] = getattr(threading, "_active", {})


class Workers:
    """The numbers of the tasks, and the threads and tasks of all numbers, as long as they live. Each step is one call of a dictionary,
    which the interpreter doesn't divide."""

    __slots__ = ("_numbers", "_doers", "_forget")

    def __init__(self) -> None:
        self._numbers: "Dict[weakref.ref[Any], int]" = {}
        self._doers: "Dict[int, weakref.ref[Any]]" = {}
        numbers, doers = self._numbers, self._doers

        def forget(task: "weakref.ref[Any]") -> None:
            doers.pop(numbers.pop(task, 0), None)

        self._forget = forget  # which holds the dictionaries, and not what holds this

    def of_task(self, task: Any) -> Optional[int]:
        """The number of a task; None if it has none."""
        return self._numbers.get(weakref.ref(task))

    def add_task(self, task: Any, number: int) -> None:
        """From now on a task has this number."""
        known = weakref.ref(task, self._forget)
        self._numbers[known] = number
        self._doers[number] = known

    def add_this_thread(self, number: int) -> None:
        """From now on this number is that of the thread that calls, if Python knows it."""
        thread, doers = _threads.get(threading.get_ident()), self._doers
        if thread is not None:
            doers[number] = weakref.ref(thread, lambda _: doers.pop(number, None))

    def name(self, number: int) -> Optional[str]:
        """The name of a worker's thread or task; None if it has ended."""
        known = self._doers.get(number)
        doer = None if known is None else known()
        name = doer.get_name() if number > TASKS and doer is not None else getattr(doer, "name", None)
        return name if isinstance(name, str) else None  # a greenlet has what its package gives it

    def __len__(self) -> int:
        return len(self._doers)
