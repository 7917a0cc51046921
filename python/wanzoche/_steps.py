"""What is quick of a store, in Python over ctypes."""

from __future__ import annotations

from typing import Any, Optional

from ._opening import Calls


class Steps:
    """The base of stores."""

    _calls: Calls
    _at: Optional[int]

    def _aim(self, begin: int, end: int, store: int, /) -> None:
        """Where the library's calls to begin and to end lie, and the store."""

    def _begin_now(self, record: int, operation: int, priority: int, caller: int, waits: int, /) -> int:
        """Begins the operation of a record, if the turn is to be had at once: the code of the answer."""
        answer: Any = self._calls.begin_now(self._at, operation, priority, caller, waits, record, 0)
        return int(answer.code)

    def _end_now(self, record: int, /) -> int:
        """Ends it likewise."""
        return int(self._calls.end_now(self._at, record, 0).code)
