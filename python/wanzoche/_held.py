"""What entries of paths over a store have in common, whichever store it is."""

from __future__ import annotations

from types import TracebackType
from typing import TYPE_CHECKING, Any, Optional, Tuple, Type, cast

from . import _native as native
from ._attempts import check_seconds
from ._entries import Entry, check_number, raise_refused_use
from ._errors import Closed

if TYPE_CHECKING:
    from ._stored import StoredPaths

_FINISHED = native.FINISHED


def process_name(worker: int) -> str:
    """`process 3`: the openings of a store are counted from 1, and no number is given twice."""
    return "process {}".format(worker)


class Begun:
    """An operation that is to begin, in progress or over: what its turn has to know. The turn has to do without the entry itself."""

    __slots__ = ("_paths", "_op", "_name", "_timeout", "_live", "_number", "_worker", "_is_tried", "__weakref__")

    _priority = 0

    def __init__(self, paths: "StoredPaths", name: str, timeout: Optional[float]) -> None:
        check_seconds(timeout)
        self._paths = paths
        self._op = paths._number(name)
        self._name = name
        self._timeout = timeout
        self._live = False
        self._number = self._worker = 0
        self._is_tried = False
        """Whether somebody has tried to begin it."""

    def _begin(self, worker: int) -> int:
        """Starts it, if it is admitted now."""
        raise NotImplementedError

    def _end(self) -> int:
        """The finish of one that nobody will leave."""
        raise NotImplementedError


class _Stored(Entry):
    """An entry of paths over a store."""

    __slots__ = ()
    _begun: Any

    @property
    def _operation(self) -> Any:  # type: ignore[override]
        return self._begun

    @property
    def _live(self) -> bool:
        return bool(self._begun._live)

    @property
    def worker(self) -> str:
        """Who began it, as `process 3`. Raises `NotInProgress` before it is begun and when it is over."""
        self._has_to_be_live()
        return process_name(self._begun._paths._store.worker)

    def __exit__(
        self, kind: Optional[Type[BaseException]], error: Optional[BaseException], trace: Optional[TracebackType]
    ) -> None:
        if self._is_in_progress():
            self._finish()

    def _is_in_progress(self) -> bool:
        """Whether there is something to finish. Paths that were closed have done it."""
        begun = self._begun
        if begun._live and begun._paths._store.is_closed:
            begun._live = False
        return bool(begun._live)

    def leave(self) -> None:
        """Finishes the operation. Raises `NotInProgress` if it isn't in progress, `Lost` if others have finished it, and `Closed` if the
        paths were closed meanwhile."""
        if self._begun._live and self._begun._paths._store.is_closed:
            self._begun._live = False
            raise self._begun._paths._closed()
        if not self._begun._live or self._finish() != native.FINISHED:
            raise self._not_in_progress()

    def _finish(self) -> int:
        code, end = self._finish_unsynced()
        store = self._begun._paths._store
        if code == _FINISHED and store.sync:
            store.wait_for_sync(end)
        return code

    def _finish_unsynced(self) -> Tuple[int, Any]:
        begun = self._begun
        try:
            return cast(Tuple[int, Any], begun._paths._store.finish(begun))
        except Closed:
            begun._live = False
            raise begun._paths._closed() from None

    def _use(self, verb: int, number: int) -> int:
        check_number(number)
        self._has_to_be_live()
        begun = self._begun
        try:
            answer = begun._paths._store.use(begun, verb, number)
        except Closed:
            raise begun._paths._closed() from None
        if answer.code != native.USED:
            raise_refused_use(begun, answer.code, verb, number)
        return int(answer.number)

    def _is_told(self) -> None:
        self._begun._is_tried = True
