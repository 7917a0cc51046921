"""Calls of libpq by their addresses, for psycopg's form in Python: of what that form adds to each, most is left out."""

from __future__ import annotations

import ctypes
import importlib
from ctypes import POINTER, c_char_p, c_int, c_void_p
from typing import Any, Dict, List, NamedTuple, Optional, Sequence

Row = Sequence[Optional[bytes]]
VERBOSE = 2
"""Of libpq's errors: with codes and places."""


class _Notice(ctypes.Structure):
    _fields_ = [("channel", c_char_p), ("pid", c_int), ("extra", c_char_p)]


class Notice(NamedTuple):
    """A notification that has come."""

    extra: bytes


class Library:
    """The functions, with their types. Those that only look at memory don't give the interpreter's lock up for that."""

    def __init__(self, name: Optional[str]) -> None:
        waits, only_looks = ctypes.CDLL(name), ctypes.PyDLL(name)
        self.send = _typed(waits.PQsendQueryPrepared, c_int, c_void_p, c_char_p, c_int, c_void_p, c_void_p, c_void_p, c_int)
        self.sync = _typed(waits.PQpipelineSync, c_int, c_void_p)
        self.flush = _typed(waits.PQflush, c_int, c_void_p)
        self.is_busy = _typed(only_looks.PQisBusy, c_int, c_void_p)
        self.consume = _typed(waits.PQconsumeInput, c_int, c_void_p)
        self.result = _typed(only_looks.PQgetResult, c_void_p, c_void_p)
        self.status = _typed(only_looks.PQresultStatus, c_int, c_void_p)
        self.rows = _typed(only_looks.PQntuples, c_int, c_void_p)
        self.columns = _typed(only_looks.PQnfields, c_int, c_void_p)
        self.value = _typed(only_looks.PQgetvalue, c_char_p, c_void_p, c_int, c_int)
        self.is_null = _typed(only_looks.PQgetisnull, c_int, c_void_p, c_int, c_int)
        self.field = _typed(only_looks.PQresultErrorField, c_char_p, c_void_p, c_int)
        self.told = _typed(only_looks.PQresultErrorMessage, c_char_p, c_void_p)
        self.clear = _typed(only_looks.PQclear, None, c_void_p)
        self.notice = _typed(only_looks.PQnotifies, POINTER(_Notice), c_void_p)
        self.free = _typed(only_looks.PQfreemem, None, c_void_p)
        self.error = _typed(only_looks.PQerrorMessage, c_char_p, c_void_p)
        self.verbosity = _typed(only_looks.PQsetErrorVerbosity, c_int, c_void_p, c_int)
        self.texts: Dict[int, Any] = {count: c_char_p * count for count in range(1, 17)}


def _typed(function: Any, result: Any, *given: Any) -> Any:
    function.restype, function.argtypes = result, given
    return function


class Result:
    """A result, with the names that psycopg.pq has for what it says."""

    __slots__ = ("_library", "_at", "status")

    def __init__(self, library: Library, at: int) -> None:
        self._at = at
        self._library = library
        self.status: int = library.status(at)

    def rows(self) -> List[Row]:
        """All its rows."""
        library, at = self._library, self._at
        value, is_null, columns = library.value, library.is_null, range(library.columns(at))
        found: List[Row] = []
        for row in range(library.rows(at)):
            found.append([value(at, row, each) or (None if is_null(at, row, each) else b"") for each in columns])
        return found

    def error_field(self, field: int) -> Optional[bytes]:
        """A part of what is wrong."""
        told: Optional[bytes] = self._library.field(self._at, field)
        return told

    @property
    def error_message(self) -> bytes:
        """What is wrong."""
        return self._library.told(self._at) or b""

    def __del__(self) -> None:
        library: Optional[Library] = getattr(self, "_library", None)  # which an interrupt may have left out
        if library is not None:
            library.clear(self._at)


class Direct:
    """A connection: the calls of psycopg.pq that a session makes all the time. Only as long as it isn't finished."""

    def __init__(self, library: Library, at: int) -> None:
        self._library, self._at = library, at

    def send_query_prepared(self, name: bytes, given: Row) -> None:
        """Sends a statement that was prepared."""
        count = len(given)
        values = self._library.texts[count](*given) if count else None
        if not self._library.send(self._at, name, count, values, None, None, 0):
            raise OSError(self._error())

    def pipeline_sync(self) -> None:
        """Ends a transaction."""
        if self._library.sync(self._at) != 1:
            raise OSError(self._error())

    def flush(self) -> int:
        """Sends what wasn't sent yet, as far as that can be done now: 0 if that is all."""
        left = int(self._library.flush(self._at))
        if left < 0:
            raise OSError(self._error())
        return left

    def is_busy(self) -> int:
        """Whether the next result isn't there yet."""
        return int(self._library.is_busy(self._at))

    def consume_input(self) -> None:
        """Reads what has come."""
        if self._library.consume(self._at) != 1:
            raise OSError(self._error())

    def get_result(self) -> Optional[Result]:
        """The next result."""
        at = self._library.result(self._at)
        return Result(self._library, at) if at else None

    def notifies(self) -> Optional[Notice]:
        """A notification that has come. psycopg 3.1 gives its memory never back."""
        at = self._library.notice(self._at)
        if not at:
            return None
        notice = Notice(at.contents.extra or b"")
        self._library.free(at)
        return notice

    def _error(self) -> str:
        return (self._library.error(self._at) or b"").decode("utf-8", "replace")


_libraries: Dict[str, Library] = {}


def _library_of(pq: Any) -> Optional[Library]:
    """That of psycopg's form in Python; None if it is another form, or another psycopg than those that were tried."""
    if pq.__impl__ != "python":
        return None
    try:
        name = importlib.import_module("psycopg.pq._pq_ctypes").pq._name
        if name not in _libraries:
            _libraries[name] = Library(name)
    except (ImportError, AttributeError, OSError):
        return None
    return _libraries[name]


def direct(pq: Any, connection: Any) -> Any:
    """The calls of a connection of psycopg.pq: by their addresses if it is the form in Python, or else its own."""
    library = _library_of(pq)
    return connection if library is None else Direct(library, connection.pgconn_ptr)


def tells_codes(pq: Any, connection: Any) -> None:
    """From now on what a connection says of itself has the server's codes, where that can be had."""
    library = _library_of(pq)
    if library is not None:
        library.verbosity(connection.pgconn_ptr, VERBOSE)
