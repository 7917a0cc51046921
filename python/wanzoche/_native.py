"""The C library, as include/wanzoche.h declares it."""

from __future__ import annotations

import ctypes
import ctypes.util
import functools
import os
import sys
import threading
from ctypes import c_bool, c_char_p, c_int64, c_size_t, c_uint32, c_uint64, c_void_p
from typing import Any


class Handle(ctypes.Structure):
    """A system, or nothing. All bytes are zero before it is opened."""

    _fields_ = [("at", c_void_p), ("live", c_bool)]


class Answer(ctypes.Structure):
    """What a call answers."""

    _fields_ = [("code", c_uint32), ("number", c_uint64)]
    code: int
    number: int


class Record(ctypes.Structure):
    """An operation that is begun and ended: a `wanzoche_record`."""

    _fields_ = [("_number", c_uint64), ("_worker", c_uint32), ("_live", c_bool)]
    _number: int
    _worker: int
    _live: bool


class Activation(ctypes.Structure):
    """An operation in progress: a `wanzoche_activation`."""

    _fields_ = [("number", c_uint64), ("worker", c_uint32), ("operation", c_uint32)]
    number: int
    worker: int
    operation: int


class Taken(ctypes.Structure):
    """How much of a journal's text was taken over: a `wanzoche_taken`."""

    _fields_ = [("lines", c_uint64), ("bytes", c_uint64), ("owed", Answer)]
    lines: int
    bytes: int
    owed: Answer


CLOSED = 0
STARTED = 1
BLOCKED = 2
UNKNOWN_OPERATION = 3
USED = 4
NOT_OFFERED = 5
EMPTY = 6
FULL = 7
OVERFLOW = 8
FINISHED = 10
STALE = 11
NOT_YOURS = 12
NO_ROOM = 13
CAN_START = 15
ROTATED = 16
WRITTEN = 17
TOO_SMALL = 18
OPENED = 19
BAD_ROOM = 21
OUT_OF_MEMORY = 22
SOUND = 23
WRONG_LINE = 24
JOURNAL_TOO_LONG = 25
BAD_LINE = 26
UNDECLARED_LINE = 27
NO_JOURNAL = 28
TOO_LONG = 32
TOO_MANY = 45
TAKEN = 46
ALL_DONE = 47
STALLS = 48
REFUSED = 49
UNDECIDED = 50
SCRIPT_TOO_LONG = 51
WITHHELD = 57
LATE = 64
OWED = 65
SYSTEM = 66
IN_USE = 67
OTHER_DECLARATION = 68
NOT_A_STORE = 69
CORRUPT = 70
UNSYNCED = 71
FORKED = 72
ALIVE = 73
RECOVERED = 74
COUNTED = 75
CALLED = 76
INTERRUPTED = 77
SYNCED = 78
LOST = 79

PUT, TAKE, LOOK, ADD = range(4)
MOST_LINES = 1048576
MESSAGE = 64
STANDINGS = 1280


def _path() -> str:
    """Where the library is: what WANZOCHE_LIBRARY names, else beside this file, else where the system has it."""
    beside = os.path.join(os.path.dirname(os.path.abspath(__file__)), "libwanzoche.so")
    wanted = os.environ.get("WANZOCHE_LIBRARY") or beside
    if os.path.exists(wanted):
        return os.path.abspath(wanted)
    installed = ctypes.util.find_library("wanzoche") if wanted == beside else None
    if installed:
        return installed
    if wanted != beside:
        raise ImportError("WANZOCHE_LIBRARY names {}, which isn't there".format(wanted))
    raise ImportError(
        "libwanzoche.so isn't at {}. `pip install ./python` builds it into the package; to use one that lies elsewhere, as "
        "out/lib/libwanzoche.so after `make`, name it by the variable WANZOCHE_LIBRARY.".format(wanted)
    )


_at = _path()
# A call by the first keeps the interpreter's lock, so no two of them are in one handle at once, and none is cut in two by a signal handler,
# a finalizer or a fork. The second is for calls without a handle, or with one that nobody else has yet.
_in_turn: Any = ctypes.PyDLL(_at)
_aside: Any = ctypes.CDLL(_at)
_turn = threading.RLock()


def _has_lock() -> bool:
    """Whether this interpreter has a lock that a call can keep: all have, but for builds that are called free-threaded."""
    return bool(getattr(sys, "_is_gil_enabled", lambda: True)())


def _declared(library: Any, name: str, result: Any, *arguments: Any) -> Any:
    function = getattr(library, "wanzoche_" + name)
    function.restype, function.argtypes = result, list(arguments)
    if library is _aside or _has_lock():
        return function

    @functools.wraps(function, ("__name__",))
    def one_at_a_time(*given: Any) -> Any:
        with _turn:
            return function(*given)

    return one_at_a_time


def address(name: str) -> int:
    """Where a function of the library is."""
    return ctypes.cast(getattr(_aside, "wanzoche_" + name), c_void_p).value or 0


begin = _declared(_in_turn, "begin", c_uint32, c_void_p, c_uint32, c_uint32, c_void_p)
end = _declared(_in_turn, "end", c_uint32, c_void_p, c_void_p)
start = _declared(_in_turn, "start", Answer, c_void_p, c_uint32, c_uint32)
finish = _declared(_in_turn, "finish", Answer, c_void_p, c_uint32, c_uint64)
use = _declared(_in_turn, "use", Answer, c_void_p, c_uint32, c_uint64, c_uint32, c_uint64)
can_start = _declared(_in_turn, "can_start", Answer, c_void_p, c_uint32)
rotate_at = _declared(_in_turn, "rotate_at", Answer, c_void_p, c_size_t, c_void_p)
live = _declared(_in_turn, "live", c_uint32, c_void_p)
# A library before this call steps a line at a time.
take_over: Any = (
    _declared(_in_turn, "take_over", Answer, c_void_p, c_char_p, c_size_t, c_void_p)
    if hasattr(_aside, "wanzoche_take_over")
    else None
)
# A library before this call keeps no order among those who wait.
may_start: Any = (
    _declared(_in_turn, "may_start", Answer, c_void_p, c_uint32, c_uint32, c_uint64, c_void_p, c_size_t, c_void_p, c_size_t)
    if hasattr(_aside, "wanzoche_may_start")
    else None
)
# What a start, a finish or a use would be answered, which a library before `take_over` can't say.
owed_start: Any = _declared(_in_turn, "owed_start", Answer, c_void_p, c_uint32, c_uint32) if take_over is not None else None
owed_finish: Any = _declared(_in_turn, "owed_finish", Answer, c_void_p, c_uint32, c_uint64) if take_over is not None else None
owed_use: Any = (
    _declared(_in_turn, "owed_use", Answer, c_void_p, c_uint32, c_uint64, c_uint32, c_uint64) if take_over is not None else None
)
list_live = _declared(_in_turn, "list_live", c_uint32, c_void_p, c_void_p, c_uint32)
lines = _declared(_in_turn, "lines", c_size_t, c_void_p)
close = _declared(_in_turn, "close", None, c_void_p)
journal = _declared(_in_turn, "journal", Answer, c_void_p, c_char_p, c_size_t)
report = _declared(_in_turn, "report", Answer, c_void_p, c_char_p, c_size_t)
declaration = _declared(_in_turn, "declaration", Answer, c_void_p, c_char_p, c_size_t)
open = _declared(_aside, "open", Answer, c_void_p, c_char_p, c_size_t, c_uint32, c_char_p, c_size_t)
open_without_journal = _declared(
    _aside, "open_without_journal", Answer, c_void_p, c_char_p, c_size_t, c_uint32, c_char_p, c_size_t
)
audit = _declared(_aside, "audit", Answer, c_char_p, c_size_t, c_uint32, c_char_p, c_size_t, c_char_p, c_size_t)
# A library before this call searches nothing.
explore: Any = (
    _declared(_aside, "explore", Answer, c_char_p, c_size_t, c_char_p, c_size_t, c_uint32, c_char_p, c_size_t, c_char_p, c_size_t)
    if hasattr(_aside, "wanzoche_explore")
    else None
)
# A library before this call shows the place alone.
explain: Any = (
    _declared(_aside, "explain", Answer, c_char_p, c_size_t, c_char_p, c_size_t) if hasattr(_aside, "wanzoche_explain") else None
)
words = _declared(_aside, "words", c_char_p, c_uint32)
