"""The calls of the library's store, as include/wanzoche_store.h declares them."""

from __future__ import annotations

import ctypes
from ctypes import c_bool, c_char_p, c_int64, c_size_t, c_uint32, c_uint64, c_void_p
from typing import Any, List, Tuple

from . import _native as native

MESSAGE = 512
TRY, WAIT, LISTEN = range(3)
FINISHED_LOST, MOVED = 1, 2


class Waiter(ctypes.Structure):
    """One who waits: a `wanzoche_store_waiter`."""

    _fields_ = [
        ("operation", c_uint32),
        ("priority", c_uint32),
        ("worker", c_uint32),
        ("caller", c_uint32),
        ("waited", c_uint64),
        ("process", c_uint64),
    ]
    operation: int
    priority: int
    worker: int
    caller: int
    waited: int
    process: int


class News(ctypes.Structure):
    """What an opening has done by itself: a `wanzoche_store_news`."""

    _fields_ = [("kind", c_uint32), ("worker", c_uint32), ("operation", c_uint32), ("number", c_uint64)]
    kind: int
    worker: int
    operation: int
    number: int


class Record(ctypes.Structure):
    """An operation that is begun by steps, waits, is in progress, or over: a `wanzoche_store_record`."""

    _fields_ = [
        ("_number", c_uint64),
        ("_answered", c_uint64),
        ("_worker", c_uint32),
        ("_live", c_bool),
        ("_waits", c_bool),
        ("_looks", c_bool),
        ("_rings", c_bool),
        ("_of_store", c_uint32 * 4),
        ("_times", c_uint64 * 5),
        ("_behind", Waiter),
    ]
    _number: int
    _answered: int
    _worker: int
    _live: bool
    _waits: bool
    _behind: Waiter


class Options(ctypes.Structure):
    """How a store is opened: `wanzoche_store_options`."""

    _fields_ = [("no_sync", c_bool), ("keep_lost", c_bool), ("is_strict", c_bool), ("patience", c_int64), ("room", c_uint32)]


def _declared(library: Any, name: str, *arguments: Any, result: Any = native.Answer) -> Any:
    function = getattr(library, "wanzoche_store_" + name)
    function.restype, function.argtypes = result, [c_void_p, *arguments]
    return function


def has_stores() -> bool:
    """Whether the library has these calls: one before them has no stores for this package."""
    return hasattr(native._aside, "wanzoche_store_begin")


class Calls:
    """Calls that let other threads of the interpreter go on meanwhile, and those (`_now`) that don't: they have the limit 0, and sleep for
    nothing."""

    def __init__(self) -> None:
        aside, now = native._aside, native._in_turn
        begin: Tuple[Any, ...] = (c_uint32, c_uint32, c_uint32, c_uint32, c_void_p, c_int64)
        text: List[Any] = [c_char_p, c_size_t, c_int64]
        self.open = _declared(
            aside, "open", c_char_p, c_char_p, c_size_t, ctypes.POINTER(Options), c_int64, c_char_p, c_size_t
        )
        self.begin, self.begin_now = (_declared(library, "begin", *begin) for library in (aside, now))
        self.end, self.end_now = (_declared(library, "end", c_void_p, c_int64) for library in (aside, now))
        self.wait = _declared(aside, "wait", c_void_p, c_int64)
        self.listen = _declared(aside, "listen", c_void_p, c_size_t, c_void_p, c_int64)
        self.ring = _declared(now, "ring", result=None)
        self.sync = _declared(aside, "sync", c_void_p)
        self.use = _declared(aside, "use", c_uint64, c_uint32, c_uint64, c_int64)
        self.can_pass = _declared(aside, "pass", c_uint32, c_void_p, c_int64)
        self.may_start = _declared(aside, "may_start", c_uint32, c_uint32, c_uint32, c_void_p, c_int64)
        self.list_waiting = _declared(aside, "list_waiting", c_void_p, c_size_t, c_int64)
        self.report = _declared(aside, "report", *text)
        self.journal = _declared(aside, "journal", *text)
        self.recover = _declared(aside, "recover", c_uint32, c_bool, c_int64)
        self.rotate = _declared(aside, "rotate", c_int64)
        self.stamp = _declared(now, "stamp", result=c_uint64)
        self.next_news = _declared(now, "next_news", ctypes.POINTER(News), result=c_bool)
        self.presence = _declared(now, "presence", result=ctypes.c_int)
        self.worker = _declared(now, "worker", result=c_uint32)
        self.message = _declared(now, "message", c_char_p, c_size_t, result=None)
        self.stop = _declared(aside, "stop", c_int64)
        self.close = _declared(aside, "close", c_int64)

    @staticmethod
    def address(name: str) -> int:
        """Where a call is."""
        return native.address("store_" + name)
