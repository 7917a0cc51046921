"""What `with paths(..)` costs in Python beside a lock and a condition, in turn: the least and the median of the rounds, nanoseconds each.

    make library && WANZOCHE_LIBRARY=out/lib/libwanzoche.so PYTHONPATH=python python3 bench/paths.py
"""

import asyncio
import ctypes
import statistics
import threading
import time

from wanzoche import Paths, _native

BOOK = "resource book cell operation read, write path { read } , write end end"
BUFFER = "resource buffer cell operation put, get path { put ; get : 8 } end path put end path get end end"
EACH, ROUNDS, THREADS, ITEMS = 5000, 41, 4, 2000
lock, condition, busy = threading.Lock(), threading.Condition(), [False]
paths, buffer_paths, unlogged = Paths(BOOK), Paths(BUFFER), Paths(BOOK, journal=False)
at, record = paths._at, _native.Record()
record_at = ctypes.addressof(record)


def locked() -> None:
    for _ in range(EACH):
        with lock:
            pass


def by_condition() -> None:
    for _ in range(EACH):
        with condition:
            while busy[0]:
                condition.wait()
            busy[0] = True
        with condition:
            busy[0] = False
            condition.notify()


def by_paths() -> None:
    for _ in range(EACH):
        with paths("write"):
            pass


def by_unlogged() -> None:
    for _ in range(EACH):
        with unlogged("write"):
            pass


def library_alone() -> None:
    for _ in range(EACH):
        if _native.begin(at, 1, 1, record_at) == _native.NO_ROOM:
            _native.rotate_at(at, _native.lines(at), None)
            _native.begin(at, 1, 1, record_at)
        _native.end(at, record_at)


async def tasks_by_condition() -> None:
    condition, busy = asyncio.Condition(), False
    for _ in range(EACH):
        async with condition:
            while busy:
                await condition.wait()
            busy = True
        async with condition:
            busy = False
            condition.notify()


async def tasks_by_paths() -> None:
    for _ in range(EACH):
        async with paths.aio("write"):
            pass


items, not_full, not_empty = [], threading.Condition(lock), threading.Condition(lock)


def put_by_hand() -> None:
    for n in range(ITEMS):
        with lock:
            while len(items) == 8:
                not_full.wait()
            items.append(n)
            not_empty.notify()


def get_by_hand() -> None:
    for _ in range(ITEMS):
        with lock:
            while not items:
                not_empty.wait()
            items.pop(0)
            not_full.notify()


def put_by_paths() -> None:
    for n in range(ITEMS):
        with buffer_paths("put"):
            items.append(n)


def get_by_paths() -> None:
    for _ in range(ITEMS):
        with buffer_paths("get"):
            items.pop(0)


def in_threads(put, get) -> None:
    threads = [threading.Thread(target=work) for work in (put, get) * THREADS]
    for thread in threads:
        thread.start()
    for thread in threads:
        thread.join()


def compared(works, each: int) -> None:
    times = {name: [] for name, _ in works}
    for _ in range(ROUNDS):
        for name, work in works:
            began = time.perf_counter_ns()
            work()
            times[name].append((time.perf_counter_ns() - began) / each)
    for name, took in times.items():
        print("{}: {:.0f} at least, {:.0f} by the median".format(name, min(took), statistics.median(took)))


compared(
    [("with lock", locked), ("a condition by hand", by_condition), ("with paths", by_paths),
     ("with paths that keep no journal", by_unlogged), ("the library alone", library_alone)],
    EACH,
)
compared(
    [("asyncio's condition by hand", lambda: asyncio.run(tasks_by_condition())),
     ("async with paths.aio", lambda: asyncio.run(tasks_by_paths()))],
    EACH,
)
compared(
    [("a buffer by hand, an operation", lambda: in_threads(put_by_hand, get_by_hand)),
     ("a buffer by paths, an operation", lambda: in_threads(put_by_paths, get_by_paths))],
    2 * THREADS * ITEMS,
)
