#!/usr/bin/env python3
"""Who comes next among processes: entries of each of eight that loop over `path a end` with half a millisecond inside, and how long a writer
waits by `path { read } , write end` under 4, 8 and 16 processes that read for 10 ms and pause for 20.

    WANZOCHE_CORE=out/python/_core.abi3.so WANZOCHE_LIBRARY=out/lib/libwanzoche.so PYTHONPATH=python python3 bench/processes.py FOLDER
    .. python3 bench/processes.py postgresql://..
"""

import itertools
import math
import multiprocessing
import os
import statistics
import sys
import time

from wanzoche import Paths

ONE = "resource r cell operation a path a end end"
BOOK = "resource book cell operation read, write path { read } , write end end"
SECONDS, INSIDE, READ, PAUSE, SETTLED, TRIES = 4.0, 0.0005, 0.010, 0.020, 1.0, 9
_names = itertools.count()


def new_store(where):
    """What `Paths` takes for a store that nobody has used."""
    name = "bench{}_{}".format(os.getpid(), next(_names))
    return {"store": where, "name": name} if "://" in where else {"store": os.path.join(where, name + ".log")}


def loops(store, patience, counts):
    with Paths(ONE, sync=False, patience=patience, **store) as paths:
        count, end = 0, time.monotonic() + SECONDS
        while time.monotonic() < end:
            with paths("a"):
                time.sleep(INSIDE)
            count += 1
        counts.put(count)


def reads(store, is_over, offset):
    with Paths(BOOK, sync=False, **store) as paths:
        time.sleep(offset)
        while not is_over.is_set():
            with paths("read"):
                time.sleep(READ)
            time.sleep(PAUSE)


def entries_of_each(where, patience):
    store, counts = new_store(where), multiprocessing.Queue()
    workers = [multiprocessing.Process(target=loops, args=(store, patience, counts)) for _ in range(8)]
    for each in workers:
        each.start()
    found = sorted(counts.get() for _ in workers)
    for each in workers:
        each.join()
    return found


def waits_of_a_writer(where, readers):
    store, is_over, waits = new_store(where), multiprocessing.Event(), []
    offsets = [number * (READ + PAUSE) / readers for number in range(readers)]
    workers = [multiprocessing.Process(target=reads, args=(store, is_over, offset)) for offset in offsets]
    for each in workers:
        each.start()
    time.sleep(SETTLED)
    with Paths(BOOK, sync=False, **store) as paths:
        for _ in range(TRIES):
            begun = time.monotonic()
            with paths("write"):
                waits.append(time.monotonic() - begun)
            time.sleep(0.2)
    is_over.set()
    for each in workers:
        each.join()
    return waits


def main():
    where = sys.argv[1]
    for patience in (0.005, math.inf):
        found = entries_of_each(where, patience)
        print("eight processes, patience {}: {} to {} entries each".format(patience, found[0], found[-1]))
    for readers in (4, 8, 16):
        waits = waits_of_a_writer(where, readers)
        print("{} readers: a writer waits {:.1f} ms by the median, {:.1f} at most".format(readers, statistics.median(waits) * 1e3, max(waits) * 1e3))


if __name__ == "__main__":
    main()
