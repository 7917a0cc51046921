#!/usr/bin/env python3
"""How long a writer waits for 16 readers (or as many as the first word says), which read for 10 ms and pause for 20 ms: by
`path { read } , write end` with the usual patience, with none, and with endless patience; with that also behind a door. Seconds, each of 15
tries, or as many as the second word says.

    WANZOCHE_CORE=out/python/_core.abi3.so WANZOCHE_LIBRARY=out/lib/libwanzoche.so PYTHONPATH=python python3 bench/starving.py 16 15
"""

import math
import sys
import threading
import time
from contextlib import contextmanager

from wanzoche import Paths

OPEN = "resource book cell operation read, write path { read } , write end end"
DOOR = "resource book cell operation read, write, admit, announce path { read } , write end path admit , announce end end"
READ, PAUSE, SETTLED = 0.010, 0.020, 0.3


@contextmanager
def behind_the_door(paths):
    with paths("admit"):
        entry = paths.enter("read")
    try:
        yield
    finally:
        entry.leave()


def announced(paths):
    with paths("announce"), paths("write"):
        pass


def unannounced(paths):
    with paths("write"):
        pass


def waited(text, patience, reading, writing, readers):
    """How long one writer waits."""
    paths, is_over = Paths(text, journal=False, patience=patience), threading.Event()

    def reads(number):
        time.sleep(number * (READ + PAUSE) / readers)
        while not is_over.is_set():
            with reading(paths):
                time.sleep(READ)
            time.sleep(PAUSE)

    threads = [threading.Thread(target=reads, args=(number,)) for number in range(readers)]
    for thread in threads:
        thread.start()
    time.sleep(SETTLED)
    begun = time.monotonic()
    writing(paths)
    took = time.monotonic() - begun
    is_over.set()
    for thread in threads:
        thread.join()
    return took


def main():
    readers, tries = [int(word) for word in sys.argv[1:3] + ["16", "15"][len(sys.argv) - 1 :]]
    forms = {"patience {}".format(each): (OPEN, each, lambda paths: paths("read"), unannounced) for each in (0.005, 0, math.inf)}
    forms["door"] = (DOOR, math.inf, behind_the_door, announced)
    for name, form in forms.items():
        took = sorted(waited(*form, readers) for _ in range(tries))
        print(name, "least {:.3f}, median {:.3f}, most {:.3f}".format(took[0], took[tries // 2], took[-1]), flush=True)


main()
