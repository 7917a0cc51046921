#!/usr/bin/env python3
"""A worker for c/tests/store_together, which kills it: c/tests/store_worker.c says what it is called with, and what the witness is.

It wants PYTHONPATH for the package, and WANZOCHE_LIBRARY."""

import fcntl
import os
import random
import sys
import threading
import traceback

from wanzoche import Blocked, Paths, StoreLate

BOOK = "resource book cell operation read, write path { read } , write end end"
THREADS, ABOVE, VIOLATION = 2, 200, 3


def has_lock(file, how):
    """Whether it has the lock now."""
    try:
        fcntl.flock(file, how | fcntl.LOCK_NB)
    except BlockingIOError:
        return False
    return True


class Looker:
    """One of the threads, with its parts of the witness."""

    def __init__(self, folder, number, is_blind):
        self.folder, self.number, self.is_blind = folder, number, is_blind
        self.entries = self.file("entries", os.O_APPEND)
        self.below, self.above = self.file("below"), ABOVE + number

    def file(self, name, how=0):
        return os.open(os.path.join(self.folder, name), os.O_RDWR | os.O_CREAT | how, 0o600)

    def begin(self, paths):
        """When the store is open."""
        high = self.file("above")
        os.dup2(high, self.above, inheritable=False)
        os.close(high)
        self.thread = threading.Thread(target=self.work, args=(paths,))
        self.thread.start()

    def look_on(self, how):
        """Locks both, or ends the process."""
        files = [self.below, self.above]
        missing = [file for file in files if not has_lock(file, how)]
        if missing == files or (self.is_blind and missing):
            os.write(1, b"store_worker.py: the witness saw an overlap\n")
            os._exit(VIOLATION)
        for file in missing:  # of one that is about to be gone
            fcntl.flock(file, how)

    def is_in(self, operation):
        self.look_on(fcntl.LOCK_EX if operation == "write" else fcntl.LOCK_SH)
        os.write(self.entries, b"p")
        fcntl.flock(self.below, fcntl.LOCK_UN)
        fcntl.flock(self.above, fcntl.LOCK_UN)

    def enter(self, paths, operation, seconds):
        """Is in for a moment, if it gets in within this time."""
        try:
            with paths(operation, timeout=seconds):
                self.is_in(operation)
        except (Blocked, StoreLate):
            pass

    def work(self, paths):
        chance = random.Random(os.getpid() * THREADS + self.number)
        try:
            while not os.path.exists(os.path.join(self.folder, "end")):
                operation = "write" if chance.randrange(3) == 0 else "read"
                if self.is_blind:
                    self.is_in(operation)
                else:
                    self.enter(paths, operation, chance.randrange(1, 30) / 1000)
        except BaseException:
            traceback.print_exc()
            os._exit(4)


def check(file):
    """Whether nothing is in progress, and the journal is sound."""
    with Paths(BOOK, store=file, sync=False) as paths:
        is_idle = paths.try_enter("write") is not None and not paths.waiters()
        return 0 if is_idle and paths.audit() else 1


def main(file, folder, how=None):
    if how == "check":
        return check(file)
    lookers = [Looker(folder, number, how == "blind") for number in range(THREADS)]
    paths = None if how == "blind" else Paths(BOOK, store=file, sync="STORE_IS_SYNCED" in os.environ)
    for looker in lookers:
        looker.begin(paths)
    for looker in lookers:
        looker.thread.join()
    if paths is not None:
        paths.close()
    return 0


if __name__ == "__main__":
    sys.exit(main(*sys.argv[1:]))
