#!/usr/bin/env python3
"""What paths over a store take: enter and leave, beside two locks, two lines and two unlocks from C; many processes; waking; opening.

    cc -O2 -o out/two_locks bench/two_locks.c
    WANZOCHE_CORE=out/python/_core.abi3.so WANZOCHE_LIBRARY=out/lib/libwanzoche.so PYTHONPATH=python python3 bench/stores.py [ROUNDS]

All is measured in turn. FOLDER in the environment says where the files are.
"""

import os
import statistics
import subprocess
import sys
import tempfile
import time

from wanzoche import Paths, audit

BOOK = "resource book cell operation read, write path { read } , write end end"
SLOT = "resource slot cell operation deposit, remove path deposit ; remove end end"
TOP = os.path.dirname(os.path.dirname(os.path.abspath(__file__)))


def alone(folder, syncs, pairs):
    """Microseconds of an enter and a leave."""
    store = "{}/alone.log".format(folder)
    with Paths(BOOK, store=store, sync=syncs) as paths:
        began = time.perf_counter()
        for _ in range(pairs):
            with paths("write"):
                pass
        took = time.perf_counter() - began
    for end in ("", ".shared"):
        os.unlink(store + end)
    return took / pairs * 1e6


def in_c(folder, syncs, pairs):
    """The same of two locks, lines and unlocks."""
    command = [TOP + "/out/two_locks", folder + "/c.log", str(pairs)] + ["sync"] * syncs
    return float(subprocess.run(command, check=True, stdout=subprocess.PIPE).stdout)


def many(folder, processes, seconds, operations, text):
    """Entries a second of so many processes."""
    store, pipes = "{}/many.log".format(folder), []
    Paths(text, store=store, sync=False).close()
    begin = time.monotonic() + 0.3 + processes * 0.02
    for number in range(processes):
        out, into = os.pipe()
        if os.fork() == 0:
            paths, count, n = Paths(text, store=store, sync=False), 0, number
            time.sleep(max(begin - time.monotonic(), 0))
            while time.monotonic() < begin + seconds:
                n += 1
                entry = paths(operations[n % len(operations)] if text == BOOK else operations[number % 2], timeout=1)
                try:
                    with entry:
                        count += 1
                except TimeoutError:
                    break
            os.write(into, str(count).encode())
            os._exit(0)
        os.close(into)
        pipes.append(out)
    counts = []
    for out in pipes:
        counts.append(int(os.read(out, 20)))
        os.close(out)
        os.wait()
    for end in ("", ".shared"):
        os.unlink(store + end)
    return sum(counts) / seconds


def woken(folder, rounds):
    """Milliseconds from a leave to the moment at which another process, which waits, is in progress: by the median."""
    store, (out, into) = "{}/woken.log".format(folder), os.pipe()
    Paths(SLOT, store=store, sync=False).close()
    if os.fork() == 0:
        paths = Paths(SLOT, store=store, sync=False)
        for _ in range(rounds):
            with paths("remove"):
                os.write(into, time.monotonic_ns().to_bytes(8, "little"))
        os._exit(0)
    took, paths = [], Paths(SLOT, store=store, sync=False)
    for _ in range(rounds):
        time.sleep(0.02)
        entry = paths.enter("deposit")
        began = time.monotonic_ns()
        entry.leave()
        took.append(int.from_bytes(os.read(out, 8), "little") - began)
    os.wait()
    paths.close()
    return statistics.median(took) / 1e6


def opened(folder, lines, rounds):
    """Milliseconds that it takes to open a store with so many lines, alone and beside another process, and to audit them."""
    store, found = "{}/opened.log".format(folder), []
    texts = ["+1 start {}: started {}\n+1 finish {}: finished\n".format(("read", "write")[n % 2], n, n) for n in range(lines // 2)]
    text = "journal 3 room 1048576\n" + "".join(texts)
    with open(store, "w") as file:
        file.write(text)
    for _ in range(rounds):
        began = time.perf_counter()
        with Paths(BOOK, store=store):
            alone = time.perf_counter()
            with Paths(BOOK, store=store):
                beside = time.perf_counter()
        ended = time.perf_counter()
        audit(BOOK, text)
        found.append((alone - began, beside - alone, time.perf_counter() - ended))
    return [[each * 1e3 for each in column] for column in zip(*found)]


def main(rounds):
    with tempfile.TemporaryDirectory(dir=os.environ.get("FOLDER")) as folder:
        for syncs, pairs in ((False, 20000), (True, 500)):
            pythons, cs = [], []
            for _ in range(rounds):
                pythons.append(alone(folder, syncs, pairs))
                cs.append(in_c(folder, syncs, pairs))
            ratios = statistics.median(a / b for a, b in zip(pythons, cs))
            told = "enter and leave{}: {:.1f} us the least, {:.1f} the median; in C {:.1f} and {:.1f}; {:.2f} the median of the ratios"
            middle = statistics.median(pythons), statistics.median(cs)
            print(told.format(" with sync" * syncs, min(pythons), middle[0], min(cs), middle[1], ratios), flush=True)
        for processes in (1, 2, 8, 32):
            found = [many(folder, processes, 1.5, ("read", "write"), BOOK) for _ in range(3)]
            print("{} processes at a book: {:.0f} entries a second".format(processes, statistics.median(found)), flush=True)
        for processes in (2, 32):
            found = [many(folder, processes, 1.5, ("deposit", "remove"), SLOT) for _ in range(3)]
            print("{} processes at a slot: {:.0f} entries a second".format(processes, statistics.median(found)), flush=True)
        print("woken: {:.2f} ms by the median".format(woken(folder, 200)))
        for what, took in zip(("opened alone", "opened beside another", "audited"), opened(folder, 1000000, rounds)):
            print("1,000,000 lines {}: {:.0f} ms the least, {:.0f} the median".format(what, min(took), statistics.median(took)))


if __name__ == "__main__":
    main(int(sys.argv[1]) if len(sys.argv) > 1 else 9)
