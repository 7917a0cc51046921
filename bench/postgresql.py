#!/usr/bin/env python3
"""What paths over a log in PostgreSQL take: enter and leave beside two bare transactions, waking beside a bare NOTIFY, and many processes
beside PostgreSQL's own advisory locks, and beside as many that insert two rows for each entry.

    WANZOCHE_CORE=out/python/_core.abi3.so WANZOCHE_LIBRARY=out/lib/libwanzoche.so PYTHONPATH=python \\
        python3 bench/postgresql.py URL [ROUNDS [opening | many | processor]]

All is measured in turn, at a server that has what it came with. With `opening` only that is, which is best done in a database without logs;
with `many` only what many processes do; with `processor` only the processor time of a lone process, and of the server's process that it has:
other work on the machine changes that little. To compare two packages, run it with each of them in turn.
"""

import os
import select
import statistics
import sys
import time

import psycopg

from wanzoche import Paths, audit

BOOK = "resource book cell operation read, write path { read } , write end end"
SLOT = "resource slot cell operation deposit, remove path deposit ; remove end end"
OWN = "resource r cell operation {} {} end".format(", ".join("o%d" % n for n in range(32)), " ".join("path o%d end" % n for n in range(32)))
"""Each process has an operation that no other wants."""
LINE = "1 start write: started 17"


def connected(url):
    return psycopg.connect(url, autocommit=True, gssencmode="disable")


def name():
    return "bench {}".format(time.time_ns())


class Alone:
    """Enter and leave, of one process."""

    def __init__(self, url, sync):
        self.name = name()
        self.paths = Paths(BOOK, store=url, name=self.name, sync=sync)
        self.connection = connected(url)
        self.connection.execute("create table if not exists bare (log int, place bigint, line text, primary key (log, place))")
        self.connection.execute("truncate bare")
        if not sync:
            self.connection.execute("set synchronous_commit = off")
        self.raw = self.connection.pgconn
        self.raw.prepare(b"bare", b"insert into bare values ($1, $2, $3)")
        self.place = 0

    def entries(self, count):
        for _ in range(count):
            with self.paths("write"):
                pass

    def statements(self, count):
        for _ in range(2 * count):
            self.place += 1
            self.connection.execute("insert into bare values (%s, %s, %s)", (1, self.place, LINE))

    def calls(self, count):
        for _ in range(2 * count):
            self.place += 1
            self.raw.exec_prepared(b"bare", [b"1", b"%d" % self.place, LINE.encode()])


def microseconds(call, count):
    began = time.perf_counter()
    call(count)
    return (time.perf_counter() - began) / count * 1e6


def alone(url, rounds, sync, count):
    each = Alone(url, sync)
    found = {what: [] for what in ("entries", "statements", "calls")}
    for what in found:
        getattr(each, what)(20)
    for _ in range(rounds):
        for what, took in found.items():
            took.append(microseconds(getattr(each, what), count))
    each.paths.close()
    for what, took in found.items():
        ratio = statistics.median(a / b for a, b in zip(found["entries"], took))
        told = "sync" if sync else "no sync"
        print(
            "{}, {}: {:.0f} us the least, {:.0f} the median; entries take {:.2f} of it".format(
                told, what, min(took), statistics.median(took), ratio
            ),
            flush=True,
        )


def ran(pid):
    """So many microseconds the only thread of a process has run."""
    with open("/proc/{}/schedstat".format(pid)) as file:
        return int(file.read().split()[0]) / 1e3


def spent(url, rounds, sync, count):
    """Processor time of an entry and its leave, and of two statements and two calls beside them: here, and in the server's process."""
    each = Alone(url, sync)
    told = "select pid from wanzoche.worker join wanzoche.log using (log) where name = %s"
    ((own,),) = connected(url).execute(told, (each.name,)).fetchall()
    pids = {"entries": own, "statements": each.connection.info.backend_pid, "calls": each.connection.info.backend_pid}
    found = {what: [] for what in pids}
    for what in pids:
        getattr(each, what)(100)
    for _ in range(rounds):
        for what, pid in pids.items():
            began = time.process_time() * 1e6, ran(pid)
            getattr(each, what)(count)
            found[what].append(((time.process_time() * 1e6 - began[0]) / count, (ran(pid) - began[1]) / count))
    each.paths.close()
    for what, took in found.items():
        here, there = zip(*took)
        told = "{}, {}: {:.0f} us here and {:.0f} in the server by the median; {:.0f} and {:.0f} the least"
        given = statistics.median(here), statistics.median(there), min(here), min(there)
        print(told.format("sync" if sync else "no sync", what, *given), flush=True)


def in_processes(count, work, seconds):
    """Calls in so many processes, which all begin at once: what each returns."""
    begin, pipes = time.monotonic() + 1 + count * 0.05, []
    for number in range(count):
        out, into = os.pipe()
        if os.fork() == 0:
            try:
                os.write(into, repr(work(number, begin, begin + seconds)).encode())
            finally:
                os._exit(0)
        os.close(into)
        pipes.append(out)
    found = []
    for out in pipes:
        told = b""
        part = os.read(out, 1 << 16)
        while part:
            told += part
            part = os.read(out, 1 << 16)
        found.append(eval(told))
        os.close(out)
        os.wait()
    return found


def many(url, processes, seconds, text, sync, threads=1):
    """Entries a second of so many processes."""
    log = name()
    Paths(text, store=url, name=log).close()

    def work(number, begin, end):
        paths, count, n = Paths(text, store=url, name=log, sync=sync), 0, number
        time.sleep(max(begin - time.monotonic(), 0))
        while time.monotonic() < end:
            n += 1
            operation = paths.operations[(n if text == BOOK else number) % len(paths.operations)]
            try:
                with paths(operation, timeout=2):
                    count += 1
            except TimeoutError:
                break
        return count

    return sum(in_processes(processes, work, seconds)) / seconds


def inserts(url, processes, seconds):
    """The same of two bare inserts, each of which waits for the disk."""
    with connected(url) as connection:
        connection.execute("create table if not exists bare (log int, place bigint, line text, primary key (log, place))")
        connection.execute("truncate bare")

    def work(number, begin, end):
        connection, count = connected(url), 0
        time.sleep(max(begin - time.monotonic(), 0))
        while time.monotonic() < end:
            for place in (2 * count, 2 * count + 1):
                connection.execute("insert into bare values (%s, %s, %s)", (number, place, LINE))
            count += 1
        return count

    return sum(in_processes(processes, work, seconds)) / seconds


def locks(url, processes, seconds):
    """The same by advisory locks: shared to read, and exclusive to write; nothing is written down."""

    def work(number, begin, end):
        connection, count, n = connected(url), 0, number
        time.sleep(max(begin - time.monotonic(), 0))
        while time.monotonic() < end:
            n += 1
            kind = "_shared" if n % 2 else ""
            connection.execute("select pg_advisory_lock{}(77)".format(kind))
            count += 1
            connection.execute("select pg_advisory_unlock{}(77)".format(kind))
        return count

    return sum(in_processes(processes, work, seconds)) / seconds


def woken(url, rounds):
    """Milliseconds from a leave to the moment at which another process, which waits, is in progress."""
    log, (out, into) = name(), os.pipe()
    Paths(SLOT, store=url, name=log).close()
    if os.fork() == 0:
        paths = Paths(SLOT, store=url, name=log)
        for _ in range(rounds):
            with paths("remove"):
                os.write(into, time.monotonic_ns().to_bytes(8, "little"))
        os._exit(0)
    took, paths = [], Paths(SLOT, store=url, name=log)
    for _ in range(rounds):
        entry = paths.enter("deposit")
        time.sleep(0.03)
        began = time.monotonic_ns()
        entry.leave()
        took.append((int.from_bytes(os.read(out, 8), "little") - began) / 1e6)
    os.wait()
    paths.close()
    return took


def notified(url, rounds, with_insert):
    """Milliseconds from a NOTIFY to the moment at which another process has it. With an insert on both sides: one in the transaction of the
    NOTIFY, and another when it has come."""
    out, into = os.pipe()
    if os.fork() == 0:
        connection = connected(url)
        connection.execute("listen bench")
        for number in range(rounds):
            while not connection.pgconn.notifies():
                select.select([connection.pgconn.socket], [], [])
                connection.pgconn.consume_input()
            if with_insert:
                connection.execute("insert into bare values (3, %s, %s)", (number, LINE))
            os.write(into, time.monotonic_ns().to_bytes(8, "little"))
        os._exit(0)
    connection, took = connected(url), []
    connection.execute("create table if not exists bare (log int, place bigint, line text, primary key (log, place))")
    connection.execute("truncate bare")
    time.sleep(0.5)
    for number in range(rounds):
        time.sleep(0.03)
        began = time.monotonic_ns()
        if with_insert:
            connection.execute(
                "with x as (insert into bare values (2, %s, %s) returning 1) select pg_notify('bench', '1') from x", (number, LINE)
            )
        else:
            connection.execute("notify bench, '1'")
        took.append((int.from_bytes(os.read(out, 8), "little") - began) / 1e6)
    os.wait()
    return took


def filled(url, lines):
    """The name of a log with so many lines, all in the table."""
    log = name()
    with Paths(BOOK, store=url, name=log) as paths:
        with paths("read"):
            pass
    told = (
        "insert into wanzoche.line (log, place, line, by) select log, 2 + x, '9 ' || case when x %% 2 = 0 then 'start read: started ' "
        "|| (x / 2 + 1) else 'finish ' || (x / 2 + 1) || ': finished' end, 9 from wanzoche.log, generate_series(0, %s) x where name = %s"
    )
    connected(url).execute(told, (lines - 3, log))
    connected(url).execute("vacuum analyze wanzoche.line")
    return log


def opened(url, log):
    """Seconds that an opening takes."""
    began = time.perf_counter()
    with Paths(BOOK, store=url, name=log):
        return time.perf_counter() - began


def sizes(url):
    """Megabytes of the two tables, with their indexes."""
    told = "select pg_total_relation_size('wanzoche.line') / 1e6, pg_total_relation_size('wanzoche.segment') / 1e6"
    return "{:.1f} and {:.1f} MB".format(*connected(url).execute(told).fetchone())


def moved(url, log):
    """Moves its lines: seconds of each segment."""
    took, began = [], time.perf_counter()
    with Paths(BOOK, store=url, name=log) as paths:
        segments = paths.served.log.segments
        move = segments.move

        def moves(lines, known):
            began = time.perf_counter()
            move(lines, known)
            took.append(time.perf_counter() - began)

        segments.move = moves
        paths.rotate()
    print("all moved in {:.2f} s; a segment in {:.3f} s by the median, {:.3f} at most".format(
        time.perf_counter() - began, statistics.median(took), max(took)))  # fmt: skip
    for table in ("line", "segment"):
        connected(url).execute("vacuum full wanzoche." + table)


def opening(url, lines, rounds):
    """Openings of a log in the table and of one in segments, and an audit of the same lines, in turn."""
    table, segments = filled(url, lines), ""
    before = sizes(url)
    moved(url, table)
    print("{:,} lines: {} of table and segments; {} when they were moved".format(lines, before, sizes(url)), flush=True)
    table, segments = filled(url, lines), table
    with Paths(BOOK, store=url, name=segments) as paths:
        text = "journal 2 room 1048576\n" + paths.journal()
    found = {"in the table": [], "in segments": [], "audited": []}
    for _ in range(rounds):
        found["in the table"].append(opened(url, table))
        found["in segments"].append(opened(url, segments))
        began = time.perf_counter()
        assert audit(BOOK, text)
        found["audited"].append(time.perf_counter() - began)
    for what, took in found.items():
        print("{:,} lines {}: {:.3f} s the least, {:.3f} the median".format(lines, what, min(took), statistics.median(took)), flush=True)
    for log in (table, segments):
        connected(url).execute("select wanzoche.remove(%s)", (log,))


def main(url, rounds, only):
    if only == "many":
        each_count(url, rounds)
        return
    if only == "processor":
        for sync in (True, False):
            spent(url, rounds, sync, 100)
        return
    if only != "opening":
        calls(url, rounds)
    for lines in (100000, 1000000):
        opening(url, lines, rounds)


def each_count(url, rounds):
    """Entries a second of many processes with a sync: at a book, each at an operation of its own, and of inserts by hand."""
    for processes in (2, 8, 32):
        found = [(many(url, processes, 2, BOOK, True), many(url, processes, 2, OWN, True), inserts(url, processes, 2)) for _ in range(rounds)]
        told = "{} processes, sync: {:.0f} entries a second at a book, {:.0f} each of its own, {:.0f} of two inserts"
        print(told.format(processes, *map(statistics.median, zip(*found))), flush=True)


def calls(url, rounds):
    """All but the openings."""
    for sync in (True, False):
        alone(url, 10 * rounds, sync, 5)
    for _ in range(2):
        found = {"woken": woken(url, 100), "NOTIFY": notified(url, 100, False), "NOTIFY with two inserts": notified(url, 100, True)}
        for what, took in found.items():
            print("{}: {:.2f} ms by the median, {:.2f} the least".format(what, statistics.median(took), min(took)), flush=True)
    for sync in (True, False):
        for processes in (1, 2, 8, 32):
            found = statistics.median(many(url, processes, 2, BOOK, sync) for _ in range(3))
            beside = statistics.median(locks(url, processes, 2) for _ in range(3))
            told = "{} processes at a book, {}: {:.0f} entries a second; by advisory locks {:.0f}"
            print(told.format(processes, "sync" if sync else "no sync", found, beside), flush=True)
        for processes in (2, 8, 32):
            found = statistics.median(many(url, processes, 2, SLOT, sync) for _ in range(3))
            print("{} processes at a slot, {}: {:.0f} entries a second".format(processes, "sync" if sync else "no sync", found), flush=True)

if __name__ == "__main__":
    main(sys.argv[1], int(sys.argv[2]) if len(sys.argv) > 2 else 7, sys.argv[3] if len(sys.argv) > 3 else "")
