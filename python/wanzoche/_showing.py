"""What the command `status` of `wanzoche` knows and shows: as lines, as JSON, and as a table."""

from __future__ import annotations

import json
import time
from typing import Any, Callable, Dict, List, NamedTuple, Optional, Protocol, Sequence, Tuple

from ._processes import Process, process_at
from ._served.asking import Asked
from ._served.log import Log
from ._served.paths import ServedPaths
from ._stored import StoredPaths
from ._texts import Report

FORM = 1
"""The number of the form of the JSON. It changes when something in it gets another meaning or goes; what is added leaves it as it is."""
WAITING = (
    "select x.operation, x.worker, count(*), min(floor(extract(epoch from x.since))::bigint), min(y.process) from "
    "(select log, operation, worker, since, priority, ticket from wanzoche.waiter union all "
    "select log, operation, worker, since, 0, null from wanzoche.waiting) x left join wanzoche.worker y using (log, worker) "
    "where x.log = $1 and x.since is not null group by x.operation, x.worker "
    "order by max(x.priority) desc, min(x.ticket), min(x.since), x.worker"
)


class InProgress(NamedTuple):
    """An operation in progress."""

    activation: int
    operation: str
    worker: int
    is_lost: bool
    """Whether its worker is dead."""
    process: Process


class Waiting(NamedTuple):
    """Who waits for an operation: a worker over a server; over a file so many processes, and it isn't known which."""

    operation: str
    many: int
    worker: Optional[int] = None
    process: Process = Process()


class State(NamedTuple):
    """A store at a moment."""

    report: Report
    in_progress: Tuple[InProgress, ...]
    waiting: Tuple[Waiting, ...]

    def waiting_for(self, operation: str) -> int:
        """How many wait for an operation."""
        return sum(each.many for each in self.waiting if each.operation == operation)

    def running(self, operation: str) -> int:
        """How often an operation is in progress."""
        return sum(each.operation == operation for each in self.in_progress)


class Looking(Protocol):
    """Looks at a store, again and again."""

    operations: Tuple[str, ...]
    is_quick: bool
    """Whether to look whether something has changed costs little."""

    def stamp(self) -> object:
        """What is the same as long as nothing is begun, finished or waited for."""

    def report(self) -> Report:
        """What can happen next. Raises `StoreError`."""

    def process_of(self, worker: int) -> Optional[str]:
        """What the store knows of a worker's process. Raises `StoreError`."""

    def text_from(self, place: int) -> str:
        """The lines of the journal behind so many. Raises `StoreError`."""

    def state(self) -> State:
        """How the store is now. Raises `StoreError`."""


class Onlooker:
    """The same, as one of its workers."""

    def __init__(self, paths: StoredPaths) -> None:
        self._paths = paths
        self._who_waits = Asked(b"who_waits", WAITING)
        self.operations = paths.operations
        self.is_quick = not isinstance(paths, ServedPaths)

    def stamp(self) -> object:
        paths = self._paths
        if isinstance(paths, ServedPaths):
            return paths.served.lines()
        return paths._file.stamp()

    def report(self) -> Report:
        return self._paths.report()

    def process_of(self, worker: int) -> Optional[str]:
        return self._paths._store.process_of(worker)

    def text_from(self, place: int) -> str:
        if isinstance(self._paths, ServedPaths):
            return "".join(self._paths.served.texts_from(place))
        return "".join(self._paths.journal().splitlines(True)[place:])

    def state(self) -> State:
        paths = self._paths
        report = paths.report()
        beside = None if isinstance(paths, ServedPaths) else paths._file.path + ".shared"
        return State(report, in_progress_of(report, paths._store.process_of, beside), tuple(self._waiting()))

    def _waiting(self) -> List[Waiting]:
        paths = self._paths
        names = {paths._number(name): name for name in paths.operations}
        if isinstance(paths, ServedPaths):
            log = paths.served.log
            rows = paths.served.ask(lambda: self._rows(log))
            known = [row for row in rows if row[0] in names]
            return [Waiting(names[op], many, who, process_at(name, None)._replace(since=since)) for op, who, many, since, name in known]
        counts = paths.waiting()
        return [Waiting(name, counts[name]) for name in paths.operations if name in counts]


    def _rows(self, log: Log) -> List[Tuple[int, int, int, int, str]]:
        """At the desk: the operation, the worker, how many wait there, since when the first does, and the worker's process, of all that
        wait and are alive, in order."""
        rows = self._who_waits.rows(log, log.calls.log)
        dead = log.dead.among(sorted({int(row[1]) for row in rows}))
        told = [(int(op), int(who), int(many), int(since), (name or b"").decode("utf-8", "replace")) for op, who, many, since, name in rows]
        return [row for row in told if row[1] not in dead]


def in_progress_of(report: Report, process_of: Callable[[int], Optional[str]], beside: Optional[str]) -> Tuple[InProgress, ...]:
    """What a report says that is in progress, with the processes. The second tells what the store knows of a worker's, and the last is the
    file beside the journal of one that has it."""
    lost = {each.activation for each in report.lost}
    workers = dict.fromkeys(int(each.worker.split()[-1]) for each in report.live)
    processes = {worker: process_at(process_of(worker), beside) for worker in workers}
    found = []
    for each in report.live:
        worker = int(each.worker.split()[-1])
        found.append(InProgress(each.activation, each.operation, worker, each.activation in lost, processes[worker]))
    return tuple(found)


def lines_of(report: Report, process_of: Callable[[int], Optional[str]]) -> str:
    """The report, with a line for each operation that a dead worker has in progress, and for each worker whose process is known."""
    told = ["lost {} {} {}\n".format(each.activation, each.worker.split()[-1], each.operation) for each in report.lost]
    for worker in dict.fromkeys(int(each.worker.split()[-1]) for each in report.live):
        process = process_of(worker)
        if process:
            told.append("process {} {}\n".format(worker, process))
    return report.text + "".join(told)


def json_of(state: State, operations: Sequence[str]) -> str:
    """The state as one line of JSON. docs/shared.md says what stands in it."""
    return json.dumps(fields_of(state, operations)) + "\n"


def fields_of(state: State, operations: Sequence[str]) -> Dict[str, Any]:
    """What stands in that."""
    in_progress = [
        {"activation": each.activation, "operation": each.operation, "worker": each.worker, "lost": each.is_lost, **_told(each.process)}
        for each in state.in_progress
    ]
    waiting = [{"operation": each.operation, "count": each.many, "worker": each.worker, **_told(each.process)} for each in state.waiting]
    counts = {
        "in_progress": len(in_progress),
        "lost": sum(each.is_lost for each in state.in_progress),
        "waiting": sum(each.many for each in state.waiting),
    }
    return {
        "form": FORM,
        "frozen": state.report.frozen,
        "counts": counts,
        "operations": [_operation(state, name) for name in operations],
        "in_progress": in_progress,
        "waiting": waiting,
    }


def _operation(state: State, name: str) -> Dict[str, Any]:
    path = state.report.blocked.get(name)
    counts = {"in_progress": state.running(name), "waiting": state.waiting_for(name)}
    return {"operation": name, "can_start": path is None, "blocked_by": path, **counts}


def _told(process: Process) -> Dict[str, Any]:
    return {
        "since": None if process.since is None else time.strftime("%Y-%m-%dT%H:%M:%SZ", time.gmtime(process.since)),
        "pid": process.pid,
        "host": process.host,
        "command": process.command,
    }


def table_of(state: State, operations: Sequence[str], store: str) -> List[str]:
    """The state as lines for people: of the operations, of what is in progress, and of who waits where that is known."""
    counts = "{} in progress, {} waiting".format(len(state.in_progress), sum(each.many for each in state.waiting))
    lines = ["{}, {}: {}{}".format(store, time.strftime("%H:%M:%S"), counts, ", frozen" if state.report.frozen else ""), ""]
    rows = [["OPERATION", "RUNS", "WAITS", "CAN START"]]
    for name in operations:
        path = state.report.blocked.get(name)
        can_start = "yes" if path is None else "no: path {}".format(path)
        rows.append([name, str(state.running(name)), str(state.waiting_for(name)), can_start])
    lines += _aligned(rows)
    who = [["IN PROGRESS", "WORKER", *_HEADS]]
    for each in state.in_progress:
        who.append([each.operation, "{}{}".format(each.worker, ", dead" if each.is_lost else ""), *_cells(each.process)])
    waits = [["WAITS FOR", "WORKER", *_HEADS]]
    waits += [[each.operation, str(each.worker), *_cells(each.process)] for each in state.waiting if each.worker is not None]
    for rows in (who, waits):
        if len(rows) > 1:
            lines += [""] + _aligned(rows)
    return lines


_HEADS = ["SINCE", "PID", "HOST", "COMMAND"]


def _cells(process: Process) -> List[str]:
    since = "" if process.since is None else time.strftime("%d %H:%M:%S", time.localtime(process.since))
    return [since, str(process.pid or ""), process.host or "", process.command or ""]


def _aligned(rows: List[List[str]]) -> List[str]:
    """Rows as lines, in columns."""
    widths = [max(len(cell) for cell in column) for column in zip(*rows)]
    return ["  ".join(cell.ljust(width) for cell, width in zip(row, widths)).rstrip() for row in rows]
