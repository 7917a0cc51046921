"""A session at a PostgreSQL server: a connection by libpq, calls in pipelines, and notifications."""

from __future__ import annotations

import os
import select
import time
from typing import Any, Callable, List, NamedTuple, Optional, Sequence

from .._errors import StoreError
from .connecting import Cut, info_of, message_of, psycopg, refusal_of
from .libpq import Result, direct, tells_codes

CUT = ("08", "57P", "25P03")
"""What a server says that ends a session."""
LOOK = 0.1
"""Who waits for an answer looks after so many seconds whether the limit is another one now."""
Row = Sequence[Optional[bytes]]


class Slow(Exception):
    """The answer isn't there, and who asks waits no longer. What was called may have been done or not, or is done later; the session goes
    on, and the answer is read before the next call."""


class Complaint(Exception):
    """The server refuses a call, and has undone it."""

    def __init__(self, code: str, told: str, detail: str) -> None:
        super().__init__(told)
        self.code, self.told, self.detail = code, told, detail


class Call(NamedTuple):
    """A statement that was prepared by this name, and what it is given. `ends` a transaction, unless one was begun by a statement."""

    name: bytes
    given: Row = ()
    ends: bool = True


def array(numbers: Sequence[int]) -> bytes:
    """Numbers for a parameter that is an array."""
    return b"{%b}" % b",".join(b"%d" % number for number in numbers)


class Session:
    """One session. For one thread at a time, whoever is at the clerk's desk; but `close_here` may be called in the child of a fork, and any
    thread may set `ends_by`, and read `asked_at`."""

    def __init__(self, url: str) -> None:
        self.url = url
        self._pq, self._info = psycopg(".pq"), info_of(url)
        self._connection: Any = None
        self._calls: Any = None  # the same connection, by quicker calls where there are any
        self._poller = select.poll()
        status = self._pq.ExecStatus
        self._synced, self._failed = int(status.PIPELINE_SYNC), int(status.FATAL_ERROR)
        self._good = (int(status.TUPLES_OK), int(status.COMMAND_OK))
        self._is_in_pipeline = False
        self._is_sent = True  # whether nothing is left to be sent
        self._owed, self._owed_until = 0, float("inf")  # so many synchronizations have yet to be answered, by then
        self.number = 0
        """How often it was connected: who has told one session something tells it the next one again."""
        self.asked_at: Optional[float] = None
        """Since when an answer is waited for; None if none is."""
        self.soon = float("inf")
        """Who calls waits at most until then, or gets `Slow`. It may wait longer for the answer before."""
        self.ends_by = float("inf")
        """The session is over then if an answer is waited for. Any thread may say so, also in the midst of a call."""
        self.notices: List[bytes] = []
        """What the notifications said that have come."""

    # Connecting

    def connect(self, until: float) -> None:
        """Connects by then, and no more: `beginning.begin` does the rest. Raises `Cut`, and `StoreError` for a server that is too old."""
        pq = self._pq
        self.close()
        self.number += 1
        self._connection = connection = pq.PGconn.connect_start(self._info)
        tells_codes(pq, connection)
        polled = pq.PollingStatus.WRITING
        while polled != pq.PollingStatus.OK:
            if polled == pq.PollingStatus.FAILED or connection.status == pq.ConnStatus.BAD:
                raise self._refused()
            self._poller = select.poll()
            self._poller.register(connection.socket, select.POLLOUT if polled == pq.PollingStatus.WRITING else select.POLLIN)
            self._wait(until)
            polled = connection.connect_poll()
        connection.nonblocking = 1
        self._poller = select.poll()
        self._poller.register(connection.socket, select.POLLIN)
        if connection.server_version < 140000:
            raise StoreError("the server is PostgreSQL {}: 14 or later is needed".format(connection.server_version // 10000))
        self._calls = direct(pq, connection)

    def _refused(self) -> Cut:
        """What is raised when there is no connection."""
        refusal = refusal_of(self._connection)
        self.close()
        return refusal

    def process(self) -> int:
        """The number of the server's process that was named when this was connected."""
        return int(self._connection.backend_pid)

    def _wait(self, until: float) -> None:
        """Until something comes or can be sent. Raises `Slow` when who asks waits no longer, and `Cut` when nobody does."""
        while True:
            ends = min(until, self.ends_by)
            seconds = min(ends, self.soon) - time.monotonic()
            if self._poller.poll(min(max(seconds, 0), LOOK) * 1000):
                return
            if seconds <= 0 and self.soon < ends:
                raise Slow("the server doesn't answer")
            if seconds <= 0:
                raise self.cut("it doesn't answer")

    def cut(self, why: str) -> Cut:
        """Ends the session: what is raised then."""
        self.close()
        return Cut(why.strip() or "the connection was closed")

    def fileno(self) -> int:
        """The socket, to wait for notifications; -1 if there is none."""
        try:
            return int(self._connection.socket) if self._connection is not None else -1
        except Exception:
            return -1

    def close(self) -> None:
        """Ends the session."""
        connection, self._calls, self._connection, self._is_in_pipeline = self._connection, None, None, False
        self._owed, self._is_sent, self.asked_at = 0, True, None
        self.notices.clear()
        if connection is not None:
            connection.finish()

    def close_here(self) -> None:
        """In the child of a fork: leaves the session to the parent."""
        fd = self.fileno()
        if fd >= 0:
            os.close(fd)

    # Calling

    def run(self, script: str, until: float) -> List[List[Row]]:
        """The rows of the last statement of a script. Only before anything is prepared. Raises Cut and Complaint."""
        self.asked_at = time.monotonic()
        self._tell(lambda: self._connection.send_query(script.encode()))
        return self._answers(until)

    def prepare(self, statements: "dict[bytes, str]", until: float) -> None:
        """Prepares statements by their names. Raises Cut and Complaint."""
        self._tell(lambda: self._send_statements(statements))
        self._owed, self.asked_at = 1, time.monotonic()
        self._answers(until)

    def _send_statements(self, statements: "dict[bytes, str]") -> None:
        connection = self._connection
        connection.enter_pipeline_mode()
        self._is_in_pipeline = True
        for name, text in statements.items():
            connection.send_prepare(name, text.encode())
        connection.pipeline_sync()

    def _tell(self, send: Callable[[], Any]) -> None:
        """Sends something. Raises Cut if the session has ended."""
        try:
            send()
        except Exception as error:
            raise self.cut(str(error)) from error

    def call(self, calls: Sequence[Call], until: float) -> List[List[Row]]:
        """The rows of each call, in one round trip. Raises `Cut`, `Slow`, and `Complaint` when the answers of all are read."""
        self._send(calls, until)
        return self._answers(until)

    def call_beside(self, calls: Sequence[Call], until: float, meanwhile: Callable[[], Any]) -> List[List[Row]]:
        """The same, and something else between question and answer. If that raises, the session is over."""
        self._send(calls, until)
        try:
            self._flush()
            meanwhile()
        except BaseException:
            self.close()
            raise
        return self._answers(until)

    def _send(self, calls: Sequence[Call], until: float) -> None:
        """Sends calls, behind the answer of who waited no longer for his."""
        if self._owed:
            self._skip_answers()
        connection = self._calls
        if connection is None or self._connection.pgconn_ptr is None:
            raise self.cut("the connection was closed")
        try:
            self.asked_at, self._owed_until = time.monotonic(), until
            self._owed = _send_to(connection, calls)
        except Exception as error:
            raise self.cut(str(error)) from error

    def _skip_answers(self) -> None:
        """Reads what is owed to who asks no more."""
        try:
            self._answers(self._owed_until)
        except Complaint:
            pass

    def _answers(self, until: float) -> List[List[Row]]:
        """What comes until all synchronizations that are owed, or until the end of a script."""
        try:
            return self._read(until)
        except (Cut, Complaint, Slow):
            raise
        except Exception as error:
            raise self.cut(str(error)) from error

    def _read(self, until: float) -> List[List[Row]]:
        found: List[List[Row]] = []
        complaint: Optional[Complaint] = None
        self._flush()
        while True:
            result = self._next(until)
            if result is None:
                if not self._is_in_pipeline:
                    break
                continue
            status = int(result.status)
            if status == self._synced:
                self._owed -= 1
                if not self._owed:
                    break
            elif status == self._failed:
                complaint = complaint or self._complaint(result)
            elif status in self._good:
                found.append(_rows(result))
        self.asked_at = None
        self._take_notices()
        if complaint is not None:
            raise complaint
        return found

    def _next(self, until: float) -> Any:
        """The next result, when it is there."""
        connection = self._calls
        while connection.is_busy():
            self._wait(until)
            connection.consume_input()
            if not self._is_sent:
                self._flush()
        return connection.get_result()

    def _flush(self) -> None:
        """Sends what can be sent now. `_wait` ends, too, when there is room for the rest."""
        is_sent = not self._calls.flush()
        if is_sent != self._is_sent:
            self._is_sent = is_sent
            self._poller.modify(self._connection.socket, select.POLLIN if is_sent else select.POLLIN | select.POLLOUT)

    def _complaint(self, result: Any) -> Complaint:
        """What a result says that is an error. Raises Cut if it ends the session."""
        field = self._pq.DiagnosticField
        code = (result.error_field(field.SQLSTATE) or b"").decode()
        told = (result.error_field(field.MESSAGE_PRIMARY) or result.error_message or b"").decode("utf-8", "replace")
        if not code or code.startswith(CUT):
            raise self.cut(told)
        return Complaint(code, told, (result.error_field(field.MESSAGE_DETAIL) or b"").decode("utf-8", "replace"))

    def look(self) -> None:
        """Reads what has come without a call: notifications, or the session's end. Raises Cut."""
        connection = self._calls
        if connection is None:
            return
        if self._connection.pgconn_ptr is None:
            raise self.cut("the connection was closed")
        try:
            connection.consume_input()
            if self._connection.status == self._pq.ConnStatus.BAD:
                raise self.cut(message_of(self._connection))
            if not self._owed:
                self._read_unasked(connection)
        except Cut:
            raise
        except Exception as error:
            raise self.cut(str(error)) from error
        self._take_notices()

    def _read_unasked(self, connection: Any) -> None:
        """What the server has said of itself. Raises Cut if that is an error."""
        while not connection.is_busy():
            result = connection.get_result()
            if result is None:
                break
            if result.status == self._pq.ExecStatus.FATAL_ERROR:
                raise self.cut(result.error_message.decode("utf-8", "replace"))

    def _take_notices(self) -> None:
        notice = self._calls.notifies()
        while notice is not None:
            self.notices.append(bytes(notice.extra))
            notice = self._calls.notifies()


def _send_to(connection: Any, calls: Sequence[Call]) -> int:
    """Sends calls: how many synchronizations will be answered."""
    syncs = 0
    for each in calls:
        connection.send_query_prepared(each.name, each.given)
        if each.ends:
            connection.pipeline_sync()
            syncs += 1
    return syncs


def _rows(result: Any) -> List[Row]:
    if isinstance(result, Result):
        return result.rows()
    columns = range(result.nfields)
    return [[result.get_value(row, column) for column in columns] for row in range(result.ntuples)]
