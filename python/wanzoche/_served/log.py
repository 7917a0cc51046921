"""A log in PostgreSQL, as one process has it open: how it is opened and left, and the parts by which it is read and written."""

from __future__ import annotations

import os
import socket
import time
from typing import NamedTuple, Optional

from .. import _native as native
from .._errors import OtherDeclaration, StoreError
from .._replica import Replica
from .._store import difference
from . import beginning, times
from .appends import Appends
from .calls import LogCalls
from .dead import Dead
from .known import Known
from .schema import check_schema, make_schema
from .segments import Segments
from .session import Call, Complaint, Row
from .statements import STATEMENTS
from .texts import Texts
from .waits import Waits


class Settings(NamedTuple):
    """What all that open a log keep to. The first writes it."""

    lost: str = "finish"
    """What becomes of what the dead have in progress."""
    grace: float = 5.0
    """So many seconds a process may be without a session."""
    room: int = 16384
    """So many lines go into a segment."""


class Given(NamedTuple):
    """What one gives who opens a log; None of what it leaves to the log."""

    lost: Optional[str] = None
    grace: Optional[float] = None
    room: Optional[int] = None


class Log:
    """What one opening has of it. For who opens it, and then for who is at the clerk's desk."""

    def __init__(
        self,
        url: str,
        name: str,
        source: bytes,
        handle: native.Handle,
        *,
        sync: bool,
        given: Given,
        only_looks: bool = False,
        patience: float = 0.0,
    ) -> None:
        """One that only looks is no worker, and writes nothing: that takes no right but to read. For so many seconds, the patience, those who
        wait here may be passed."""
        self.name = name
        self.only_looks = only_looks
        self.settings = Settings()
        self.is_removed = False
        """Whether there is no such log any more."""
        self._given = given
        self.calls = LogCalls(url, name, sync)
        self.session = self.calls.session
        self.replica = Replica(source, handle)
        self.segments = Segments(self.calls, not only_looks)
        self.known = Known(self.calls, self.segments, self.replica)
        self.texts = Texts(self.calls, self.segments)
        self.waits = Waits(self.calls, self.known, self.replica, patience)
        self.appends = Appends(self.calls, self.known, self.replica, self.waits, self.texts)
        self.dead = Dead(self.calls, self.known, self.replica, only_looks)

    @property
    def worker(self) -> int:
        """The number of this worker."""
        return self.calls.worker

    # Sessions

    def open(self, until: float) -> None:
        """Opens the log, or makes it, and reads it all. The replica is open. Each answer that isn't there by then has as many seconds as
        there are now. Raises `Cut`, `StoreError` and `OtherDeclaration`."""
        self.calls.answer = max(until - time.monotonic(), 0.0)
        try:
            self._open(until)
        finally:
            self.calls.answer = times.ANSWER

    def _open(self, until: float) -> None:
        declaration, self.is_removed = self.replica.declaration(), False
        beginning.begin(self.session, until)
        if self.only_looks:
            check_schema(self.session, until)
        else:
            make_schema(self.session, until)
        self._prepare(until)
        number, found, *settings = self._look_up() if self.only_looks else self._open_or_make(declaration)
        assert number is not None and found is not None
        told = difference(found.decode(), declaration)
        if told:
            raise OtherDeclaration("the log {} is of another declaration: {}".format(self.name, told))
        self.calls.log = number
        self._keep_to(settings)
        if not self.only_looks:
            self._arrive()
        self.known.follow()
        if not self.only_looks:
            self.dead.sweep()

    def _look_up(self) -> Row:
        """What there is of the log. Raises `StoreError` if there is no such log."""
        rows = self.calls.call(Call(b"look", (self.name.encode(),)))[0]
        if not rows:
            raise StoreError("there is no log {}".format(self.name))
        return rows[0]

    def _open_or_make(self, declaration: str) -> Row:
        """The same of a log that is made if there is none."""
        wanted = [str(each).encode() for each in self._wanted()]
        return self.calls.call(Call(b"open", (self.name.encode(), declaration.encode(), *wanted)))[0][0]

    def _wanted(self) -> Settings:
        """What is written if nobody has opened the log yet."""
        return Settings()._replace(**{name: given for name, given in self._given._asdict().items() if given is not None})

    def _keep_to(self, settings: Row) -> None:
        """Knows what the log has. Raises `StoreError` if this process was given something else."""
        lost, grace, room = settings
        if lost is not None and grace is not None and room is not None:  # else somebody looks at a log that nobody has opened yet
            self.settings = Settings(lost.decode(), float(grace), int(room))
        for name, given, own in zip(Given._fields, self._given, self.settings):
            if given is not None and given != own:
                told = "the log {} was made with {}={!r}, and not with {}={!r}: give the same, or nothing"
                raise StoreError(told.format(self.name, name, own, name, given))
        self.segments.room = self.settings.room
        self.segments.know(0)
        self.calls.grace = b"%f seconds" % self.settings.grace

    def come_back(self, until: float) -> bool:
        """Begins another session, after one was cut: False if the worker was taken for dead meanwhile. Then this is a new one."""
        beginning.begin(self.session, until)
        self._prepare(until)
        if self.only_looks:
            return True
        ((is_held,),) = self.calls.call(Call(b"hold", (self.calls.log, self.calls.own())))[0]
        if is_held != b"t":
            self._arrive()
        return is_held == b"t"

    def _prepare(self, until: float) -> None:
        self.waits.begin()
        try:
            found = self.session.run("show synchronous_commit; " + beginning.HEARTBEAT + "; set synchronous_commit = off", until)
            self.calls.commits = found[0][0][0] or b"on"
            self.session.prepare(STATEMENTS, until)
        except Complaint as error:
            raise self.calls.refused(error) from error

    def _arrive(self) -> None:
        process = "{} {}".format(os.getpid(), socket.gethostname())
        ((number,),) = self.calls.call(Call(b"arrive", (self.calls.log, process.encode(), self.calls.grace)))[0]
        if number is None:
            self.is_removed = True
            raise StoreError("the log {} was removed".format(self.name))
        self.calls.worker = int(number)

    def process_of(self, worker: int) -> Optional[str]:
        """The process of a worker, and its machine; None if that isn't known."""
        rows = self.calls.call(Call(b"process", (self.calls.log, b"%d" % worker)))[0]
        return " ".join(rows[0][0].decode("utf-8", "replace").split()) if rows and rows[0][0] else None

    def leave(self) -> None:
        """The worker ends."""
        if not self.only_looks:
            self.calls.call(Call(b"leave", (self.calls.log, self.calls.own())))
