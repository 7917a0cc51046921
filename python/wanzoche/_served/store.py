"""One opening of a log for those who call it, from threads: they wait for what the clerk replies."""

from __future__ import annotations

import copy
import threading
import time
from typing import TYPE_CHECKING, Any, Callable, Dict, List, Optional, Tuple, TypeVar, cast

from .. import _native as native
from .._errors import Lost, StoreError
from .._held import Begun
from .._texts import read_declaration
from . import times
from .calls import may_pass
from .clerk import Clerk
from .connecting import Cut, Denied
from .log import Given, Log
from .requests import Finish, Question, Request, Start, Use, wake_nobody

if TYPE_CHECKING:
    from .begun import ServedBegun

T = TypeVar("T")
_LOST = "activation {} was finished by others, which took this process for dead"


class ServedStore:
    """One opening of a log. Its clerk does the work, in its thread or in a caller's; here callers wait for their replies. Any thread may call
    it."""

    room = 65536
    sync = False
    """Nobody has to wait for the disk behind an answer: the clerk gives it when the line is there, if it is to be."""
    operations: Tuple[str, ...] = ()

    def __init__(
        self,
        url: str,
        source: bytes,
        handle: native.Handle,
        *,
        name: str,
        sync: bool,
        given: Given,
        may_finish: bool,
        only_looks: bool,
        outage: float,
        patience: float,
    ) -> None:
        """With `may_finish` it finishes what the dead have in progress if the log says so. One that `only_looks` begins nothing. Who waits
        here may be passed for so many seconds, the `patience`."""
        self.log = Log(url, name, source, handle, sync=sync, given=given, only_looks=only_looks, patience=patience)
        """For who is at the clerk's desk."""
        self._may_finish, self._outage = may_finish, outage
        self.is_closed = False
        """Whether these paths were closed."""
        self.clerk: Clerk

    def open(self) -> native.Answer:
        """Opens the log, or makes it. The answer is `OPENED`, or why the text isn't a declaration. Raises `StoreError`."""
        answer = self.log.replica.open()
        if answer.code != native.OPENED:
            return answer
        try:
            self._connect()
        except BaseException:
            self.log.session.close()
            self.log.replica.close()
            raise
        numbers, paths = read_declaration(self.log.replica.declaration())
        finishes_lost = self._may_finish and self.log.settings.lost == "finish"
        self.clerk = Clerk(self.log, paths, numbers, finishes_lost, self._outage)
        self.clerk.thread.start()
        return answer

    def _connect(self) -> None:
        until = time.monotonic() + times.OPENING
        while True:
            try:
                self.log.open(until)
                return
            except Denied as error:
                raise StoreError("the log {}: there is no session: {}".format(self.log.name, error)) from error
            except Cut as error:
                if time.monotonic() >= until - 0.1:
                    raise self.log.calls.silent(error) from error
            except StoreError as error:
                if not (may_pass(error) or self.log.is_removed) or time.monotonic() >= until - 0.1:
                    raise
            self.log.known.forget()
            time.sleep(0.1)

    @property
    def worker(self) -> int:
        """The number of this worker. It is another one after a session that was taken for dead."""
        return self.log.worker

    # Calls of threads

    def start(self, begun: "ServedBegun", worker: int, until: Optional[float]) -> int:
        """Starts an operation when it is admitted, or at the latest by then: the answer's code. Without a time it waits; with one that is
        over it doesn't."""
        asleep = threading.Lock()
        asleep.acquire()
        start = begun.new_attempt(worker, asleep.release, until)
        try:
            self.clerk.do(start)
            self.clerk.wait_here(start, until)
            if start.waits and until is not None:
                self._sleep(start, asleep, until)
                if not start.is_over():
                    self.late(start)
            self._sleep(start, asleep)
        except BaseException:
            self.give_up(begun)
            raise
        finally:
            begun.note_wait(start)
        return self.code_of(start)

    def _sleep(self, request: Request, asleep: Any, until: float = float("inf")) -> None:
        """Waits for the reply, at the longest until then. Who has waited as long as he may for the server replies himself."""
        while not request.is_over():
            now, ends = time.monotonic(), self.clerk.trouble.ends_at(request)
            if now >= until or now >= ends and self.clerk.trouble.give_up(request):
                return
            asleep.acquire(True, min(max(min(ends, until) - now, 0.001), threading.TIMEOUT_MAX))

    def late(self, start: Start) -> None:
        """Its time is over: it gets its reply soon."""
        start.is_late = True
        self.clerk.desk.ring()

    def give_up(self, begun: "ServedBegun") -> None:
        """After an exception: what was begun isn't in progress."""
        start = begun.attempt
        if start is not None:
            start.is_unwanted = True
            self.clerk.desk.ring()
            if start.code == native.STARTED:
                self.drop(begun)

    def _wait_for(self, make: Callable[[Callable[[], None]], Request], until: Optional[float] = None) -> int:
        """Makes a request, and waits for the reply, at the longest until then: the answer's code."""
        asleep = threading.Lock()
        asleep.acquire()
        request = make(asleep.release)
        request.until = until
        self.clerk.do(request)
        self._sleep(request, asleep)
        return self.code_of(request)

    def code_of(self, request: Request) -> int:
        """The reply. Raises what went wrong."""
        if request.error is not None:
            raise copy.copy(request.error) from request.error.__cause__
        assert request.code is not None
        return request.code

    def finish(self, begun: Begun) -> Tuple[int, int]:
        """Finishes an operation: the answer's code, and 0. Raises `Lost` if others have finished it."""
        return self.finished(begun, self._wait_for(lambda wake: Finish(wake, begun))), 0

    def finished(self, begun: Begun, code: int) -> int:
        """What the clerk has replied to a finish. Raises `Lost`."""
        if code == native.NOT_YOURS:
            raise Lost(_LOST.format(begun._number))
        return code

    def drop(self, begun: Begun) -> None:
        """Finishes an operation that nobody holds any more. Doesn't wait for it."""
        self.clerk.submit(Finish(wake_nobody, begun))

    def use(self, begun: Begun, verb: int, number: int) -> native.Answer:
        """Uses the device of the operation's resource: its answer. Raises `Lost`."""
        made: List[Use] = []

        def make(wake: Callable[[], None]) -> Request:
            made.append(Use(wake, begun, verb, number))
            return made[0]

        code = self._wait_for(make)
        if code == native.STALE:
            raise Lost(_LOST.format(begun._number))
        return native.Answer(code, made[0].number)

    def ask(self, asks: Callable[[], T], until: Optional[float] = None) -> T:
        """What a question gives at the desk, when the log has been followed. Raises `StoreError` if it isn't known then."""
        made: List[Question] = []

        def make(wake: Callable[[], None]) -> Request:
            made.append(Question(wake, asks))
            return made[0]

        self._wait_for(make, until)
        return cast(T, made[0].value)

    def recover(self, worker: int, even_alive: bool) -> int:
        """Finishes what a worker has in progress: how much that was. Raises ValueError if it is alive."""
        return self.ask(lambda: self._recover(worker, even_alive))

    def _recover(self, worker: int, even_alive: bool) -> int:
        log = self.log
        if not even_alive and (worker == log.worker or worker not in log.dead.among([worker])):
            raise ValueError("process {} is alive".format(worker))
        found = [each for each in log.replica.live() if each.worker == worker]
        if found and not self.clerk.burying.bury(worker, found, even_alive):
            raise ValueError("process {} is alive".format(worker))
        log.known.follow()
        return len(found)

    @property
    def held(self) -> Dict[int, Any]:
        """What this process has in progress, by its numbers."""
        return self.clerk.holding.held

    def process_of(self, worker: int) -> Optional[str]:
        """The process of a worker, and its machine; None if that isn't known."""
        return self.ask(lambda: self.log.process_of(worker))

    def lost(self) -> List[native.Activation]:
        """At the desk: what dead workers have in progress."""
        return self.clerk.burying.lost()

    def lines(self) -> int:
        """How many lines the log has."""
        return self.ask(lambda: self.log.replica.lines)

    def texts(self) -> List[str]:
        """All lines of the log so far, in parts."""
        return self.texts_from(0)

    def texts_from(self, place: int) -> List[str]:
        """The lines from there on, in parts."""
        return self.ask(lambda: [part.decode("ascii", "backslashreplace") for part in self.log.texts.parts(place)])

    def rotate(self) -> None:
        """Moves all lines but the last into segments. Raises `StoreError` if that can't be done now."""
        self.ask(lambda: self.log.segments.rotate_all(self.log.known.place))

    def presence(self) -> List[int]:
        """The file descriptors that tell others that this worker is alive, as long as a process has them."""
        fd = self.log.session.fileno()
        return [fd] if fd >= 0 else []

    # For the end

    def is_ahead_of_disk(self, end: int) -> bool:
        """Never: a reply comes when the line lasts."""
        return False

    def wait_for_sync(self, end: int) -> None:
        """Does nothing, likewise."""

    def close(self) -> None:
        """Finishes what this process has in progress, and ends its part. A second close does nothing. Raises `StoreError` if the server
        can't be told."""
        if self.is_closed:
            return
        self.clerk.desk.has_to_be_away()
        self.is_closed = True
        clerk, trouble = self.clerk, self.clerk.trouble
        clerk.end()
        if threading.current_thread() is not clerk.thread:
            clerk.thread.join(times.CLOSING + times.SPARE)
            if clerk.holding.held and not clerk.is_over:
                raise trouble.away or self.log.calls.silent("it can't be told that these paths are closed")
        if isinstance(trouble.fault, StoreError) and trouble.away is not None and clerk.holding.held:
            raise copy.copy(trouble.fault)

    def end(self) -> None:
        """The same, without waiting for it."""
        self.is_closed = True
        self.clerk.end()

    def abandon(self) -> None:
        """Ends its part without a word: in the child of a fork, whose paths are the parent's."""
        self.is_closed = True
        self.clerk.abandon()
