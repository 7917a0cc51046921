"""What threads and tasks want of a clerk, and how they hear of it."""

from __future__ import annotations

import itertools
import select
import socket
import time
from typing import Any, Callable, Dict, NamedTuple, Optional, Protocol, Tuple

from .wishes import Place, Starting, Wishes
from .order import LAST, Standing


_arrivals = itertools.count(1)


class Held(Protocol):
    """An operation that this process has begun, or is about to."""

    _op: int
    _name: str
    _live: bool
    _number: int
    _worker: int


class Request:
    """What somebody wants. `wake` is called when the reply is there, by who is at the clerk's desk."""

    def __init__(self, wake: Callable[[], None]) -> None:
        self.wake = wake
        self.since = time.monotonic()
        self.until: Optional[float] = None
        """When nobody waits for the reply any more, by the monotonic clock; None if only an outage ends that."""
        self.code: Optional[int] = None
        self.error: Optional[BaseException] = None
        self._claims = [True]  # who takes it out replies: that is one step of the interpreter

    def is_over(self) -> bool:
        """Whether the reply is there."""
        return self.code is not None

    def claim(self) -> bool:
        """Whether the caller is the one who replies: it then calls `tell`, and nobody else does."""
        try:
            return self._claims.pop()
        except IndexError:
            return False

    def tell(self, code: int, error: Optional[BaseException] = None) -> None:
        """The reply of who has claimed that."""
        self.error = error
        self.code = code
        try:
            self.wake()
        except RuntimeError:
            pass  # the loop of a task is closed, and the task over with it

    def reply(self, code: int, error: Optional[BaseException] = None) -> bool:
        """Only the first reply counts: whether this is it."""
        if not self.claim():
            return False
        self.tell(code, error)
        return True


class Start(Request):
    """A start. One that `waits` stays until it is admitted or withdrawn; else it is blocked when the log was looked at."""

    def __init__(self, wake: Callable[[], None], held: Held, caller: int, waits: bool, loop: Any = None, priority: int = 0) -> None:
        super().__init__(wake)
        self.held, self.caller, self.waits, self.priority = held, caller, waits, priority
        self._loop, self.release = loop, wake
        self.arrived = time.monotonic_ns()
        self.ticket = LAST + next(_arrivals)
        """Its place among those who wait with its priority, in all processes; until the server gives it one, behind all that have one."""
        self.slot: Optional[int] = None
        """Where the server knows of it, if it does."""
        self.bell: Optional[Bell] = None
        """Rung when a thread that waits for the session itself is to look whether it still does."""
        self.has_looked = False
        self.has_waited = False
        """Whether a path forbade it when the log was looked at, and it waits."""
        self.looks = 1.0
        """After so many seconds of waiting it is told of in the program's log."""
        self.is_late = False
        """Its time is over: it is blocked if it isn't started by now."""
        self.told: Any = None
        """What forbade it then, as far as was known."""
        self.is_unwanted = False
        """Nobody waits for it any more: it is finished if it is started."""

    def standing(self, worker: int, patience: int) -> Standing:
        """Its place in the order, as one of this worker."""
        return Standing(self.held._op, self.priority, self.ticket, self.arrived, patience, worker, self.caller)

    def key(self) -> Tuple[int, int]:
        """Who stands before another has a lower one."""
        return -self.priority, self.ticket

    def is_waiting(self) -> bool:
        """Whether others stand behind it."""
        return self.waits and self.is_wanted()

    def is_wanted(self) -> bool:
        """Whether it may still come to a start: a task may not whose loop is closed."""
        return not (self.is_unwanted or self.is_over() or (self._loop is not None and self._loop.is_closed()))

    def is_ready(self) -> bool:
        """Whether somebody is there to go on with it. The task of a loop that has been stopped isn't."""
        return self._loop is None or bool(self._loop.is_running())


class Use(Request):
    """A use of a device: the number of its answer is `number` then."""

    def __init__(self, wake: Callable[[], None], held: Held, verb: int, number: int) -> None:
        super().__init__(wake)
        self.held, self.verb, self.number = held, verb, number
        self.has_looked = False


class Finish(Request):
    """A finish. One that nobody waits for has no wake."""

    def __init__(self, wake: Callable[[], None], held: Held) -> None:
        super().__init__(wake)
        self.held = held


class Question(Request):
    """Something that is found out when the log has been followed: `value` is what it gives."""

    def __init__(self, wake: Callable[[], None], asks: Callable[[], Any]) -> None:
        super().__init__(wake)
        self.asks = asks
        self.value: Any = None


class Batch(NamedTuple):
    """An append that is on its way: it may be sent again until it is answered."""

    lines: Tuple[Tuple[Request, bytes], ...]
    finishes: Dict[int, Finish]
    wishes: Wishes
    before: Place
    is_stepped: bool
    starting: Optional[Starting] = None
    """What its line is, of one that is a start."""

    def text(self) -> Optional[bytes]:
        """Its lines, as one text."""
        return b"\n".join(line for _, line in self.lines) if self.lines else None

    def with_number(self, number: int) -> Batch:
        """The same, of one start, which has begun this activation."""
        request, line = self.lines[0]
        return self._replace(lines=((request, line[: line.rindex(b" ") + 1] + b"%d" % number),))


class Bell:
    """Wakes a thread that polls. To ring it takes no lock."""

    def __init__(self) -> None:
        self._ringing, self.rung = socket.socketpair()
        self._ringing.setblocking(False)
        self.rung.setblocking(False)

    def ring(self) -> None:
        """Wakes it."""
        try:
            self._ringing.send(b"\0")
        except OSError:
            pass  # it has been rung often enough

    def wait(self, fd: int, seconds: Optional[float]) -> None:
        """Until it is rung or something comes at a socket, or so many seconds."""
        poll = select.poll()
        poll.register(self.rung, select.POLLIN)
        poll.register(fd, select.POLLIN)
        for each, _ in poll.poll(None if seconds is None else max(seconds, 0) * 1000):
            if each != fd:
                self.silence()

    def silence(self) -> None:
        """Until it is rung again."""
        try:
            self.rung.recv(4096)
        except OSError:
            pass

    def __del__(self) -> None:
        self._ringing.close()
        self.rung.close()


class Nobody:
    """Stands for an operation that nobody holds."""

    _op, _name, _worker = 0, "", 0

    def __init__(self, number: int) -> None:
        self._number, self._live = number, True


def wake_nobody() -> None:
    """Wakes nobody."""
