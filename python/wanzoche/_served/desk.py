"""The desk at which one thread at a time works for a process, and how the clerk sleeps while there is nothing to do."""

from __future__ import annotations

import select
import threading
import time
from typing import Any, Deque

from .requests import Bell, Request


class Desk:
    """Who has its lock is at the desk, and may use the session, the replica and the books. The clerk has it but while it sleeps. Any thread may
    ring, and say that the clerk is to end; finalizers and signal handlers, too."""

    def __init__(self, name: str, inbox: Deque[Request]) -> None:
        self._name, self._inbox = name, inbox
        self._bell = Bell()
        self._poller = select.epoll()
        self.lock = threading.RLock()
        self.watched = -1
        """The session's socket, for which the clerk waits."""
        self.is_asleep = False
        """Whether the clerk has left the desk, until something happens."""
        self.ends = False
        """Whether the clerk is to end."""

    def ring(self) -> None:
        """Wakes the clerk, if it sleeps."""
        self._bell.ring()

    def is_mine(self) -> bool:
        """Whether this thread is at the desk."""
        lock: Any = self.lock
        return bool(lock._is_owned())  # as threading.Condition asks of its lock

    def has_to_be_away(self) -> None:
        """Raises RuntimeError if this thread is at the desk: a signal handler that came between can't wait for it."""
        if self.is_mine():
            raise RuntimeError("this thread is using the log {} already: what interrupts it has to do without".format(self._name))

    # Of the clerk

    def sleep(self, fd: int, ends: float) -> bool:
        """Until a request comes, the bell is rung, something comes from the session with this socket, or at the latest until then. Meanwhile the
        desk is free. Whether something has come from the session."""
        if fd != self.watched:
            self._watch(fd)
        seconds = max(ends - time.monotonic(), 0) if ends < float("inf") else None
        self.is_asleep = True
        self.lock.release()
        ready = [] if self._inbox else self._poller.poll(seconds)
        self.is_asleep = False
        self.lock.acquire()
        found = {each for each, _ in ready}
        if found - {fd}:
            self._bell.silence()
        return fd in found

    def nap(self, seconds: float) -> None:
        """So long, or until the bell is rung. The desk isn't free meanwhile."""
        poll = select.poll()
        poll.register(self._bell.rung, select.POLLIN)
        self.is_asleep = True
        if not self._inbox and poll.poll(seconds * 1000):
            self._bell.silence()
            time.sleep(min(seconds, 0.01))
        self.is_asleep = False

    def _watch(self, fd: int) -> None:
        """For a new session. A command that was given the one before keeps its socket known to the old poller."""
        self._poller.close()
        self._poller, self.watched = select.epoll(), fd
        self._poller.register(self._bell.rung, select.EPOLLIN)
        self._poller.register(fd, select.EPOLLIN)

    def forget_session(self) -> None:
        """There is another, even if its socket has the same number."""
        self.watched = -1

    def close(self) -> None:
        """Nobody sleeps here any more."""
        self._poller.close()

    # Of others at the desk, while the clerk sleeps

    def deafen(self) -> None:
        """What comes from the session doesn't wake the clerk: somebody else reads it."""
        self._poller.modify(self.watched, 0)

    def listen(self) -> None:
        """It does so again."""
        self._poller.modify(self.watched, select.EPOLLIN)
