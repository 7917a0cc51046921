"""What is wrong between a process and its server, and how long one waits for that to pass."""

from __future__ import annotations

import random
import time
from typing import Optional

from .. import _native as native
from . import times
from .calls import LogCalls
from .requests import Request
from .session import Slow


class Outage:
    """Failures, one behind another: since when, and how long to wait now."""

    def __init__(self) -> None:
        self.begun = time.monotonic()
        self.error: Optional[Exception] = None
        """What the server has refused."""
        self._pause = times.PAUSE

    def pause(self) -> float:
        """So many seconds; the next time it is longer."""
        seconds, self._pause = self._pause * (0.5 + random.random()), min(2 * self._pause, times.LONGEST_PAUSE)
        return seconds


class Trouble:
    """What has yet to be set right. Who is at the clerk's desk says so; any thread may ask, and takes no lock for that."""

    def __init__(self, calls: LogCalls, longest_outage: float) -> None:
        self._calls = calls
        self.longest_outage = longest_outage
        """So many seconds a call waits for an answer of the server, if it has no limit of its own."""
        self.fault: Optional[BaseException] = None
        """What ends the clerk."""
        self.refusal: Optional[Exception] = None
        """What the server has refused, until it is known what became of what was on its way."""
        self.is_unsure = False
        """Whether something was given up that may have been done, so that the log is read anew."""
        self.away: Optional[Exception] = None
        """Why the server can't be reached, or what it refuses; None while all is well."""
        self.away_since: Optional[float] = None
        """Since when there is no session."""
        self.outage: Optional[Outage] = None
        """Of refusals, since an append or all that was to be done has succeeded."""

    def is_there(self) -> bool:
        """Whether there is any that the clerk has to set right before anything else is done."""
        return self.is_unsure or self.refusal is not None or self.fault is not None

    def ends_at(self, request: Request) -> float:
        """By the monotonic clock, when nobody waits any longer for a reply: at the request's own limit, or when the server has been silent
        for as long as an outage may last. While it isn't silent, that is when to ask again."""
        asked_at = self._calls.session.asked_at
        silent = asked_at if self.away_since is None else self.away_since
        ends = time.monotonic() if silent is None else max(request.since, silent)
        return min(ends + self.longest_outage, float("inf") if request.until is None else request.until)

    def give_up(self, request: Request) -> bool:
        """Replies that the server doesn't answer. False if there is another reply, or will be in a moment."""
        return request.reply(native.CLOSED, self.away or self._calls.silent(Slow()))
