"""What the command `wanzoche` asks a server beside what paths ask it."""

from __future__ import annotations

import time
from typing import Any, List

from .log import Log
from .session import Call

ANSWER = 10.0
"""So many seconds the server has to learn a question."""


class Asked:
    """A question, which each session learns once."""

    def __init__(self, name: bytes, text: str) -> None:
        self._name, self._text = name, text
        self._known_to = 0  # the session's number

    def rows(self, log: Log, *given: bytes) -> List[Any]:
        """At the desk of a log: the rows of the answer. Raises what a call of the log does."""
        session = log.session
        if self._known_to != session.number:
            session.prepare({self._name: self._text}, time.monotonic() + ANSWER)
            self._known_to = session.number
        return log.calls.call(Call(self._name, given))[0]
