"""What is looked at while somebody waits, and what is asked."""

from __future__ import annotations

import random
import time
from typing import Callable, Optional

from .. import _native as native
from .._order import Told
from . import times
from .books import NEVER, Books
from .burying import Burying
from .calls import Gone, may_pass
from .connecting import Cut
from .following import Following
from .replies import Replies
from .requests import Question
from .turns import Turns


class Checks:
    """Looks for what no notification tells, and answers questions. For who is at the clerk's desk."""

    def __init__(self, books: Books, turns: Turns, following: Following, burying: Burying, replies: Replies) -> None:
        self._log, self._wanted, self._alarms = books.log, books.wanted, books.alarms
        self._turns, self._following, self._burying, self._replies = turns, following, burying, replies
        self._stop_dead_at = time.monotonic() + times.SELDOM * random.random()  # of many processes one after another
        self.waits_long: Callable[[int, int, float, Optional[Told]], None] = lambda op, caller, since, told: None
        """Called of a start that has waited for a second, for two, four and so on: since when, and for whom it is withheld."""

    def check(self) -> None:
        """Of those who wait: looks for the dead, and whether a wake has got lost."""
        has_waiters = self._wanted.has_starts()
        self._alarms.check_at = time.monotonic() + times.CHECK if has_waiters else NEVER
        self._following.follow()
        if has_waiters and time.monotonic() >= self._stop_dead_at:
            self._stop_dead_at = time.monotonic() + times.SELDOM
            self._log.dead.stop()
        self._burying.bury_dead()
        self._replies.reply_blocked()
        self._tell_waits()

    def _tell_waits(self) -> None:
        """Of each operation: who has waited longest for it, if that is a second, two, four and so on."""
        first = [queue[0] for queue in self._wanted.starts.values() if queue and queue[0].has_waited]
        for start in first:
            if time.monotonic() - start.since >= start.looks:
                start.looks *= 2
                self.waits_long(start.held._op, start.caller, start.since, self._turns.behind(start))

    def answer_questions(self) -> None:
        """When the log has been followed, and what the dead had is finished."""
        self._following.follow()
        self._burying.bury_dead()
        while self._wanted.questions:
            question = self._wanted.questions[0]
            self._answer(question)
            self._wanted.questions.remove(question)

    def _answer(self, question: Question) -> None:
        """Raises `Cut` and `Gone`, and what may pass: then it is asked again."""
        if question.is_over():
            return
        try:
            question.value = question.asks()
            question.reply(native.USED)
        except (Cut, Gone):
            raise
        except Exception as error:
            if may_pass(error):
                raise
            question.reply(native.CLOSED, error)
