"""What may be appended for those who want something: lines that the replica says are owed, and what goes along with them."""

from __future__ import annotations

import time
from collections import deque
from typing import Callable, Dict, List, Optional, Sequence, Set, Tuple

from .. import _native as native
from . import times
from .books import Books
from .requests import Batch, Finish, Nobody, Request, Start, Use, wake_nobody
from .session import array
from .turns import Turns
from .wishes import Starting, Wait, Wishes

TOGETHER = 64
"""At most so many lines go in one append."""
FEW = 64
"""Of more that is in progress it isn't told what shares a path with a start, so that start goes behind no line that isn't read."""

Lines = List[Tuple[Request, bytes]]
_VERBS = {native.PUT: b"put %d", native.TAKE: b"take", native.LOOK: b"look", native.ADD: b"add %d"}


class Drafts:
    """Drafts appends, and replies to those who are refused meanwhile. For who is at the clerk's desk."""

    def __init__(self, books: Books, turns: Turns) -> None:
        self._log, self._replica, self._line = books.log, books.log.replica, books.log.waits.line
        self._operations, self._wanted, self._holding, self._slots = books.operations, books.wanted, books.holding, books.slots
        self._alarms, self._turns = books.alarms, turns
        self._alone: Set[int] = set()  # the operations of which two were never admitted at once

    # One append

    def only(self, request: Request) -> Optional[Batch]:
        """What is to be appended for this request, while nobody else wants anything; None if it isn't one line."""
        log = self._log
        if isinstance(request, Start):
            answer = self._replica.owed_start(log.worker, request.held._op)
            if answer.code == native.STARTED and self._turns.withheld_for(request) is None:
                line = self._start_line(request.held._op, answer.number)
                return Batch(((request, line),), {}, Wishes(), log.known.place, False, self._starting(request, answer.number))
        elif isinstance(request, Finish):
            held = request.held
            if held._live and self._holding.has(held) and not self._is_lost(held._number):
                wakes, self._wanted.wakes = self._operations.rivals[held._op] | self._wanted.wakes, set()
                return Batch((), {held._number: request}, Wishes((held._number,), tuple(wakes)), log.known.place, False)
        return None

    def one(self, wanted: Lines, finishes: Dict[int, Finish]) -> Optional[Batch]:
        """What is to be appended of these lines, one at most, and of these finishes. None if there is nothing, and nobody to look for."""
        first = wanted[0][0] if wanted else None
        wishes = self._wishes(finishes, [] if first is None else [first])
        looks = self._wanted.uses or any(not (each.waits or each.has_looked) for each in self._wanted.all_starts())
        if not (wanted or looks or any(wishes)):
            return None
        starting = self._starting(first, number_of(wanted[0][1])) if isinstance(first, Start) else None
        return Batch(tuple(wanted), finishes, wishes, self._log.known.place, False, starting)

    def several(self, finishes: Dict[int, Finish]) -> Optional[Batch]:
        """In a turn: the lines of all that is admitted now, which the replica has taken then. None if there is nothing to append."""
        worker, before = self._log.worker, self._log.known.place
        lines: Lines = []
        for number, finish in finishes.items():
            if self._replica.finish(worker, number):
                lines.append((finish, b"%d finish %d: finished" % (worker, number)))
        lines += self._used_now() + self._started_now()
        ops = self._holding.rivals_of(finishes) | self._wanted.wakes
        self._wanted.wakes.clear()
        begins = [request for request, _ in lines if isinstance(request, Start)]
        waits, leaves = self._waits(begins), self._leaves(begins)
        wakes = tuple(op for op in ops | self._freed(leaves, begins) if self._replica.can_start(op))
        if not (lines or leaves or waits or wakes):
            return None
        return Batch(tuple(lines), finishes, Wishes((), wakes, waits, leaves), before, True)

    # Finishes

    def finishes(self) -> Dict[int, Finish]:
        """What is to be finished: those of which the log doesn't say that they are over. Of the others it is replied."""
        found: Dict[int, Finish] = {}
        for request in self._wanted.finishes:
            held = request.held
            number = held._number
            if request.is_over():
                continue  # who wanted it was told that it wasn't done
            if not held._live or number in found:
                request.reply(native.STALE)
            elif self._holding.was_done(held):
                request.reply(native.FINISHED)
            elif not self._holding.has(held):
                held._live = False
                request.reply(native.NOT_YOURS)
            elif self._is_lost(number):
                self._holding.let_go(number)
                request.reply(native.NOT_YOURS)
            else:
                found[number] = request
        self._wanted.finishes = []
        for number in self._wanted.strays:
            if not self._is_lost(number):
                found.setdefault(number, Finish(wake_nobody, Nobody(number)))
        self._wanted.strays.clear()
        return found

    def put_back(self, finishes: Dict[int, Finish]) -> None:
        """They are wanted as before."""
        self._wanted.finishes = [each for each in finishes.values() if each.wake is not wake_nobody]
        self._wanted.strays.update(number for number, each in finishes.items() if each.wake is wake_nobody)

    def _is_lost(self, number: int) -> bool:
        """Whether the log says that others have finished an activation of this worker."""
        return not self._replica.has_live(self._log.worker, number)

    # Starts and uses

    def admissible(self) -> Lines:
        """Starts and uses that the replica would admit now, each by itself, with their lines; two at most. Replies to uses that are
        refused."""
        found: Lines = []
        for use in list(self._wanted.uses):
            line = self._use_line(use, self._replica.owed_use)
            if line is not None:
                found.append((use, line))
        for op, queue in self._wanted.in_order():
            ready = [each for each in queue if each.is_ready()]
            if ready and len(found) < 2:
                answer = self._replica.owed_start(self._log.worker, op)
                if answer.code == native.STARTED:
                    line, first = self._start_line(op, answer.number), ready[: 1 if op in self._alone else 2]
                    found += [(each, line) for each in first if self._turns.withheld_for(each) is None]
                elif answer.code != native.BLOCKED:
                    self._refuse_starts(op, answer.code)
        return found

    def note_begun(self, op: int) -> None:
        """One was admitted: if another may be, too, several are tried at once again."""
        if self._replica.can_start(op):
            self._alone.discard(op)

    def _start_line(self, op: int, number: int) -> bytes:
        return b"%d start %b: started %d" % (self._log.worker, self._operations.names[op], number)

    def _starting(self, start: Start, number: int) -> Starting:
        """What the server is told of a start that is owed now, as this activation."""
        op, known = start.held._op, self._line.known
        rivals, touches, ends = self._operations.rivals[op], None, b"{}"
        live = None if self._operations.touches[op] is None else self._replica.few_live(FEW)
        if live is not None:
            touches, ends = self._operations.touches[op], array([each.number for each in live if each.operation in rivals])
        return Starting(self._operations.names[op], number, touches, ends, tuple(rivals), known, start.priority, start.ticket)

    def _refuse_starts(self, op: int, code: int) -> None:
        """Replies to those for which there is no room."""
        for start in self._wanted.starts.pop(op, ()):
            if start.has_looked:
                start.reply(code)
            else:
                self._wanted.starts.setdefault(op, deque()).append(start)

    def _use_line(self, use: Use, call: Callable[[int, int, int, int], native.Answer]) -> Optional[bytes]:
        """The line of a use, if it is served; replies to one that is refused."""
        number, is_held = use.held._number, self._holding.has(use.held)
        answer = call(self._log.worker, number, use.verb, use.number)
        if answer.code == native.USED and is_held:
            verb = _VERBS[use.verb]
            given = verb % use.number if b"%" in verb else verb
            return b"%d use %d %b: used %d" % (self._log.worker, number, given, answer.number)
        if use.has_looked or answer.code in (native.STALE, native.NOT_YOURS) or not is_held:
            self._wanted.uses.remove(use)
            use.reply(answer.code if is_held else native.STALE)
        return None

    def _used_now(self) -> Lines:
        lines: Lines = []
        for use in list(self._wanted.uses):
            line = self._use_line(use, self._replica.use)
            if line is not None:
                self._wanted.uses.remove(use)
                lines.append((use, line))
        return lines

    def _started_now(self) -> Lines:
        lines: Lines = []
        begun: Set[int] = set()
        refused: Set[int] = set()
        ready = sorted((each for each in self._wanted.all_starts() if each.is_ready()), key=Start.key)
        for start in ready:
            op = start.held._op
            if op in refused or len(lines) >= TOGETHER:
                continue
            answer = None if self._turns.is_held_back(start) else self._replica.start(self._log.worker, op)
            if answer is not None and answer.code == native.STARTED:
                self._wanted.starts[op].remove(start)
                lines.append((start, self._start_line(op, answer.number)))
                begun.add(op)
            else:
                refused.add(op)
        self._alone |= {op for op in begun & refused if not self._replica.can_start(op)}
        return lines

    # What goes along

    def _wishes(self, finishes: Dict[int, Finish], begins: Sequence[Request]) -> Wishes:
        """What goes along with an append that is for these."""
        wakes = self._holding.rivals_of(finishes)
        wakes |= {op for op in self._wanted.wakes if self._replica.can_start(op)}
        self._wanted.wakes.clear()
        waits, leaves = self._waits(begins), self._leaves(begins)
        return Wishes(tuple(finishes), tuple(wakes | self._freed(leaves, begins)), waits, leaves)

    def _waits(self, begins: Sequence[Request]) -> Tuple[Wait, ...]:
        """Who waits from now on, but for these: those of whom the server doesn't know it yet, in the order in which they came."""
        new = self._slots.unknown(self._wanted.all_waiting(begins))
        if new:
            self._alarms.check_at = min(self._alarms.check_at, time.monotonic() + times.CHECK / 4)
        return tuple(self._slots.wait(each, sorted(self._holding.of({each.caller}))) for each in new)

    def _leaves(self, begins: Sequence[Request]) -> Tuple[int, ...]:
        """The slots of those who don't wait any more, and of these, which begin."""
        return self._slots.left(self._wanted.all_waiting(begins))

    def _freed(self, leaves: Sequence[int], begins: Sequence[Request]) -> Set[int]:
        """The operations that may have been withheld for those who have given up."""
        gone = [each for each in self._slots.starts(leaves) if each not in begins and each.code != native.STARTED]
        return {op for each in gone for op in self._operations.rivals[each.held._op]}


def number_of(line: bytes) -> int:
    """What the reply of a line has at its end."""
    return int(line.rsplit(b" ", 1)[1])
