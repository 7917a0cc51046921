"""What goes wrong, in words."""

from __future__ import annotations

from typing import Any, Optional, Sequence, Tuple

from ._texts import Waiting, Worker


class WanzocheError(Exception):
    """What goes wrong with paths. Each of these can be copied and pickled, as it is when it comes from another process."""

    _made_of: Tuple[Any, ...]

    def __reduce__(self) -> Any:
        return type(self), getattr(self, "_made_of", self.args), self.__dict__


class DeclarationError(WanzocheError, ValueError):
    """The text isn't a declaration. `offset` is where in its bytes; `line` and `column` count from 1.

    The message shows the line with a mark below the place, and says what could stand there, which declared name is nearest, and what slip
    is likely, where that is known: `words`, which begin behind a colon.
    """

    def __init__(self, why: str, text: bytes, offset: Optional[int], words: str = "") -> None:
        self._made_of = (why, text, offset, words)
        self.offset = offset
        self.line: Optional[int] = None
        self.column: Optional[int] = None
        if offset is None:
            super().__init__(why)
            return
        before = text[:offset]
        self.line = before.count(b"\n") + 1
        begin = before.rfind(b"\n") + 1
        self.column = len(before[begin:].decode("utf-8", "replace")) + 1
        shown = text[begin:].split(b"\n", 1)[0].decode("utf-8", "replace")
        words = words or "\n{}\n{}^".format(shown, " " * (self.column - 1))
        told = "{} in line {}, column {}:{}".format(why, self.line, self.column, words)
        super().__init__(told.rstrip("\n").replace("\n", "\n  "))


class JournalError(WanzocheError, ValueError):
    """The text isn't a journal, or paths can't go on behind it, since a reply isn't owed: then `owed` is the one that is. `line` counts
    from 1; None if the text is too long."""

    def __init__(self, why: str, text: bytes, number: Optional[int], owed: Optional[str] = None, head: bool = False) -> None:
        self._made_of = (why, text, number, owed, head)
        self.line: Optional[int] = None
        self.owed = owed
        if number is None:
            super().__init__(why)
            return
        self.line = number + 1 + head
        shown = text.split(b"\n", self.line)[number + head].decode("utf-8", "replace")
        told = "" if owed is None else "\n`{}` is owed".format(owed)
        super().__init__("{} {}, which is line {} counted from 1:\n  {}{}".format(why, number, self.line, shown, told))


class ScriptError(WanzocheError, ValueError):
    """The text isn't a script. `line` counts from 1; None if the text is too long."""

    def __init__(self, why: str, text: bytes, number: Optional[int]) -> None:
        self._made_of = (why, text, number)
        self.line: Optional[int] = None
        if number is None:
            super().__init__(why)
            return
        self.line = number + 1
        behind = text.split(b"\n", self.line)[number:]
        shown = behind[0].decode("utf-8", "replace") if behind and (behind[0] or behind[1:]) else "(the text ends inside a process)"
        super().__init__("{}, which is line {} counted from 1:\n  {}".format(why, self.line, shown))


class NoJournal(WanzocheError):
    """The paths were opened without a journal."""


class UnknownOperation(WanzocheError, LookupError):
    """No operation of this name is declared."""


def _runs(operations: Sequence[Tuple[str, str]]) -> str:
    return ", ".join("{} by {}".format(name, worker.told if isinstance(worker, Worker) else worker) for name, worker in operations)


def _behind(one: Waiting) -> str:
    return "behind {} by {}, which has waited {:.1f} s".format(one.operation, one.worker.told, one.waited)


class Blocked(WanzocheError):
    """A path forbids the start, or it is withheld for one who waits: `behind`, which is None where a path forbids it.

    `path` is the number of the path, of a start that is withheld of the first that both are in, and `text` what it says, `resource` whose it
    is, `in_progress` the operations of the path that are in progress, each with who runs it (a `Worker`), and `may_begin` those of its
    operations that no path forbids now. `own` is for who waits within itself: what it has in progress, with its name, where the operation
    can't begin before that is left, whatever others do; else it is empty.
    """

    def __init__(
        self,
        operation: str,
        path: int,
        resource: str,
        text: str,
        in_progress: Sequence[Tuple[str, str]],
        after: Optional[float] = None,
        may_begin: Sequence[str] = (),
        own: Sequence[Tuple[str, str]] = (),
        behind: Optional[Waiting] = None,
    ) -> None:
        self._made_of = (operation, path, resource, text, tuple(in_progress), after, tuple(may_begin), tuple(own), behind)
        self.operation = operation
        self.path = path
        self.resource = resource
        self.text = text
        self.in_progress = tuple(in_progress)
        self.may_begin = tuple(may_begin)
        self.own = tuple(own)
        self.behind = behind
        running = _runs(in_progress) or "nothing of it; may begin next: {}".format(", ".join(may_begin) or "nothing")
        running += "; nobody else can help before this is left: " + _runs(own) if own else ""
        waited = " for {:g} seconds".format(after) if after is not None and after > 0 else ""
        state = "blocked{}:".format(waited) if behind is None else "withheld{}: {},".format(waited, _behind(behind))
        super().__init__("{} is {} path {} of {}: {}; in progress: {}".format(operation, state, path, resource, text, running))

    def over(self, limit: Optional[float]) -> "Timeout":
        """The same where the time is over."""
        operation, path, resource, text, in_progress, _, may_begin, own, behind = self._made_of
        return Timeout(operation, path, resource, text, in_progress, limit, may_begin, own, behind)


class Timeout(Blocked, TimeoutError):
    """The time is over, and a path still forbids the start, or it is withheld. It is a `TimeoutError`, too."""


class NotInProgress(WanzocheError):
    """The entry is over, or wasn't begun."""


class UseRefused(WanzocheError):
    """The device refuses the use: it doesn't offer the verb, is empty or full, or its total would be too large."""


class OutOfRoom(WanzocheError):
    """More operations are in progress than the room has places for, or 4,294,967,295 were started."""


class StoreError(WanzocheError, OSError):
    """The store can't be opened, read, written or synced. What the system said is its `__cause__`."""


class StoreInUse(StoreError):
    """Another program has the store's journal to itself, or it is open in another place with another file beside it."""


class StoreLate(StoreError, TimeoutError):
    """No turn at the store was to be had in time, since a process that has it is stopped. Nothing has changed. It is a `TimeoutError`, too."""


class OtherDeclaration(StoreError):
    """The store is one of another declaration."""


class CorruptStore(StoreError):
    """A line of the journal isn't owed, isn't a line, or is gone. These paths refuse to go on.

    `line` is its number in the file, from 1, where the head is the first; None if lines are gone. Over PostgreSQL it is its place in the
    table, from 0.
    """

    def __init__(self, told: str, line: Optional[int] = None) -> None:
        self._made_of = (told, line)
        self.line = line
        super().__init__(told)


class Lost(WanzocheError):
    """The operation was finished by others, which took this process for dead or were told to. What this process does to what it guards
    may meet the operations of others: let the resource refuse it by the entry's `token`."""


class Closed(WanzocheError):
    """The paths were closed."""


class Forked(Closed):
    """The paths belong to the parent of this process, and nothing of them is shared with it. Open others in the child; those that both open
    with the same `store=` are shared."""
