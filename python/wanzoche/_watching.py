"""Commands of `wanzoche` that go on until they are ended: they wait for what changes in a store, and show it."""

from __future__ import annotations

import os
import select
import signal
import sys
import time
from typing import Any, List, NoReturn, Optional, Sequence

from ._showing import Looking, json_of, lines_of, table_of
from ._streams import write

LOOKS, ASKS = 0.05, 0.2
"""So often, in seconds, it looks whether a file has changed, and asks a server."""


class Ended(BaseException):
    """A signal has ended it."""

    def __init__(self, number: int) -> None:
        super().__init__(number)
        self.number = number


class Output:
    """Standard output, as something that somebody reads."""

    def __init__(self) -> None:
        self._reader = select.poll()
        self._reader.register(1, 0)

    def wait(self, seconds: float) -> None:
        """Returns after so many seconds, a thousandth at least. Raises `BrokenPipeError` if nobody reads any more."""
        if self._reader.poll(1000 * max(seconds, 0.001)):
            raise BrokenPipeError


class Changes:
    """Tells when a store has changed since it was `seen`."""

    def __init__(self, looking: Looking) -> None:
        self.seen = looking.stamp
        """What is the same until then. To be taken before a report, so that a change which comes between the two is found by the next
        wait."""
        self._pause = LOOKS if looking.is_quick else ASKS
        self._output = Output()

    def wait(self, seen: object, seconds: float) -> None:
        """Returns when something has changed since then, or so many seconds are over, and not at once. Raises `BrokenPipeError` if nobody
        reads standard output any more."""
        until = time.monotonic() + seconds
        while True:
            self._output.wait(min(self._pause, until - time.monotonic()))
            if time.monotonic() >= until or self.seen() != seen:
                return


class Table:
    """Lines that stay at one place of a terminal, whose other lines are left alone. Nothing has to be set back at the end."""

    def __init__(self) -> None:
        self._drawn: List[str] = []

    def forget(self) -> None:
        """The next lines go below all others, as behind a stop of the program, when others have written to the terminal."""
        self._drawn = []

    def draw(self, lines: Sequence[str]) -> None:
        """Writes these lines in the place of those that were drawn last."""
        columns, rows = _size()
        above = sum(max(-(-len(line) // columns), 1) for line in self._drawn)  # a narrower window has broken them
        back = "\x1b[{}F\x1b[J".format(min(above, rows - 1)) if above else ""
        self._drawn = [_plain(line)[: columns - 1] for line in lines[: rows - 1]]
        write(back + "".join(line + "\n" for line in self._drawn))


def _size() -> "os.terminal_size":
    """The columns and rows of the terminal: two at least."""
    found = os.get_terminal_size(1)
    return os.terminal_size((max(found.columns or 80, 2), max(found.lines or 24, 2)))


def _plain(line: str) -> str:
    """A line without signs that a terminal would act on: the words of a command are others' to choose."""
    return "".join(sign if " " <= sign <= "~" else "?" for sign in line)


def watch_status(looking: Looking, store: str, seconds: float, is_json: bool) -> NoReturn:
    """Shows how the store is, and again whenever that has changed, until a signal ends it: on a terminal as a table. So often, in seconds,
    it looks for what changes without a line of the journal, as a death. Raises `Ended`, `KeyboardInterrupt` and `BrokenPipeError`."""
    signal.signal(signal.SIGTERM, end)
    table: Optional[Table] = None
    if not is_json and sys.stdout.isatty() and os.environ.get("TERM", "dumb") != "dumb":
        table = Table()
        signal.signal(signal.SIGCONT, lambda *_: None if table is None else table.forget())
    changes, told = Changes(looking), ""
    while True:
        seen = changes.seen()
        if table is not None:
            table.draw(table_of(looking.state(), looking.operations, store))
        else:
            before, told = told, told_of(looking, is_json)
            if told != before:
                write(told if is_json else ("\n" if before else "") + told)
        changes.wait(seen, seconds)


def end(number: int, _: Any) -> NoReturn:
    """What a signal does that ends it: raises `Ended`."""
    raise Ended(number)


def told_of(looking: Looking, is_json: bool) -> str:
    """How the store is, as lines or as JSON."""
    if is_json:
        return json_of(looking.state(), looking.operations)
    return lines_of(looking.report(), looking.process_of)


def watch_lines(looking: Looking) -> NoReturn:
    """Writes the lines of the journal as they come. Raises `KeyboardInterrupt` and `BrokenPipeError`."""
    changes, written = Changes(looking), 0
    while True:
        seen = changes.seen()
        text = looking.text_from(written)
        written += text.count("\n")
        write(text)
        changes.wait(seen, float("inf"))
