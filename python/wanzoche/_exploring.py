"""Every schedule of a script."""

from __future__ import annotations

import ctypes
import threading
from typing import Callable, List, NamedTuple, Optional, Tuple, Union

from . import _native as native
from ._errors import ScriptError
from ._declaring import bytes_of, declaration_error

MOST_STATES = 4_294_967_295

_OUTCOMES = {native.ALL_DONE: "done", native.STALLS: "stalled", native.REFUSED: "refused", native.UNDECIDED: "undecided"}


class Exploration(NamedTuple):
    """What the schedules of a script come to: true if every one of them ends done. `str` gives what `pathsys explore` writes."""

    outcome: str
    """`done`, `stalled`, `refused` or `undecided`."""
    states: Optional[int]
    """How many states were looked at; None if a schedule stalls or has a step refused."""
    journal: str = ""
    """The journal of a shortest schedule that stalls or has a step refused; else empty."""
    processes: Tuple[str, ...] = ()
    """Where each process is behind that journal, as `sale: stalled hold_till`; empty if there is none."""

    @property
    def done(self) -> bool:
        """Whether every schedule ends done."""
        return self.outcome == "done"

    @property
    def stalled(self) -> bool:
        """Whether some schedule stalls: the journal is of a shortest."""
        return self.outcome == "stalled"

    @property
    def refused(self) -> bool:
        """Whether some schedule has a step refused: the journal is of a shortest."""
        return self.outcome == "refused"

    @property
    def undecided(self) -> bool:
        """Whether there are more states than were to be looked at."""
        return self.outcome == "undecided"

    def __bool__(self) -> bool:
        return self.done

    def __str__(self) -> str:
        if self.done:
            return "every schedule ends done\nstates {}\n".format(self.states)
        if self.undecided:
            return "undecided after {} states\n".format(self.states)
        return self.journal + "".join(line + "\n" for line in self.processes)


def explore(declaration: Union[str, bytes], script: Union[str, bytes], most: int = 1_000_000) -> Exploration:
    """Looks at every schedule of a script, as `pathsys explore` does: whether some processes can stall, or have a step refused.

    >>> from wanzoche import explore
    >>> found = explore(
    ...     "resource a cell operation left path left end end resource b cell operation right path right end end",
    ...     "process kant\\nenter left\\nenter right\\nleave\\nleave\\nend\\n"
    ...     "process hume\\nenter right\\nenter left\\nleave\\nleave\\nend\\n",
    ... )
    >>> found.stalled
    True
    >>> print(found, end="")
    journal 2 room 1048576
    0 start left: started 0
    1 start right: started 1
    0 start right: blocked 1
    1 start left: blocked 0
    kant: stalled right
    hume: stalled left

    A search gives up after `most` states, 0 to 4,294,967,295, and is `undecided` then. It takes time and memory for each state; other
    threads go on meanwhile. Ctrl-C, or another signal handler that raises, ends the wait at once: the search itself goes on in a daemon
    thread, whose memory is given back when it has looked at `most` states, or all.

    Raises `DeclarationError` or `ScriptError` if a text isn't what it should be, `ValueError` if `most` is out of range, and `MemoryError`.
    """
    if not 0 <= most <= MOST_STATES:
        raise ValueError("most is 0 to 4,294,967,295 states, not {}".format(most))
    if native.explore is None:
        raise NotImplementedError("this libwanzoche has no wanzoche_explore: it is older than the package")
    source = bytes_of(declaration)
    steps = script.encode() if isinstance(script, str) else bytes(script)
    return _without_holding_up_signals(lambda: _search(source, steps, most))


def _search(source: bytes, steps: bytes, most: int) -> Exploration:
    enough = native.explore(source, len(source), steps, len(steps), most, None, 0, None, 0).number + 1
    journal = ctypes.create_string_buffer(enough)
    message = ctypes.create_string_buffer(native.STANDINGS)
    answer = native.explore(source, len(source), steps, len(steps), most, journal, enough, message, len(message))
    outcome = _OUTCOMES.get(answer.code)
    if outcome in ("done", "undecided"):
        return Exploration(outcome, answer.number)
    if outcome is not None:
        return Exploration(outcome, None, journal.value.decode(), tuple(message.value.decode().splitlines()))
    if answer.code == native.OUT_OF_MEMORY:
        raise MemoryError("no memory for a search of {} states".format(most))
    if native.TOO_LONG <= answer.code <= native.TOO_MANY:
        raise declaration_error(answer, source)
    told = message.value.decode().partition(": ")[2]
    raise ScriptError(told, steps, None if answer.code == native.SCRIPT_TOO_LONG else answer.number)


def _without_holding_up_signals(search: Callable[[], Exploration]) -> Exploration:
    """Does this in a thread of its own where this thread gets the signals, and waits for it."""
    if threading.current_thread() is not threading.main_thread():
        return search()
    found: List[Exploration] = []
    wrong: List[BaseException] = []
    over = threading.Event()

    def run() -> None:
        try:
            found.append(search())
        except BaseException as error:
            wrong.append(error)
        finally:
            over.set()

    threading.Thread(target=run, name="wanzoche.explore", daemon=True).start()
    over.wait()
    if wrong:
        raise wrong.pop()
    return found.pop()
