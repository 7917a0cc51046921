"""What paths ask of a store that they share with other processes, whichever it is: a file, or a log at a server."""

from __future__ import annotations

from typing import Any, Callable, List, Optional, Protocol, Tuple, TypeVar

from . import _native as native

T = TypeVar("T")


class SharedStore(Protocol):
    """One opening of a store. Any thread may call it. Each call may raise `StoreError`, and `Closed` when it has ended."""

    room: int
    sync: bool
    """Whether somebody has to wait for the disk behind an answer: `wait_for_sync`."""
    is_closed: bool
    """Whether these paths were closed."""
    operations: Tuple[str, ...]
    """Their names, as far as news have to be told."""

    @property
    def worker(self) -> int:
        """The number of this worker."""

    def open(self) -> native.Answer:
        """Opens the store, or makes it. The answer is `OPENED`, or why the text isn't a declaration."""

    # Entries

    def finish(self, begun: Any, /) -> Tuple[int, Any]:
        """Finishes an operation: the answer's code, and what to wait for. Raises `Lost`."""

    def wait_for_sync(self, end: Any, /) -> None:
        """Until that is on the disk."""

    def use(self, begun: Any, verb: int, number: int, /) -> native.Answer:
        """Uses the device of the operation's resource: its answer. Raises `Lost`."""

    # Questions

    def ask(self, question: Callable[[], T], /) -> T:
        """What a question gives when all lines are known."""

    def texts(self) -> List[str]:
        """All lines so far, in parts."""

    def process_of(self, worker: int) -> Optional[str]:
        """The process of a worker; None if that isn't known."""

    def presence(self) -> List[int]:
        """The file descriptors that tell others that this worker is alive, as long as a process has them."""

    # What is done to it

    def recover(self, worker: int, even_alive: bool) -> int:
        """Finishes what a worker has in progress: how much that was. Raises ValueError if it is alive."""

    def rotate(self) -> None:
        """Moves lines away."""

    def close(self) -> None:
        """Finishes what this process has in progress, and ends its part. A second close does nothing."""

    def end(self) -> None:
        """The same, for a finalizer."""

    def abandon(self) -> None:
        """Ends its part without a word: in the child of a fork, whose paths are the parent's."""
