"""Files as who looks on at a store has them: none becomes a standard stream, and what the system refuses is told as the store's fault."""

from __future__ import annotations

import contextlib
import os
from typing import Iterator, List

from ._errors import StoreError


def is_of_system(error: OSError) -> bool:
    """Whether the system has refused something. A store's exceptions are no such ones, nor are those that a signal handler raises, as
    TimeoutError."""
    return error.errno is not None


def refused(path: str, what: str, error: OSError) -> StoreError:
    """What is told where the system refuses something."""
    return StoreError("{} {}: {}".format(path, what, error.strerror))


@contextlib.contextmanager
def telling(path: str, what: str) -> Iterator[None]:
    """Where the system refuses something meanwhile, `StoreError` says that this can't be done to this file, and why."""
    try:
        yield
    except OSError as error:
        if not is_of_system(error):
            raise
        raise refused(path, what, error) from error


@contextlib.contextmanager
def no_stream_is_free() -> Iterator[None]:
    """Meanwhile no file that is opened becomes a standard stream of this process that is closed, in which all that is written there would
    stand. Nothing can be read from or written to what stands in its place."""
    taken: List[int] = []
    try:
        _take_streams(taken)
        yield
    finally:
        for each in taken:
            os.close(each)


def _take_streams(taken: List[int]) -> None:
    """Opens files until no standard stream is free, and adds them."""
    while not taken or taken[-1] <= 2:
        taken.append(os.open("/", os.O_PATH | os.O_CLOEXEC))


def open_file(path: str, flags: int, mode: int = 0o666) -> int:
    """Opens a file of a store, which no program gets that this process runs. It is never one of the standard streams."""
    with no_stream_is_free():
        return os.open(path, flags | os.O_CLOEXEC, mode)


def read(fd: int, begin: int, end: int) -> bytes:
    """What stands in a file there."""
    parts = []
    while begin < end:
        part = os.pread(fd, end - begin, begin)
        if not part:
            break
        parts.append(part)
        begin += len(part)
    return b"".join(parts)
