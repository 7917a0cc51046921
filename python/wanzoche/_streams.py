"""What the command `wanzoche` writes to its streams, which may be closed, full, or a pipe that nobody reads any more."""

from __future__ import annotations

import contextlib
import os
import sys
from typing import Any

from ._errors import WanzocheError


def _bytes_for(stream: Any, text: str) -> bytes:
    return text.encode(stream.encoding or "utf-8", "backslashreplace")


def say(text: str) -> None:
    """Writes a line to standard error. Where that can't be done nothing is said."""
    with contextlib.suppress(OSError):
        os.write(2, _bytes_for(sys.stderr, "wanzoche: {}\n".format(text)))


def write(text: str) -> None:
    """Writes to standard output, past Python's own buffer: unbuffered (`PYTHONUNBUFFERED`) that loses what a write leaves. Raises
    WanzocheError if it fails, but `BrokenPipeError` if whoever reads there has enough."""
    told = _bytes_for(sys.stdout, text)
    try:
        _write_all(told)
    except BrokenPipeError:
        raise
    except OSError as error:
        raise WanzocheError("standard output: {}".format(error.strerror)) from error


def _write_all(told: bytes) -> None:
    """All of it, however much one write takes."""
    rest = memoryview(told)
    while rest:
        rest = rest[os.write(1, rest) :]


def take_closed_streams() -> None:
    """A standard stream that is closed is taken, so that nothing else becomes it. A command that is run gets it closed, as it was."""
    for stream in range(3):
        try:
            os.fstat(stream)
        except OSError:
            os.open(os.devnull, os.O_RDWR | os.O_CLOEXEC)  # as this one, which is the lowest that is free
    if sys.stderr is None:
        sys.stderr = open(os.devnull, "w")
