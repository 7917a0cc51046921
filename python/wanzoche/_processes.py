"""What this machine says of the processes that take part in a store, by /proc. What it doesn't say is None: each may end at any moment."""

from __future__ import annotations

import contextlib
import os
import socket
from typing import NamedTuple, Optional, Tuple

NAME_OF_EXEC = "wanzoche exec"
"""How the system calls a process that runs a command as an operation: 15 signs at most."""
_TICKS = os.sysconf("SC_CLK_TCK")


class Process(NamedTuple):
    """A process of a worker."""

    pid: Optional[int] = None
    """Its number, as it counts itself."""
    host: Optional[str] = None
    command: Optional[str] = None
    """Its words; of `wanzoche exec` those of its command."""
    since: Optional[int] = None
    """When the command of a `wanzoche exec` was started, in seconds since 1970; of others it isn't known when they began an operation."""


def be_called(name: str) -> None:
    """From now on the system calls this process so."""
    with contextlib.suppress(OSError), open("/proc/self/comm", "w") as file:
        file.write(name)


def process_at(told: Optional[str], beside: Optional[str]) -> Process:
    """What is known of a process of which a store tells the number, and over a server its machine behind that. `beside` is the file that a
    process of this machine has to have open to be the one that is meant: a number may have been given again."""
    number, _, host = (told or "").partition(" ")
    if not number.isdecimal():
        return Process()
    pid, here = int(number), socket.gethostname()
    if host not in ("", here) or beside is not None and not _has_open(pid, beside):
        return Process(pid, host or None)
    command, since = _command_of(pid)
    return Process(pid, here, command, since)


def _has_open(pid: int, path: str) -> bool:
    """Whether a process has a file open, as far as this one may know."""
    folder = "/proc/{}/fd".format(pid)
    with contextlib.suppress(OSError):
        wanted = os.stat(path)
        return any(_is_same(os.path.join(folder, name), wanted) for name in os.listdir(folder))
    return False


def _is_same(path: str, wanted: os.stat_result) -> bool:
    try:
        return os.path.samestat(os.stat(path), wanted)
    except OSError:
        return False


def _command_of(pid: int) -> Tuple[Optional[str], Optional[int]]:
    """The command of a process, and since when it runs, if that is known."""
    if _read("/proc/{}/comm".format(pid)).strip() != NAME_OF_EXEC:
        return _words_of(pid), None
    child = (_read("/proc/{0}/task/{0}/children".format(pid)).split() or [""])[0]
    return (_words_of(int(child)), _begin_of(int(child))) if child else (None, None)


def _words_of(pid: int) -> Optional[str]:
    return " ".join(_read("/proc/{}/cmdline".format(pid)).split("\0")).strip() or None


def _begin_of(pid: int) -> Optional[int]:
    """When a process began, in seconds since 1970."""
    fields = _read("/proc/{}/stat".format(pid)).rpartition(")")[2].split()
    boots = [line.split()[1] for line in _read("/proc/stat").splitlines() if line.startswith("btime ")]
    return int(boots[0]) + int(fields[19]) // _TICKS if boots and len(fields) > 19 else None


def _read(path: str) -> str:
    """The text of a file; nothing if it can't be read."""
    try:
        with open(path, encoding="utf-8", errors="replace") as file:
            return file.read()
    except OSError:
        return ""
