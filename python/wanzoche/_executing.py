"""The command `exec` of `wanzoche`: another command as an operation, and what begins and ends behind it."""

from __future__ import annotations

import contextlib
import errno
import os
import shutil
import signal
import subprocess
import sys
import threading
from typing import Any, Callable, Dict, Iterator, List, Optional

from ._entries import Entry
from ._errors import Blocked, Lost, Timeout, WanzocheError
from ._every import check_every, seconds_since
from ._passing import pass_at_once
from ._processes import NAME_OF_EXEC, be_called
from ._stored import StoredPaths
from ._streams import say

NOT_RUNNABLE, NOT_FOUND = 126, 127
TELLS = 1.0
"""After so many seconds `exec` says on a terminal what it waits for."""
HANDED_ON = (signal.SIGTERM, signal.SIGHUP, signal.SIGUSR1, signal.SIGUSR2, signal.SIGINT, signal.SIGQUIT)
OF_TERMINAL = (signal.SIGINT, signal.SIGQUIT)
"""A terminal sends these to the command, too."""


def command_in(given: Any) -> List[str]:
    """The command with its words."""
    return list(given.run[given.run[:1] == ["--"] :])


def check_words(paths: Any, given: Any) -> None:
    """Raises what is wrong with the words of `exec`: `WanzocheError`, or `UnknownOperation`."""
    if not command_in(given):
        raise WanzocheError("there is no command behind --")
    paths.can_start(given.operation)
    if given.every is not None:
        if given.passed or given.failed:
            raise WanzocheError("--every goes without --passed and --failed: the operation also ends where nothing is run")
        check_every(paths, given.operation)
    named = [name for name in (given.operation, given.passed, given.failed) if name is not None]
    for name in named:
        paths.can_start(name)
        if named.count(name) > 1:
            raise WanzocheError("{} is named twice: the operation, that of --passed and that of --failed are different ones".format(name))


class _Told:
    """While this lasts somebody waits for an operation: on a terminal they are told so after a while, and why."""

    def __init__(self, paths: StoredPaths, operation: str, is_quiet: bool) -> None:
        self._paths, self._operation, self._is_quiet = paths, operation, is_quiet
        self._is_over, self._telling = threading.Event(), threading.Lock()

    def __enter__(self) -> None:
        if sys.stderr.isatty() and not self._is_quiet:
            threading.Thread(target=self._tell, daemon=True).start()

    def __exit__(self, *_: Any) -> None:
        self._is_over.set()
        with self._telling:
            pass  # nothing is told behind this

    def _tell(self) -> None:
        while not self._is_over.wait(TELLS):
            try:
                why = self._paths._why_waits(self._operation)
                who = "" if why is None else _in_the_way(self._paths, why)
            except (WanzocheError, OSError):
                return  # who waits is told the same
            with self._telling:
                if why is not None and not self._is_over.is_set():
                    say("waiting: {}{}".format(why, who))
                    return


def _in_the_way(paths: StoredPaths, why: Blocked) -> str:
    """Which processes those are that are in the way, as far as the store knows."""
    ahead = [] if why.behind is None else [why.behind.worker]
    workers = dict.fromkeys(int(worker.split()[-1]) for worker in [*ahead, *(worker for _, worker in why.in_progress)])
    known = [(worker, paths._store.process_of(worker)) for worker in workers]
    told = ["process {} is {}".format(worker, process) for worker, process in known if process]
    return " ({})".format(", ".join(told)) if told else ""


class Stopped(BaseException):
    """A signal has come to who waits for a pass."""


class Signals:
    """What becomes of the signals that come while an operation is in progress, and behind it. An ignored SIGHUP stays ignored, for the
    command, too: that is what `nohup` wants."""

    def __init__(self) -> None:
        self._kept: List[int] = []
        self._does: Callable[[int], Any] = self._kept.append
        for number in HANDED_ON:
            if number != signal.SIGHUP or signal.getsignal(number) is not signal.SIG_IGN:
                signal.signal(number, lambda number, _: self._does(number))

    def hand_to(self, child: "subprocess.Popen[bytes]") -> None:
        """From now on they reach the command, those too that were kept."""

        def send(number: int) -> None:
            if not (number in OF_TERMINAL and os.isatty(0)):
                child.send_signal(number)

        self._does, kept, self._kept = send, self._kept, []
        for number in kept:
            send(number)

    def keep(self) -> None:
        """From now on they do nothing but end a wait for a pass that is yet to come."""
        self._does = self._kept.append

    @contextlib.contextmanager
    def stopping(self) -> Iterator[None]:
        """Meanwhile each raises `Stopped`, and so does one that was kept."""

        def stop(number: int) -> None:
            raise Stopped("{} came".format(signal.Signals(number).name))

        self._does = stop
        try:
            for number in self._kept:
                stop(number)
            yield
        finally:
            self.keep()


def execute(paths: StoredPaths, given: Any) -> int:
    """Runs a command as an operation: its status, or that of a conflict. Behind it the operation of `--passed` or that of `--failed` is
    passed. Raises `StoreError` and `Lost` where the operation's end can't be written, or that pass."""
    limit = 0.0 if given.nonblock else given.timeout
    try:
        with _Told(paths, given.operation, given.quiet):
            entry = paths.enter(given.operation, limit)
    except Timeout as error:
        return _conflict(given, str(error))
    signals, status = Signals(), None
    try:
        since = None if given.every is None else seconds_since(paths, entry, given.every)
        if since is not None:
            return _conflict(given, "{} began {:g} seconds ago".format(given.operation, since))
        status = _run(paths, command_in(given), _environment(given, entry), signals)
    finally:
        signals.keep()
        outcome = given.passed if status == 0 else given.failed
        if outcome is None:
            entry.leave()
        else:
            _end_with(paths, entry, outcome, limit, given.quiet, signals)
    return status


def _conflict(given: Any, told: str) -> int:
    """The command isn't run: the status for that."""
    if given.conflict_status and not given.quiet:
        say(told)
    return int(given.conflict_status)


def _end_with(paths: StoredPaths, entry: Entry, outcome: str, limit: Optional[float], is_quiet: bool, signals: Signals) -> None:
    """Ends an operation and passes another, for which it waits so long at most, and not behind a signal. Where that one doesn't get its
    turn, this is said. Raises `WanzocheError` where it can't be made."""
    told = "{} wasn't passed: {{}}; `wanzoche pass` makes up for it".format(outcome)
    try:
        if pass_at_once(paths, outcome, entry) is None:
            with _Told(paths, outcome, is_quiet), signals.stopping(), paths(outcome, limit):
                pass
    except (Timeout, Stopped) as error:
        say(told.format(error))
    except Lost:
        raise
    except WanzocheError as error:
        raise WanzocheError(told.format(error)) from error


def _environment(given: Any, entry: Entry) -> Dict[str, str]:
    """That of the command."""
    environment = dict(os.environ)
    if given.token_env:
        environment[given.token_env] = str(entry.token)
    return environment


def _run(paths: StoredPaths, words: List[str], environment: Dict[str, str], signals: Signals) -> int:
    """Runs it to its end, with the signals that come. It keeps this process's presence: if this one is killed, it counts as alive."""
    be_called(NAME_OF_EXEC)
    try:
        child = subprocess.Popen(words, env=environment, pass_fds=paths._store.presence())
    except OSError as error:
        # A folder of PATH that may not be searched gives "permission denied", although the command isn't there: a shell says 127, too.
        there = shutil.which(words[0], os.F_OK) if os.sep not in words[0] else not isinstance(error, FileNotFoundError)
        say("{}: {}".format(words[0], error.strerror if there else os.strerror(errno.ENOENT)))
        return NOT_RUNNABLE if there else NOT_FOUND
    signals.hand_to(child)
    status = child.wait()
    return status if status >= 0 else 128 - status
