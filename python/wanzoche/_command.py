"""The command `wanzoche`: operations from the shell, over a store."""

from __future__ import annotations

import errno
import os
import signal
import sys
from typing import Any, Dict, List, Optional

from . import __version__
from ._beside import Beside
from ._errors import CorruptStore, StoreError, Timeout, WanzocheError
from ._executing import check_words, execute
from ._options import parser
from ._passing import make_pass
from ._paths import Paths
from ._reading import OnlyReading, Reader
from ._served import times
from ._served.paths import SCHEMES, KeepingPaths, LookingPaths
from ._served.schema import declaration_of
from ._showing import Looking, Onlooker
from ._stored import StoredPaths
from ._streams import say, take_closed_streams, write
from ._viewing import Served, Source, view
from ._watching import Ended, told_of, watch_lines, watch_status

WRONG_LINE = 5
LOOKING = ("status", "log", "audit", "watch")
"""The commands for which the right to read a store's files will do."""
READING = ("watch", "audit")
"""Those that read a store's files themselves: to read on where they were, or to say in which of them a line is wrong."""
OWN_FAULT = 125
"""As `env` and `timeout` have it: the fault is this program's, and the command wasn't run."""


def _declaration(given: Any) -> bytes:
    """The declaration in the file that the words name, else the store's own. Raises `StoreError` if that isn't there yet."""
    if given.declaration is not None and (given.store is None or given.command == "exec"):
        return _text_in(given.declaration)
    if given.store is None:
        raise WanzocheError("--store or --declaration is wanted")
    try:
        stored = _stored_declaration(given)
    except StoreError as error:
        if given.declaration is None or given.command != "operations" or not _is_forbidden(error):
            raise
    return stored if given.declaration is None else _text_in(given.declaration)


def _text_in(path: str) -> bytes:
    """What stands in the file of a declaration. Raises WanzocheError if it can't be read."""
    try:
        with open(path, "rb") as file:
            return file.read()
    except OSError as error:
        raise WanzocheError("{}: {}".format(path, error.strerror)) from error


def _stored_declaration(given: Any) -> bytes:
    """What the store says of itself. Raises `StoreError` if it isn't there yet: only `exec` makes one."""
    if given.name is not None:
        found = declaration_of(given.store, given.name, times.OPENING)
        if found is None:
            raise StoreError("there is no log {}: `wanzoche exec` with --declaration makes one".format(given.name))
        return found.encode()
    beside = os.path.realpath(given.store) + ".shared"
    if not os.path.exists(beside):
        raise StoreError("{} isn't there: `wanzoche exec` with --declaration makes a store".format(beside))
    file_beside = Beside(beside)
    try:
        return file_beside.declaration().encode()
    finally:
        file_beside.close()


def _is_served(given: Any) -> bool:
    """Whether the store is in PostgreSQL. Raises `StoreError` if the words name a log and it isn't, or no log and it is."""
    is_served = bool(given.store.startswith(SCHEMES))
    if is_served != (given.name is not None):
        raise StoreError("--name is wanted for a store in PostgreSQL, and for no other")
    return is_served


def _opened(given: Any) -> StoredPaths:
    """The store that the words name. What the dead have in progress stays, but for an `exec` that wasn't told to keep it."""
    is_served = _is_served(given)
    text = _declaration(given)
    is_run = given.command == "exec"
    if is_run:
        with Paths(text, journal=False, room=2) as alone:  # before a store is made for them
            check_words(alone, given)
    sync = not (is_run and given.no_sync)
    named: Dict[str, Any] = {"name": given.name} if is_served else {}
    if is_run:
        named["lost"] = given.lost
    elif not is_served:
        named["lost"] = "keep"
    kind: Any = Paths
    if is_served and not is_run:
        kind = KeepingPaths if given.command in ("pass", "recover") else LookingPaths
    return kind(text, store=given.store, sync=sync, **named)  # type: ignore[no-any-return]


def _operations(given: Any) -> int:
    """Writes the names of the operations. The store isn't opened, so nothing of it changes."""
    with Paths(_declaration(given), journal=False, room=1) as paths:
        write("".join(name + "\n" for name in paths.operations))
    return 0


def _pass(paths: StoredPaths, given: Any) -> int:
    """Makes a pass by hand, and writes its number; 1 where a path forbids it, which standard error says."""
    try:
        number = make_pass(paths, given.operation, given.timeout)
    except Timeout as error:
        dead = sorted({int(each.worker.split()[-1]) for each in paths.report().lost})
        told = "".join("; process {0} is dead: `wanzoche recover {0}` finishes what it has".format(worker) for worker in dead)
        say("{} wasn't passed: {}{}".format(given.operation, error, told))
        return 1
    write("passed {}\n".format(number))
    return 0


def _told(looking: Looking, given: Any) -> int:
    """What the commands do that only look."""
    if given.command == "watch":
        watch_lines(looking)
    if given.command == "log":
        write(looking.text_from(0))
    elif given.command == "audit":
        looking.report()  # which raises `CorruptStore` for a line that isn't owed
        write("sound\n")
    elif given.watch is not None:
        watch_status(looking, given.name or given.store, given.watch, given.json)
    else:
        write(told_of(looking, given.json))
    return 0


def _is_forbidden(error: StoreError) -> bool:
    """Whether this process may not do what it tried."""
    return isinstance(error.__cause__, OSError) and error.__cause__.errno in (errno.EACCES, errno.EPERM, errno.EROFS)


def _is_only_to_read(error: StoreError, given: Any) -> bool:
    """Whether a store over a file couldn't be opened since this process may not write to it, and the command only looks."""
    return _is_forbidden(error) and given.command in LOOKING and not _is_served(given)


def _read(given: Any) -> int:
    """The same where the files may only be read."""
    reader = _reader(given)
    try:
        return _told(OnlyReading(reader), given)
    finally:
        reader.close()


def _reader(given: Any) -> Reader:
    return Reader(given.store, None if given.declaration is None else _text_in(given.declaration))


def _view(given: Any) -> int:
    """Serves a page of the store, until it is ended. Over a file it is only read."""
    if _is_served(given):
        source: Source = Served(_opened(given))  # type: ignore[arg-type]  # what is served has these paths
    else:
        source = _reader(given)
    try:
        view(source, given.name or given.store, given.port, given.open)
    finally:
        source.close()
    return 0


def _audit(paths: StoredPaths) -> int:
    """Audits a log in PostgreSQL. Raises `CorruptStore` for a line that isn't owed."""
    verdict = paths.audit()
    if not verdict:
        raise CorruptStore("place {} of the log isn't owed".format(verdict.wrong_line), verdict.wrong_line)
    write("sound\n")
    return 0


def _end_audit(error: CorruptStore) -> int:
    """Says which line of which file isn't owed, from 0 and without the head, and on standard error why, with the line as editors count:
    whoever has found it, the opening too. A log in PostgreSQL has places, from 0. Of lines that are gone there is no verdict."""
    path, is_in_file, _ = str(error).partition(" in line {}: ".format(error.line))
    status = 1
    if error.line is not None and not (is_in_file and error.line < 2):
        write("wrong line {} of {}\n".format(error.line - 2, path) if is_in_file else "wrong line {}\n".format(error.line))
        status = WRONG_LINE
    say(str(error))
    return status


def _do(paths: StoredPaths, given: Any) -> int:
    if given.command == "exec":
        return execute(paths, given)
    if given.command == "pass":
        return _pass(paths, given)
    if given.command == "recover":
        write("finished {}\n".format(paths.recover(given.worker, given.even_alive)))
        return 0
    if given.command in READING and not _is_served(given):
        return _read(given)
    if given.command == "audit":
        return _audit(paths)
    return _told(Onlooker(paths), given)


def _done(given: Any) -> int:
    """Opens the store, or only reads it, and does the command."""
    try:
        try:
            opened = _opened(given)
        except StoreError as error:
            if not _is_only_to_read(error, given):
                raise
            return _read(given)
        with opened as paths:
            return _do(paths, given)
    except CorruptStore as error:
        if given.command != "audit":
            raise
        return _end_audit(error)


def _given(words: Optional[List[str]]) -> Any:
    """The words, read. Ends with a message if they are wrong: of `exec` with its own status, so that it can't be taken for the command's."""
    try:
        return parser(__version__).parse_args(words)
    except SystemExit as ended:
        is_run = (sys.argv[1:] if words is None else words)[:1] == ["exec"]
        raise SystemExit(OWN_FAULT if ended.code and is_run else ended.code) from None


def main(words: Optional[List[str]] = None) -> int:
    """What the command does with these words: its status."""
    take_closed_streams()
    given = _given(words)
    try:
        if sys.stdout is None and given.command != "exec":
            raise WanzocheError("standard output is closed")
        if given.command == "operations":
            return _operations(given)
        if given.command == "view":
            return _view(given)
        return _done(given)
    except KeyboardInterrupt:
        return 128 + signal.SIGINT
    except Ended as ended:
        return 128 + ended.number
    except BrokenPipeError:
        return 128 + signal.SIGPIPE  # whoever reads has enough
    except (WanzocheError, ValueError, OSError) as error:
        say(str(error))
        return OWN_FAULT if given.command == "exec" else 1
