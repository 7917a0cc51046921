"""A store over a file for who only looks on: it reads the files that are there, takes no turn and no lock, and is no worker. So the right to
read them will do, and nobody waits for it, nor it for anybody."""

from __future__ import annotations

import errno
import os
import re
from typing import Callable, List, Optional, Tuple

from . import _native as native
from ._beside import Beside
from ._errors import CorruptStore, OtherDeclaration, StoreError
from ._files import open_file, read, telling
from ._replica import Refusal, Replica
from ._showing import State, Waiting, in_progress_of
from ._store import difference
from ._stored import process_name
from ._texts import Path, Report, Worker, read_declaration, read_report

See = Callable[[bytes], None]
"""Is given whole lines of the journal, as they stand there."""
HEAD = re.compile(rb"journal 3 room ([1-9][0-9]{0,6})\n")
CHUNK = 1 << 20
MOST_SHOWN = 90
"""So much of a line is shown."""


def _shown(text: bytes) -> str:
    """A line for a message."""
    return text[:MOST_SHOWN].decode("ascii", "backslashreplace")


def wrong_of(refusal: Refusal) -> str:
    """What is wrong with a line that isn't taken over, in words. One with an operation that isn't declared is none of this journal."""
    if refusal.owed in (None, b"undeclared"):
        return "`{}` isn't a line of a journal".format(_shown(refusal.line))
    return "`{}`, where `{}` is owed".format(_shown(refusal.line), _shown(refusal.owed or b""))


class Reader:
    """Follows a store by its files, by the proved core, which takes over a line exactly if its reply is owed."""

    def __init__(self, path: str, declaration: Optional[bytes] = None) -> None:
        """Raises `StoreError` if there is no such store, or this process may not read it, and `OtherDeclaration` if the store is of another
        one than is given."""
        self.path = os.path.realpath(path)
        self._handle = native.Handle()
        self._given = declaration
        self._beside: Optional[Beside] = None
        self._is_open = False
        self._fd = -1
        self._is_new = True
        self._begin_anew()
        if declaration is not None and self._beside is not None:
            self._has_to_be_of(declaration)

    def _has_to_be_of(self, declaration: bytes) -> None:
        given = Replica(declaration, native.Handle())
        try:
            is_one = given.open().code == native.OPENED
            told = difference(self._replica.declaration(), given.declaration()) if is_one else "the file isn't one"
        finally:
            given.close()
        if told:
            self.close()
            raise OtherDeclaration("{} is of another declaration: {}".format(self.path, told))

    def _begin_anew(self) -> None:
        """Opens the files, and knows nothing of the journal."""
        self.close()
        beside = self.path + ".shared"
        if not os.path.exists(beside):
            raise StoreError("{} isn't there: `wanzoche exec` with --declaration makes a store".format(beside))
        self._beside = self._opened_beside(beside)
        declaration = (self._given or b"").decode("utf-8", "replace") if self._beside is None else self._beside.declaration()
        self._replica = Replica(declaration.encode(), self._handle)
        self._is_open = True
        opened = self._replica.open()
        if opened.code == native.OUT_OF_MEMORY:
            raise MemoryError("no memory to follow {}".format(self.path))
        if opened.code != native.OPENED:
            raise StoreError("{} has no declaration".format(beside))
        names, paths = read_declaration(self._replica.declaration())
        self.operations: Tuple[str, ...] = tuple(names)
        self.paths: Tuple[Path, ...] = tuple(paths)
        self._segment = 0
        self._open_file()

    def _opened_beside(self, path: str) -> Optional[Beside]:
        """The file beside the journal. None if this user may not read it, and knows the declaration: whoever may only read the journal gets
        neither."""
        try:
            return Beside(path)
        except StoreError as error:
            if not isinstance(error.__cause__, OSError) or error.__cause__.errno != errno.EACCES:
                raise
            with telling(self.path, "can't be opened"):
                os.close(open_file(self.path, os.O_RDONLY))
            if self._given is None:
                raise StoreError("{}: who may read the journal alone names its declaration by --declaration".format(error)) from error.__cause__
            return None

    def close(self) -> None:
        """Gives the files and the memory back. A second close does nothing."""
        beside, self._beside = self._beside, None
        is_open, self._is_open = self._is_open, False
        if beside is not None:
            beside.close()
        if is_open:
            self._replica.close()
        self._close_file()

    def _close_file(self) -> None:
        fd, self._fd = self._fd, -1
        if fd >= 0:
            os.close(fd)

    @property
    def lines(self) -> int:
        """How many lines were taken over, of all files of the journal."""
        return self._replica.lines

    def stamp(self) -> Tuple[object, ...]:
        """What is the same as long as neither the files nor who waits have changed. Raises nothing."""
        page = None if self._beside is None else self._beside.stamp()
        return (_stamp_of(self.path), _stamp_of(self.path + ".shared")[:2], page)

    def look(self, see: See, see_again: See = lambda text: None) -> bool:
        """Takes over what was appended since the last look, and hands it on. True if all was read anew, as the first time, and where other
        files are there than before: then all is handed on to the second call, and what was is forgotten.

        Raises `StoreError` if a file is gone or can't be read, and `CorruptStore` for a line that isn't owed; what was before that line
        stays, and the next look reads all anew.
        """
        if not self._is_new and self._has_same_files():
            try:
                self._read_on(see)
                return False
            except CorruptStore:
                pass  # as where a line was read that could be written in part only, and was taken back; else it comes again below
        self._is_new = True
        self._begin_anew()
        self._read_on(see_again)
        self._is_new = False
        return True

    def _has_same_files(self) -> bool:
        """Whether the files are those that are followed, moved away or not. Raises `StoreError` if one is gone."""
        beside = self._beside
        if not self._is_open or beside is not None and not self._is_at(self.path + ".shared", beside.fd):
            return False
        return self._is_at(self.path, self._fd) or _is_same(self._archive(), self._fd)

    def _is_at(self, path: str, fd: int) -> bool:
        if not os.path.exists(path):
            raise StoreError("{} is gone".format(path))
        return _is_same(path, fd)

    def _archive(self) -> str:
        """Where the file that is read will be when it is moved away."""
        return "{}.{}".format(self.path, self._segment + 1)

    def _open_file(self) -> None:
        """Opens the next file of the journal: one that was moved away, or the last."""
        self._close_file()
        self._at, self._first = 0, self._replica.lines
        while True:
            is_moved = os.path.exists(self._archive())
            path = self._archive() if is_moved else self.path
            with telling(path, "can't be opened"):
                self._fd = open_file(path, os.O_RDONLY)
            if is_moved or not os.path.exists(self._archive()) or _is_same(self._archive(), self._fd):
                return
            self._close_file()  # it was moved away meanwhile, and another one stands there

    def _read_on(self, see: See) -> None:
        """All that is there, to the end of the last file."""
        while True:
            is_last = self._is_at(self.path, self._fd)  # asked before it is read: when it has been moved away nothing is added to it
            self._read_file(see)
            if is_last:
                return
            if self._at < os.fstat(self._fd).st_size:
                raise self._broken("a file that was moved away doesn't end with a whole line")
            self._segment += 1
            self._open_file()

    def _read_file(self, see: See) -> None:
        """What is there of this file, up to its last whole line."""
        with telling(self.path, "can't be read"):
            size = os.fstat(self._fd).st_size
            if size < self._at:
                raise self._broken("lines are gone that were there")
            if self._at or self._read_head(size):
                self._read_lines(size, see)

    def _read_lines(self, size: int, see: See) -> None:
        while self._at < size:
            text = read(self._fd, self._at, min(size, self._at + CHUNK))
            whole = text.rfind(b"\n") + 1
            if not whole:
                return
            self._take_over(text[:whole], see)

    def _read_head(self, size: int) -> bool:
        """Goes behind the first line; False if that is being written. Raises `CorruptStore` if it isn't a head."""
        text = read(self._fd, 0, min(size, 64))
        found = HEAD.match(text)
        if found is not None:
            self._at = found.end()
        elif b"\n" in text or len(text) == 64:
            raise self._broken("it has no head as `journal 3 room 1048576`", 1)
        return found is not None

    def _take_over(self, text: bytes, see: See) -> None:
        refusal: Optional[Refusal] = self._replica.take_over(text)
        taken = len(text) if refusal is None else refusal.at
        self._at += taken
        if taken:
            see(text[:taken])
        if refusal is not None:
            raise self._broken(wrong_of(refusal), self._replica.lines - self._first + 2)

    def _broken(self, told: str, line: Optional[int] = None) -> CorruptStore:
        self._is_new = True
        path = self.path if _is_same(self.path, self._fd) else self._archive()
        where = "" if line is None else " in line {}".format(line)
        return CorruptStore("{}{}: {}".format(path, where, told), line)

    def state(self) -> State:
        """How the store is, as far as the journal was read. Raises `StoreError`."""
        if not self._is_open:
            raise StoreError("{} is closed".format(self.path))
        report = read_report(self._replica.report(), lambda worker: Worker(process_name(worker)))
        beside = self._beside
        if beside is None:
            return State(report, in_progress_of(report, self.process_of, None), ())
        workers = {each.number: each.worker for each in self._replica.live()}
        gone = {worker for worker in set(workers.values()) if beside.is_gone(worker)}
        report = report._replace(lost=tuple(each for each in report.live if workers[each.activation] in gone))
        counts = beside.waiting() if beside.has_others() else {}  # those that were killed are counted on
        waiting = tuple(Waiting(name, counts[op]) for op, name in enumerate(self.operations) if counts.get(op))
        return State(report, in_progress_of(report, self.process_of, self.path + ".shared"), waiting)

    def process_of(self, worker: int) -> Optional[str]:
        """What the store knows of a worker's process. Raises `StoreError`."""
        beside = self._beside
        with telling(self.path + ".shared", "can't be read"):
            found = None if beside is None else beside.process_of(worker)
        return None if found is None else str(found)


class OnlyReading:
    """Looks at a store again and again, by its files alone."""

    is_quick = True

    def __init__(self, reader: Reader) -> None:
        self._reader = reader
        self.operations = reader.operations
        self.stamp, self.process_of = reader.stamp, reader.process_of

    def state(self) -> State:
        self._reader.look(lambda text: None)
        return self._reader.state()

    def report(self) -> Report:
        return self.state().report

    def text_from(self, place: int) -> str:
        """As it is called from one end to the next, it is what has come since, or what is behind that when all was read anew."""
        new: List[bytes] = []
        again: List[bytes] = []
        is_again = self._reader.look(new.append, again.append)
        lines = b"".join(again if is_again else new).decode("ascii", "backslashreplace").splitlines(True)
        return "".join(line[line.startswith("+") :] for line in lines[place if is_again else 0 :])


def _stamp_of(path: str) -> Tuple[int, ...]:
    """What is the same as long as a file isn't changed; nothing if it isn't there."""
    try:
        found = os.stat(path)
    except OSError:
        return ()
    return found.st_dev, found.st_ino, found.st_size, found.st_mtime_ns


def _is_same(path: str, fd: int) -> bool:
    """Whether a file is the one that is open. False if it isn't there."""
    try:
        return fd >= 0 and os.path.samestat(os.stat(path), os.fstat(fd))
    except OSError:
        return False
