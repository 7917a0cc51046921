"""The command `view` of `wanzoche`: a page of a running store, for browsers of this machine."""

from __future__ import annotations

import contextlib
import json
import os
import shutil
import signal
import tempfile
import threading
import time
import webbrowser
from typing import Any, Callable, Dict, Iterator, Optional, Protocol, Sequence, Tuple

from ._bars import Bars
from ._errors import CorruptStore, StoreError, WanzocheError
from ._page_server import News, Server
from ._served.paths import ServedPaths
from ._showing import Onlooker, State, fields_of
from ._streams import say, write
from ._texts import Path
from ._watching import Output, end

LOOKS = 0.1
"""So often, in seconds, it looks for new lines: so exact are the times of bars."""
SHOWS = 0.5
"""Not more often, in seconds, the page gets something new."""
CHECKS = 1.0
"""So often, in seconds, it looks for what changes without a line, as a death."""


class Source(Protocol):
    """A store as one who only looks on sees it: `Reader` over a file."""

    operations: Tuple[str, ...]
    paths: Tuple[Path, ...]

    @property
    def lines(self) -> int:
        """How many lines are known."""

    def stamp(self) -> object:
        """What is the same as long as no line has come."""

    def look(self, see: Callable[[bytes], None]) -> bool:
        """Hands on the lines that have come. True if what was is to be forgotten."""

    def state(self) -> State:
        """How the store is."""

    def close(self) -> None:
        """Gives all back."""


class Served:
    """The same over a log in PostgreSQL, where whoever looks on has to be a worker, as in `status`."""

    def __init__(self, paths: ServedPaths) -> None:
        self._paths, self._onlooker = paths, Onlooker(paths)
        self.operations, self.paths = paths.operations, paths.paths
        self._known: Optional[int] = None

    @property
    def lines(self) -> int:
        return self._known or 0

    def stamp(self) -> object:
        return self._paths.served.lines()

    def look(self, see: Callable[[bytes], None]) -> bool:
        """The first time the whole log is audited. From then on each line is taken over as it comes, if its reply is owed."""
        if self._known is None:
            verdict = self._paths.audit()
            if not verdict:
                raise CorruptStore("line {} of the log isn't owed".format((verdict.wrong_line or 0) + 1), verdict.wrong_line)
            self._known = self._paths.served.lines()
            return True
        text = "".join(self._paths.served.texts_from(self._known))
        self._known += text.count("\n")
        see(text.encode("ascii", "replace"))
        return False

    def state(self) -> State:
        return self._onlooker.state()

    def close(self) -> None:
        self._paths.close()


class Picture:
    """What the page is told of a store. One thread looks at it, and others hand on what it has seen last."""

    def __init__(self, source: Source, store: str) -> None:
        self._source, self._store = source, store
        self._bars = Bars()
        self._fields: Dict[str, Any] = {}
        self._verdict: Dict[str, Any] = {"sound": None, "lines": 0, "told": None}
        self._began = 0.0
        self._stamp: object = None
        self._is_new = True
        self._shown = float("-inf")
        self._text = b""
        self.news = News(0, b"{}")
        """What is served."""

    def turn(self) -> None:
        """Looks for what has changed, and shows it if it is time."""
        now, fault = time.monotonic(), None
        try:
            stamp = self._source.stamp()
            if stamp != self._stamp:
                self._look(round(time.time(), 3))
                self._stamp, self._is_new = stamp, True
            if now - self._shown < (SHOWS if self._is_new else CHECKS):
                return
            self._read_state()
        except (StoreError, MemoryError) as error:
            self._stamp, fault = None, str(error) or "there is no memory"  # so that it looks again
        self._is_new, self._shown = False, now
        self._show(fault)

    def _look(self, moment: float) -> None:
        """Reads what has come. Who knows the moment of a line is only who sees it come: the journal has no clock."""
        source = self._source
        self._verdict = {"sound": None, "lines": source.lines, "told": None}
        try:
            if source.look(lambda text: self._bars.see(text, moment)):
                self._bars, self._began = Bars(_live_of(source.state())), moment
            self._verdict = {"sound": True, "lines": source.lines, "told": None}
        except CorruptStore as error:
            self._bars = Bars(_live_of(source.state()))
            self._verdict = {"sound": False, "lines": source.lines, "told": str(error)}

    def _read_state(self) -> None:
        state = self._source.state()
        self._fields = fields_of(state, self._source.operations)
        for each in self._fields["in_progress"]:
            each["seen"] = self._bars.began(each["activation"])

    def _show(self, fault: Optional[str]) -> None:
        whole = {
            **self._fields,
            "store": self._store,
            "paths": [path._asdict() for path in self._source.paths],
            "began": self._began,
            "verdict": self._verdict,
            "fault": fault,
            "bars": [bar.told() for bar in self._bars.all(time.time())],
            "whole_since": self._bars.whole_since,
        }
        text = json.dumps(whole, separators=(",", ":")).encode()
        if text != self._text:
            serial = self.news.serial + 1
            self._text, self.news = text, News(serial, b'{"serial":%d,%b' % (serial, text[1:]))


def _live_of(state: State) -> Sequence[Tuple[int, str, int]]:
    return [(each.activation, each.operation, each.worker) for each in state.in_progress]


def page() -> bytes:
    """The page, with `NONCE` in the place of what allows its script and its style."""
    with open(os.path.join(os.path.dirname(os.path.abspath(__file__)), "view.html"), "rb") as file:
        return file.read()


def view(source: Source, store: str, port: int, opens: bool) -> None:
    """Serves the page, and doesn't return: a signal ends it. Raises `Ended`, `KeyboardInterrupt` and `BrokenPipeError`, and `WanzocheError` if the port
    can't be had."""
    signal.signal(signal.SIGTERM, end)
    picture, output = Picture(source, store), Output()
    picture.turn()
    with _serving(port, picture) as server, contextlib.ExitStack() as stack:
        write(server.address + "\n")
        if opens:
            stack.enter_context(_opened(server.address))
        while True:
            output.wait(LOOKS)
            picture.turn()


@contextlib.contextmanager
def _serving(port: int, picture: Picture) -> Iterator[Server]:
    """A server that serves meanwhile."""
    try:
        server = Server(port, page(), lambda: picture.news)
    except OSError as error:
        raise WanzocheError("port {} of 127.0.0.1 can't be had: {}".format(port, error.strerror)) from error
    thread = threading.Thread(target=server.serve_forever, kwargs={"poll_interval": LOOKS}, name="wanzoche view", daemon=True)
    thread.start()
    try:
        yield server
    finally:
        server.shutdown()
        server.server_close()


LEADS = '<!doctype html><meta charset="utf-8"><meta name="referrer" content="no-referrer"><meta http-equiv="refresh" content="0; url={}">\n'


@contextlib.contextmanager
def _opened(address: str) -> Iterator[None]:
    """Opens a browser on a file that leads to the address, which nobody but this user can read. On the browser's command line all users of
    the machine could read the address itself."""
    folder = tempfile.mkdtemp(prefix="wanzoche-view-")
    try:
        path = os.path.join(folder, "view.html")
        with open(os.open(path, os.O_WRONLY | os.O_CREAT | os.O_EXCL, 0o600), "w") as file:
            file.write(LEADS.format(address))
        threading.Thread(target=_open, args=("file://" + path,), daemon=True).start()
        yield
    finally:
        shutil.rmtree(folder, ignore_errors=True)


def _open(address: str) -> None:
    if not webbrowser.open(address):
        say("no browser was found that could be opened: go to the address yourself")
