"""A page that is served to browsers of this machine and of one user: on the loopback address alone, by HTTP/1.1, and only to who knows the
token in its address.

A page of another origin can't read it: it doesn't know the token, the names of hosts and origins are checked (so a name that is made to mean
this address doesn't help), and no answer allows another origin anything. Nobody can stop the server: each request has its time and its
length, and so many connections are served at once.
"""

from __future__ import annotations

import hmac
import http.server
import io
import secrets
import socket
import socketserver
import threading
import time
from typing import Any, Callable, Dict, List, NamedTuple, Optional, Tuple

REQUEST, ANSWER = 10.0, 10.0
"""So many seconds a request may take, and so many its answer."""
LONGEST_LINE = 4096
"""So many bytes the first line of a request has at most."""
LONGEST_REQUEST = 32768
"""So many bytes are read of a request."""
MOST = 32
"""So many connections are served at once. More are closed at once."""
HTML, JSON, TEXT = "text/html; charset=utf-8", "application/json", "text/plain; charset=utf-8"
POLICY = (
    "default-src 'none'; script-src 'nonce-{0}'; style-src 'nonce-{0}'; connect-src 'self'; img-src data:; base-uri 'none'; form-action 'none'; "
    "frame-ancestors 'none'"
)
SAFE = {
    "Cache-Control": "no-store",
    "Connection": "close",
    "Cross-Origin-Opener-Policy": "same-origin",
    "Cross-Origin-Resource-Policy": "same-origin",
    "Referrer-Policy": "no-referrer",
    "X-Content-Type-Options": "nosniff",
    "X-Frame-Options": "DENY",
}
"""What each answer says."""
Refusal = Tuple[int, str]
NOT_FOUND: Refusal = (404, "there is nothing here")


class News(NamedTuple):
    """What the page shows, with a number that rises with each change."""

    serial: int
    text: bytes


class Server(socketserver.ThreadingMixIn, http.server.HTTPServer):
    """Serves a page, and the news that it asks for. `serve_forever` serves until `shutdown`."""

    daemon_threads = True
    block_on_close = False
    request_queue_size = 64

    def __init__(self, port: int, page: bytes, news: Callable[[], News]) -> None:
        """Listens on this port, or on a free one for 0. The page is a text of HTML in which `NONCE` stands for what allows its script and
        its style. `news` is called by several threads. Raises `OSError` if the port can't be had."""
        self.page, self.news = page, news
        self.token = secrets.token_urlsafe(32)
        self._free = threading.Semaphore(MOST)
        super().__init__(("127.0.0.1", port), _Answer)
        self.hosts = tuple("{}:{}".format(name, self.server_address[1]) for name in ("127.0.0.1", "localhost"))
        """What a browser of this machine calls it."""

    @property
    def address(self) -> str:
        """The page's address."""
        return "http://{}/{}/".format(self.hosts[0], self.token)

    def server_bind(self) -> None:
        """As of any server. That of HTTP looks for a name of the address, which may take long."""
        socketserver.TCPServer.server_bind(self)
        self.server_name, self.server_port = "127.0.0.1", self.server_address[1]

    def process_request(self, request: Any, client_address: Any) -> None:
        """Serves a connection in a thread of its own, or closes it if there are too many."""
        if not self._free.acquire(blocking=False):
            self.shutdown_request(request)
            return
        try:
            super().process_request(request, client_address)
        except BaseException:
            self._free.release()
            raise

    def process_request_thread(self, request: Any, client_address: Any) -> None:
        """In that thread."""
        try:
            super().process_request_thread(request, client_address)
        finally:
            self._free.release()

    def handle_error(self, request: Any, client_address: Any) -> None:
        """Says nothing of a connection that breaks."""


class _TooLong(OSError):
    """More comes than is read of a request."""


class _Limited(io.RawIOBase):
    """What comes from a connection, up to a length and a time. Raises `_TooLong` behind the one, and `OSError` behind the other."""

    def __init__(self, connection: socket.socket) -> None:
        super().__init__()
        self._connection = connection
        self._until = time.monotonic() + REQUEST
        self._rest = LONGEST_REQUEST

    def readable(self) -> bool:
        return True

    def readinto(self, buffer: Any) -> int:
        wanted = min(len(buffer), self._rest)
        if not wanted:
            raise _TooLong
        self._connection.settimeout(max(self._until - time.monotonic(), 0.001))
        taken = self._connection.recv_into(memoryview(buffer)[:wanted])
        self._rest -= taken
        return taken


class _Answer(http.server.BaseHTTPRequestHandler):
    """Answers one request."""

    server: Server
    protocol_version = default_request_version = "HTTP/1.1"

    def setup(self) -> None:
        super().setup()
        self.rfile: Any = io.BufferedReader(_Limited(self.connection))
        self.command, self.request_version, self.requestline = "", self.protocol_version, ""

    def handle(self) -> None:
        self.close_connection = True
        try:
            self.raw_requestline = self.rfile.readline(LONGEST_LINE + 1)
            if len(self.raw_requestline) > LONGEST_LINE:
                self.send_error(414)
            elif self.raw_requestline and self.parse_request():
                self._answer()
        except _TooLong:
            self.send_error(431)
        except OSError:
            pass  # the other end is gone, or takes too long

    def version_string(self) -> str:
        return "wanzoche"

    def log_message(self, format: str, *given: Any) -> None:
        """Says nothing: addresses have the token."""

    def send_error(self, code: int, message: Any = None, explain: Any = None) -> None:
        """Refuses a request, without a word of what came."""
        words = message if code in (403, 404, 405) else "the request is refused"
        self._send(code, TEXT, (str(words) + "\n").encode(), {"Allow": "GET"} if code == 405 else {})

    def _answer(self) -> None:
        refusal = self._refusal()
        if refusal is not None:
            self.send_error(*refusal)
            return
        place, _, words = self.path.split("/", 2)[2].partition("?")
        if place == "":
            nonce = secrets.token_urlsafe(16)
            self._send(200, HTML, self.server.page.replace(b"NONCE", nonce.encode()), {"Content-Security-Policy": POLICY.format(nonce)})
        elif place == "news":
            self._send_news(words)
        else:
            self.send_error(*NOT_FOUND)

    def _send_news(self, words: str) -> None:
        """The news, unless the page has them: it names the last that it got."""
        news = self.server.news()
        if words == "seen={}".format(news.serial):
            self._send(204, JSON, b"", {})
        else:
            self._send(200, JSON, news.text, {})

    def _refusal(self) -> Optional[Refusal]:
        """Why the request isn't answered, with the status; None if it is."""
        if self.command != "GET":
            return 405, "only GET is answered"
        hosts = self._all("Host")
        if len(hosts) != 1 or hosts[0] not in self.server.hosts:
            return 403, "this host isn't served here"
        if any(origin != "http://" + hosts[0] for origin in self._all("Origin")):
            return 403, "no other origin is answered"
        if any(site not in ("same-origin", "none") for site in self._all("Sec-Fetch-Site")) and self._all("Sec-Fetch-Mode") != ["navigate"]:
            return 403, "no other origin is answered"
        parts = self.path.split("/", 2)
        if len(parts) != 3 or parts[0] or not hmac.compare_digest(parts[1].encode(), self.server.token.encode()):
            return NOT_FOUND
        return None

    def _all(self, name: str) -> List[str]:
        """The values of all fields with this name."""
        return [str(value) for value in self.headers.get_all(name, [])]

    def _send(self, code: int, kind: str, body: bytes, fields: Dict[str, str]) -> None:
        """Sends the answer. The time counts anew."""
        self.connection.settimeout(ANSWER)
        self.send_response(code)
        policy = {"Content-Security-Policy": "default-src 'none'; frame-ancestors 'none'"}
        for name, value in {**SAFE, **policy, **fields}.items():
            self.send_header(name, value)
        if code != 204:
            self.send_header("Content-Type", kind)
            self.send_header("Content-Length", str(len(body)))
        self.end_headers()
        if self.command != "HEAD":
            self.wfile.write(body)
