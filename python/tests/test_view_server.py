"""The server of the command `view`: who gets the page, and who can't stop it."""

import http.client
import re
import socket
import threading
import unittest

import wanzoche._page_server as page_server
from wanzoche._page_server import LONGEST_LINE, LONGEST_REQUEST, MOST, News, Server

from .limits import LONGEST
from .stores import OverAStore

PAGE = b'<script nonce="NONCE"></script>'


class Served(OverAStore, unittest.TestCase):
    def setUp(self):
        super().setUp()
        self.news = News(7, b'{"serial":7}')
        self.server = Server(0, PAGE, lambda: self.news)
        thread = threading.Thread(target=self.server.serve_forever, args=(0.01,))
        thread.start()
        for each in (thread.join, self.server.server_close, self.server.shutdown):
            self.addCleanup(each)
        self.port = self.server.server_address[1]
        self.host = "127.0.0.1:{}".format(self.port)
        self.place = "/{}/".format(self.server.token)

    def connected(self):
        connection = socket.create_connection(("127.0.0.1", self.port), LONGEST)
        self.addCleanup(connection.close)
        return connection

    def asked(self, place=None, fields=(), method="GET"):
        """The answer to a request with these fields, beside its host if there is none among them, and the text of it."""
        told = dict(fields)
        lines = ["{} {} HTTP/1.1".format(method, self.place if place is None else place)]
        lines += [] if "Host" in told else ["Host: " + self.host]
        lines += ["{}: {}".format(*each) for each in fields if each[1] is not None]
        return self.answered("\r\n".join(lines + ["", ""]).encode("latin-1"), method)

    def answered(self, request, method="GET"):
        connection = self.connected()
        connection.sendall(request)
        answer = http.client.HTTPResponse(connection, method=method)
        answer.begin()
        return answer, answer.read()

    def status(self, *given, **named):
        return self.asked(*given, **named)[0].status

    def test_the_page(self):
        nonces = set()
        for _ in range(2):
            answer, text = self.asked()
            self.assertEqual((answer.status, answer.version), (200, 11))
            nonce = re.search(b'<script nonce="(.{20,})">', text).group(1).decode()
            policy = answer.getheader("Content-Security-Policy")
            self.assertEqual(policy.count("'nonce-{}'".format(nonce)), 2)
            self.assertIn("default-src 'none'", policy)
            self.assertIn("frame-ancestors 'none'", policy)
            self.assertNotIn("unsafe", policy)
            nonces.add(nonce)
        self.assertEqual(len(nonces), 2)

    def test_what_each_answer_says(self):
        """None allows another origin anything, is kept, or is taken for something else."""
        answers = [self.asked()[0], self.asked(self.place + "news")[0], self.asked("/")[0], self.asked(method="POST")[0]]
        answers.append(self.answered(b"nonsense\r\n\r\n")[0])
        self.assertEqual([each.status for each in answers], [200, 200, 404, 405, 400])
        for each in answers:
            fields = {name.lower(): value for name, value in each.getheaders()}
            self.assertEqual([name for name in fields if name.startswith("access-control")], [])
            self.assertEqual((fields["cache-control"], fields["connection"], fields["referrer-policy"]), ("no-store", "close", "no-referrer"))
            self.assertEqual((fields["x-content-type-options"], fields["cross-origin-resource-policy"]), ("nosniff", "same-origin"))
            self.assertIn("default-src 'none'", fields["content-security-policy"])

    def test_the_news(self):
        place = self.place + "news"
        self.assertEqual(self.asked(place)[1], b'{"serial":7}')
        self.assertEqual(self.asked(place + "?seen=6")[1], b'{"serial":7}')
        answer, text = self.asked(place + "?seen=7")
        self.assertEqual((answer.status, text), (204, b""))
        self.news = News(8, b"{}")
        self.assertEqual(self.asked(place + "?seen=7")[1], b"{}")

    def test_only_this_machine_can_ask(self):
        self.assertEqual(self.server.socket.getsockname()[0], "127.0.0.1")

    def test_the_token(self):
        token = self.server.token
        self.assertGreaterEqual(len(token), 43)
        for place in ("/", "//", "/news", "/" + token[:-1] + "/", "/x" + token + "/", "/" + token, "/%s/" % token.swapcase(), "/\xe4/", "*"):
            self.assertEqual(self.status(place), 404, place)
        for place in ("x", "news/", "view.html", "../news"):
            self.assertEqual(self.status(self.place + place), 404, place)
        self.assertEqual([self.status(each + self.place) for each in ("http://" + self.host, "x")], [404, 404])

    def test_the_host(self):
        """A name that somebody else has made to mean this machine isn't one of it."""
        good = [self.host, "localhost:{}".format(self.port)]
        self.assertEqual([self.status(fields=[("Host", each)]) for each in good], [200, 200])
        bad = ["evil.example", "evil.example:{}".format(self.port), "127.0.0.1", "localhost", self.host + "0", "127.0.0.1:1", "", None]
        self.assertEqual([self.status(fields=[("Host", each)]) for each in bad], [403] * len(bad))
        self.assertEqual(self.status(fields=[("Host", self.host), ("host", "evil.example")]), 403)

    def test_the_origin(self):
        place = self.place + "news"
        self.assertEqual(self.status(place, [("Origin", "http://" + self.host)]), 200)
        others = ["http://evil.example", "null", "https://" + self.host, "http://127.0.0.1", "http://localhost:{}".format(self.port), ""]
        self.assertEqual([self.status(place, [("Origin", each)]) for each in others], [403] * len(others))
        self.assertEqual(self.status(place, [("Origin", "http://" + self.host), ("origin", "http://evil.example")]), 403)
        sites = {"same-origin": 200, "none": 200, "same-site": 403, "cross-site": 403}
        self.assertEqual({site: self.status(place, [("Sec-Fetch-Site", site)]) for site in sites}, sites)
        self.assertEqual(self.status(fields=[("Sec-Fetch-Site", "cross-site"), ("Sec-Fetch-Mode", "navigate")]), 200)

    def test_only_get(self):
        for method in ("POST", "PUT", "DELETE", "HEAD", "OPTIONS", "TRACE", "CONNECT", "get", "send_error"):
            answer, text = self.asked(method=method)
            self.assertEqual((answer.status, answer.getheader("Allow")), (405, "GET"), method)
        connection = self.connected()
        connection.sendall("HEAD {} HTTP/1.1\r\nHost: {}\r\n\r\n".format(self.place, self.host).encode())
        self.assertTrue(connection.makefile("rb").read().endswith(b"\r\n\r\n"))

    def test_what_is_too_long_or_no_request(self):
        self.assertEqual(self.status("/" + "x" * (LONGEST_LINE - 20)), 404)
        self.assertEqual(self.answered(b"G" * (LONGEST_LINE + 1))[0].status, 414)
        whole = b"GET / HTTP/1.1\r\n"
        self.assertEqual(self.answered(whole + (b"x: %b\r\n" % (b"y" * 1019)) * 31 + b"z" * (LONGEST_REQUEST - 31 * 1024 - 16))[0].status, 431)
        self.assertEqual(self.answered(whole + b"x: y\r\n" * 200 + b"\r\n")[0].status, 431)
        for request in (b"GET\r\n\r\n", b"GET / HTTP/x\r\n\r\n", b"a b c d HTTP/1.1\r\n\r\n", b"\x16\x03\x01\x02 \r\n\r\n"):
            self.assertEqual(self.answered(request)[0].status, 400, request)
        self.assertEqual(self.answered(b"GET / HTTP/3.0\r\n\r\n")[0].status, 505)
        self.assertEqual(self.status(), 200)

    def test_what_came_is_not_said_again(self):
        for request in (b"GET /<b> HTTP/1.1\r\n\r\n", b"GET / HTTP/<b>\r\n\r\n", b"<b>\r\n\r\n", b"<b> / HTTP/1.1\r\n\r\n"):
            self.assertNotIn(b"<b>", self.answered(request)[1])

    def test_many_who_say_nothing(self):
        """They get their connections and no more than these. When they are gone others are served."""
        many = [self.connected() for _ in range(MOST)]
        for each in many:
            each.sendall(b"GET ")
        self.until(lambda: self.server._free._value == 0)
        for _ in range(10):
            self.assertEqual(self.ends(self.connected()), b"")
        for each in many:
            each.close()
        self.until(lambda: self.server._free._value == MOST)
        self.assertEqual(self.status(), 200)

    def ends(self, connection):
        """What comes until it ends."""
        try:
            return connection.recv(1)
        except ConnectionError:
            return b""

    def shortened(self, name, seconds):
        """From now on a request, or an answer, may take only so long."""
        self.addCleanup(setattr, page_server, name, getattr(page_server, name))
        setattr(page_server, name, seconds)

    def test_who_is_slow(self):
        """One who sends a byte now and then doesn't get more time by that."""
        self.shortened("REQUEST", 0.3)
        slow = self.connected()
        with self.assertRaises(OSError):
            while True:
                slow.sendall(b"x")
                slow.settimeout(0.05)
                try:
                    if not slow.recv(1):
                        raise ConnectionError
                except socket.timeout:
                    pass
        self.until(lambda: self.server._free._value == MOST)

    def test_who_reads_nothing(self):
        self.news = News(9, b"x" * 50_000_000)
        reads_nothing = self.connected()
        self.shortened("ANSWER", 0.3)
        reads_nothing.sendall("GET {}news HTTP/1.1\r\nHost: {}\r\n\r\n".format(self.place, self.host).encode())
        self.assertNotEqual(reads_nothing.recv(1, socket.MSG_PEEK), b"")
        self.until(lambda: self.server._free._value == MOST)

    def test_who_leaves(self):
        """A connection that is cut, before or behind its request, is no fault."""
        for sent in (b"", b"GET ", "GET {}news HTTP/1.1\r\nHost: {}\r\n\r\n".format(self.place, self.host).encode()):
            connection = self.connected()
            connection.sendall(sent)
            connection.setsockopt(socket.SOL_SOCKET, socket.SO_LINGER, b"\1\0\0\0\0\0\0\0")
            connection.close()
        self.until(lambda: self.server._free._value == MOST)
        self.assertEqual(self.status(), 200)
