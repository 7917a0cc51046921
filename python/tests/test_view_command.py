"""The command `view`, as a shell runs it."""

import http.client
import json
import os
import re
import signal
import socket
import subprocess
import sys
import unittest
from urllib.parse import urlsplit

from .commands import OnCommand, running
from .declarations import BOOK, SLOT
from .limits import LONGEST

# Stands for a browser: writes its words, and what is in the file that they name, to the file of the variable.
BROWSER = """
import os, sys
with open(os.environ["TOLD"] + ".part", "w") as told:
    path = sys.argv[1].split("://")[1]
    told.write("{} {:o} {:o}\\n{}".format(sys.argv[1:], os.stat(path).st_mode & 0o777, os.stat(os.path.dirname(path)).st_mode & 0o777, open(path).read()))
os.rename(os.environ["TOLD"] + ".part", os.environ["TOLD"])
"""


class View(OnCommand, unittest.TestCase):
    def setUp(self):
        super().setUp()
        self.paths = self.open(BOOK)

    def views(self, *words, **options):
        return running(self.words("view", *words), stdout=subprocess.PIPE, stderr=subprocess.PIPE, **options)

    def address(self, process):
        told = process.stdout.readline().decode()
        self.assertRegex(told, r"^http://127\.0\.0\.1:\d+/[\w-]{43}/\n$")
        return urlsplit(told.strip())

    def got(self, address, place=""):
        connection = http.client.HTTPConnection(address.hostname, address.port, timeout=LONGEST)
        self.addCleanup(connection.close)
        connection.request("GET", address.path + place)
        answer = connection.getresponse()
        return answer.status, answer.read().decode()

    def news(self, address):
        return json.loads(self.got(address, "news")[1])

    def ends(self, process, status):
        self.assertEqual((process.communicate(timeout=LONGEST)[1], process.returncode), (b"", status))

    def test_a_store_that_changes(self):
        with self.views() as process:
            address = self.address(process)
            status, page = self.got(address)
            self.assertEqual((status, page[:15]), (200, "<!doctype html>"))
            self.assertNotIn("NONCE", page)
            self.assertEqual(self.news(address)["counts"]["in_progress"], 0)
            with self.paths("write"):
                self.until(lambda: self.news(address)["counts"]["in_progress"])
                with running(self.words("exec", "read", "--", "true")) as waiting:
                    self.until(lambda: self.news(address)["counts"]["waiting"])
                    (found,) = self.news(address)["in_progress"]
                    self.assertEqual((found["operation"], found["worker"], found["pid"]), ("write", 1, os.getpid()))
                    self.assertIsNotNone(found["seen"])
                    waiting.send_signal(signal.SIGTERM)
            self.until(lambda: not self.news(address)["counts"]["in_progress"])
            self.paths.rotate()
            self.paths.enter("read").leave()
            self.until(lambda: self.news(address)["bars"][-1][0] == "read")
            self.assertTrue(self.news(address)["verdict"]["sound"])
            process.send_signal(signal.SIGTERM)
            self.ends(process, 128 + signal.SIGTERM)

    def test_what_the_page_loads(self):
        """Nothing of another place, and no text as HTML."""
        with self.views() as process:
            page = self.got(self.address(process))[1]
            process.terminate()
        self.assertEqual(set(re.findall(r"\w+://[^\s\"'`]+", page)), {"http://www.w3.org/2000/svg"})
        self.assertNotRegex(page, r"innerHTML|outerHTML|insertAdjacent|document\.write|eval\(|new Function|style=|\son\w+=")
        self.assertEqual(re.findall(r"<(script|style|link|img|iframe)\b", page), ["link", "style", "script"])

    def test_how_it_ends(self):
        for end, status in ((signal.SIGINT, 130), (signal.SIGTERM, 143)):
            with self.views() as process:
                address = self.address(process)
                idle = socket.create_connection((address.hostname, address.port), LONGEST)  # and one who is served doesn't hold it up
                self.addCleanup(idle.close)
                process.send_signal(end)
                self.ends(process, status)
        with self.views() as process:
            self.address(process)
            process.stdout.close()
            self.assertEqual((process.wait(LONGEST), process.stderr.read()), (141, b""))
        self.paths.enter("write", timeout=0).leave()

    def test_the_port(self):
        with socket.socket() as taken:
            taken.bind(("127.0.0.1", 0))
            taken.listen()
            port = str(taken.getsockname()[1])
            told = "wanzoche: port {} of 127.0.0.1 can't be had: Address already in use\n".format(port)
            self.assertEqual(self.runs("view", "--port", port), ("", told, 1))
        with self.views("--port", port) as process:
            self.assertEqual(self.address(process).port, int(port))
            process.terminate()
        self.assertEqual([self.runs("view", "--port", each)[2] for each in ("0", "-1", "65536", "http", "1.5")], [2] * 5)

    def test_what_can_not_be_viewed(self):
        self.assertEqual(self.runs("view", "--name", "pool")[2], 1)
        self.assertEqual(self.runs_without((1,), "view"), ("", "wanzoche: standard output is closed\n", 1))
        with open(self.declaration, "w") as file:
            file.write(SLOT)
        told, why, status = self.runs("view", "--declaration", self.declaration)
        self.assertEqual((told, status), ("", 1))
        self.assertRegex(why, "is of another declaration: ")
        self.file += ".none"
        told, why, status = self.runs("view")
        self.assertEqual((told, status), ("", 1))
        self.assertRegex(why, "door.log.none.shared isn't there")
        self.assertFalse(os.path.exists(self.file))

    def test_a_corrupt_journal(self):
        """It is shown as one."""
        with open(self.file, "ab") as file:
            file.write(b"1 start write: started 7\n")
        with self.views() as process:
            verdict = self.news(self.address(process))["verdict"]
            self.assertEqual((verdict["sound"], verdict["lines"]), (False, 0))
            self.assertRegex(verdict["told"], "door.log in line 2: `1 start write: started 7`, where `started 0` is owed")
            process.terminate()
        os.truncate(self.file, len(b"journal 3 room 1048576\n"))

    def test_a_browser(self):
        """Its words don't have the token: those every user of the machine can read."""
        told, browser = os.path.join(self.folder, "told"), os.path.join(self.folder, "browser")
        with open(browser, "w") as file:
            file.write("#!{}\n{}".format(sys.executable, BROWSER))
        os.chmod(browser, 0o700)
        with self.views("--open", env=dict(os.environ, BROWSER=browser + " %s", TOLD=told)) as process:
            address = self.address(process)
            self.until(lambda: os.path.exists(told))
            with open(told) as file:
                words, page = file.read().split("\n", 1)
            self.assertRegex(words, r"^\['file:///.*\.html'\] 600 700$")
            self.assertNotIn(address.path.strip("/"), words)
            self.assertIn('content="0; url={}"'.format(address.geturl()), page)
            left = os.path.dirname(words.split("'")[1].split("://")[1])
            self.assertTrue(os.path.exists(left))
            process.send_signal(signal.SIGINT)
            self.ends(process, 130)
        self.assertFalse(os.path.exists(left))

    def test_no_browser(self):
        with self.views("--open", env=dict(os.environ, BROWSER="/none/at/all %s", PATH="/none")) as process:
            self.address(process)
            told = process.stderr.readline().decode()
            self.assertEqual(told, "wanzoche: no browser was found that could be opened: go to the address yourself\n")
            process.terminate()
