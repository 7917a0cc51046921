"""Two clients in networks of their own, whose links are cut and mended."""

import ctypes
import os
import subprocess
import time
import unittest
from unittest import mock

from wanzoche import Lost, Paths, Timeout, _served

from .declarations import BOOK
from .limits import LONGEST
from .servers import Server, needs_server, new_name

_NEW_NETWORK = 0x40000000


def _ip(*words):
    return subprocess.run(["ip"] + list(words), stdout=subprocess.DEVNULL, stderr=subprocess.DEVNULL).returncode == 0


class Network:
    """A network namespace with a link to this machine's."""

    def __init__(self, test, number):
        self.name = "wz{}n{}".format(os.getpid(), number)
        self.link, inner = "wz{}h{}".format(os.getpid() % 100000, number), "wz{}i{}".format(os.getpid() % 100000, number)
        self.here, there = "10.213.{}.1".format(number), "10.213.{}.2".format(number)
        if os.getuid() or not _ip("netns", "add", self.name):
            test.skipTest("no network can be made here")
        test.addCleanup(_ip, "netns", "del", self.name)
        inside = ["-n", self.name]
        made = _ip("link", "add", self.link, "type", "veth", "peer", "name", inner) and _ip("link", "set", inner, "netns", self.name)
        made = made and _ip("addr", "add", self.here + "/30", "dev", self.link) and _ip("link", "set", self.link, "up")
        made = made and _ip(*inside, "addr", "add", there + "/30", "dev", inner) and _ip(*inside, "link", "set", inner, "up")
        if not made:
            test.skipTest("no link can be made here")

    def enter(self):
        """This process goes there."""
        with open("/run/netns/" + self.name) as file:
            if ctypes.CDLL(None, use_errno=True).setns(file.fileno(), _NEW_NETWORK):
                raise OSError(ctypes.get_errno(), "setns")

    def cut(self):
        _ip("link", "set", self.link, "down")

    def mend(self):
        _ip("link", "set", self.link, "up")


class Client:
    """A process in a network that does one thing after another, each when it is told to."""

    def __init__(self, test, network, does):
        out, self._into = os.pipe()
        self._out, into = os.pipe()
        self.child = os.fork()
        if self.child:
            os.close(out)
            os.close(into)
            test.addCleanup(os.waitpid, self.child, 0)
            test.addCleanup(os.close, self._into)
            return
        os.close(self._into)
        try:
            network.enter()
            for told in does():
                os.write(into, (told + "\n").encode())
                if not os.read(out, 1):
                    break
        except BaseException as error:
            os.write(into, "{}: {}\n".format(type(error).__name__, error).encode())
        finally:
            os._exit(0)

    def told(self):
        """What it says next."""
        text = b""
        while not text.endswith(b"\n"):
            part = os.read(self._out, 1)
            if not part:
                break
            text += part
        return text.decode().strip()

    def goes_on(self):
        os.write(self._into, b"x")


@needs_server
class Partitions(unittest.TestCase):
    def setUp(self):
        heartbeat = _served.beginning.HEARTBEAT.replace("idle = 5", "idle = 1").replace("interval = 2", "interval = 1").replace("= 10000", "= 3000")
        libpq = {**_served.connecting.FOR_LIBPQ, "keepalives_idle": "1", "keepalives_interval": "1", "tcp_user_timeout": "3000"}
        for patch in (mock.patch("wanzoche._served.beginning.HEARTBEAT", heartbeat), mock.patch.object(_served.connecting, "FOR_LIBPQ", libpq)):
            patch.start()
            self.addCleanup(patch.stop)
        self.networks = [Network(self, number) for number in (1, 2)]
        self.server = Server(listen_addresses="*")
        self.addCleanup(self.server.end)
        self.name = new_name()

    def made(self, network):
        return Paths(BOOK, store=self.server.tcp_url(network.here), name=self.name, grace=20.0, outage=LONGEST)

    def first(self):
        """Holds a write while its link is cut for a moment, and then for long."""
        paths = self.made(self.networks[0])
        entry = paths.enter("write")
        yield "in as " + paths.worker
        yield "holds {}".format(entry.look())
        try:
            entry.leave()
        except Lost:
            yield "lost"
        with paths("read", timeout=LONGEST) as again:
            yield "in as {} by {}".format(again.worker, again.token)

    def second(self):
        paths = self.made(self.networks[1])
        yield "there"
        try:
            paths.enter("read", timeout=2).leave()
        except Timeout:
            yield "blocked"
        began = time.monotonic()
        with paths("read", timeout=LONGEST) as entry:
            yield "in as {} by {} {}".format(entry.worker, entry.token, "soon" if time.monotonic() - began < 1 else "later")
        yield "sound" if paths.audit() else "broken"

    def test_a_link_that_is_cut_for_a_moment_and_for_long(self):
        first = Client(self, self.networks[0], self.first)
        self.assertEqual(first.told(), "in as process 1")
        second = Client(self, self.networks[1], self.second)
        self.assertEqual(second.told(), "there")
        self.networks[0].cut()
        second.goes_on()
        time.sleep(0.7)
        self.networks[0].mend()
        self.assertEqual(second.told(), "blocked")
        first.goes_on()
        self.assertEqual(first.told(), "holds 0")
        self.networks[0].cut()
        second.goes_on()
        self.assertEqual(second.told(), "in as process 2 by 1 later")
        self.networks[0].mend()
        first.goes_on()
        self.assertEqual(first.told(), "lost")
        first.goes_on()
        self.assertEqual(first.told(), "in as process 3 by 2")
        second.goes_on()
        self.assertEqual(second.told(), "sound")


if __name__ == "__main__":
    unittest.main()
