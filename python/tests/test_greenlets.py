"""gevent and eventlet: paths in memory work where they have put greenlets in the place of threads, and stores say that they don't."""

import importlib.util
import subprocess
import sys
import unittest

from .limits import LONGEST
from .stores import InFolder

PATCHED = {
    "gevent": "from gevent import monkey, spawn; monkey.patch_all()\ndef join(greenlet): greenlet.join()\n",
    "eventlet": "import eventlet; eventlet.monkey_patch(); from eventlet import spawn\ndef join(greenlet): greenlet.wait()\n",
}
MEMORY = """
import time
from wanzoche import Paths, _waiting

_waiting.FIRST_LOOK = 0.05
paths, told = Paths("resource book cell operation read, write path { read } , write end end"), []

def reads():
    with paths("read") as entry:
        told.append("read by " + entry.worker)
        while "write" not in paths.waiting():
            time.sleep(0.001)
        time.sleep(0.2)
    told.append("read")

def writes():
    with paths("write", timeout=600):
        told.append("written")

for each in [spawn(reads), spawn(reads), spawn(writes)]:
    join(each)
print(sorted(told[:2]), told[2:])
with paths("read"):
    try:
        paths.enter("write", timeout=0.01)
    except TimeoutError:
        print("timeout")
"""
STORE = """
import time, warnings
from wanzoche import Paths

with warnings.catch_warnings(record=True) as told:
    warnings.simplefilter("always")
    paths = Paths("resource book cell operation read path read end end", store={!r})
told = [each for each in told if each.category is RuntimeWarning]
print(*(each.message for each in told), [each.filename for each in told])
paths.try_enter("read").leave()
"""


class Greenlets(InFolder, unittest.TestCase):
    def says(self, package, program):
        """What a program writes in which this package has patched Python."""
        if importlib.util.find_spec(package) is None:
            self.skipTest("there is no {}".format(package))
        run = [sys.executable, "-c", PATCHED[package] + program]
        ended = subprocess.run(run, stdout=subprocess.PIPE, stderr=subprocess.PIPE, timeout=LONGEST)
        self.assertEqual((ended.returncode, b"waits for itself" in ended.stderr), (0, False), ended.stderr.decode())
        return ended.stdout.decode()

    def in_memory(self, package):
        wanted = "['read by thread 1', 'read by thread 2'] ['read', 'read', 'written']\ntimeout\n"
        self.assertEqual(self.says(package, MEMORY), wanted)

    def over_a_store(self, package):
        wanted = "{} has put greenlets in the place of threads, and over a store who waits holds up all of them: docs/shared.md has what helps"
        self.assertEqual(self.says(package, STORE.format(self.file)), wanted.format(package) + " ['<string>']\n")

    def test_gevent(self):
        self.in_memory("gevent")

    def test_gevent_over_a_store(self):
        self.over_a_store("gevent")

    def test_eventlet(self):
        self.in_memory("eventlet")

    def test_eventlet_over_a_store(self):
        self.over_a_store("eventlet")


if __name__ == "__main__":
    unittest.main()
