"""What happens when the interpreter exits."""

import subprocess
import sys
import unittest

from .limits import LONGEST

BUSY = """
import threading, time
from wanzoche import Paths
paths = Paths("resource book cell operation read, write path { read } , write end end", room=20000)

def work(name):
    while True:
        with paths(name):
            paths.journal()

def audits():
    text = paths.journal()
    while True:
        paths.audit(text)

for name in ("read", "read", "write"):
    threading.Thread(target=work, args=(name,), daemon=True).start()
threading.Thread(target=audits, daemon=True).start()
time.sleep(0.02)
"""


class Exits(unittest.TestCase):
    def exits(self, program):
        ended = subprocess.run([sys.executable, "-c", program], stdout=subprocess.PIPE, stderr=subprocess.STDOUT, timeout=LONGEST)
        self.assertEqual((ended.returncode, ended.stdout), (0, b""))

    def test_daemon_threads_that_are_busy(self):
        for _ in range(10):
            self.exits(BUSY)

    def test_an_entry_in_progress(self):
        self.exits("from wanzoche import Paths\nentry = Paths(\"resource r cell operation a path a end end\").enter(\"a\")")


if __name__ == "__main__":
    unittest.main()
