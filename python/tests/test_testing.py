"""wanzoche.testing: a test that leaves something in progress or waiting fails, and says why."""

import os
import subprocess
import sys
import tempfile
import threading
import unittest
from unittest import mock

from wanzoche import CorruptStore, Paths
from wanzoche._forks import all_paths
from wanzoche.testing import nothing_left

from .declarations import BOOK
from .limits import LONGEST
from .stores import InFolder

CONFTEST = 'pytest_plugins = ["wanzoche.testing"]\n'
TESTS = """
import pytest
from wanzoche import Paths

paths = Paths("resource book cell operation read, write path { read } , write end end")
kept = []


@pytest.mark.usefixtures("nothing_left_of_paths")
def test_that_leaves():
    with paths("read"):
        pass


@pytest.mark.usefixtures("nothing_left_of_paths")
def test_that_keeps():
    kept.append(paths.enter("read"))
"""


class Left(InFolder, unittest.TestCase):
    def setUp(self):
        super().setUp()
        others = all_paths()  # of other tests
        patched = mock.patch("wanzoche.testing.all_paths", lambda: [each for each in all_paths() if each not in others])
        patched.start()
        self.addCleanup(patched.stop)

    def test_what_is_left_in_progress(self):
        paths = Paths(BOOK)
        entry = paths.enter("read")
        with self.assertRaises(AssertionError) as caught:
            with nothing_left():
                other = paths.enter("read")
        self.assertEqual(str(caught.exception), "the paths aren't left as they were:\n  read is in progress, begun by thread 1")
        for each in (entry, other):
            each.leave()

    def test_a_store_that_cannot_be_asked(self):
        """What is in progress there isn't known, and the others are looked at all the same."""
        stored, paths = self.open(BOOK), Paths(BOOK)
        with open(self.file, "a") as file:
            file.write("7 start write: started 9\n")
        with self.assertRaises(CorruptStore):
            stored.report()
        with self.assertRaisesRegex(AssertionError, "^the paths aren't left as they were:\n  read is in progress, begun by thread 1$"):
            with nothing_left():
                entry = paths.enter("read")
        entry.leave()

    def test_who_waits(self):
        paths = Paths(BOOK)
        entry = paths.enter("read")
        thread = threading.Thread(target=lambda: paths.enter("write").leave())
        with self.assertRaises(AssertionError) as caught:
            with nothing_left(paths):
                thread.start()
                while not paths.waiting():
                    pass
        wanted = "1 wait: write is blocked: path 0 of book: { read } , write; in progress: read by thread 1"
        self.assertEqual(str(caught.exception), "the paths aren't left as they were:\n  " + wanted)
        entry.leave()
        thread.join()

    def test_nothing_is_left(self):
        paths, other, closed = Paths(BOOK), Paths(BOOK), Paths(BOOK)
        entry = other.enter("read")
        with nothing_left():
            paths.enter("read").leave()
            closed.close()
        with nothing_left(paths):
            entry.leave()

    def test_an_exception_is_that_of_the_block(self):
        paths, entries = Paths(BOOK), []
        with self.assertRaises(ZeroDivisionError):
            with nothing_left():
                entries.append(paths.enter("read"))
                1 // 0
        entries[0].leave()

    def test_what_others_do_at_a_store_is_theirs(self):
        a, b = self.open(BOOK), self.open(BOOK)
        with nothing_left(a):
            entry = b.enter("read")
        with self.assertRaisesRegex(AssertionError, "read is in progress, begun by process 1$"):
            with nothing_left(a):
                other = a.enter("read")
        entry.leave()
        other.leave()

    def test_pytest(self):
        run = [sys.executable, "-m", "pytest"]
        if subprocess.run([*run, "--version"], stdout=subprocess.DEVNULL, stderr=subprocess.DEVNULL).returncode:
            self.skipTest("there is no pytest")
        with tempfile.TemporaryDirectory() as folder:
            for name, text in (("conftest.py", CONFTEST), ("test_it.py", TESTS)):
                with open(os.path.join(folder, name), "w") as file:
                    file.write(text)
            ended = subprocess.run([*run, "-q", "-p", "no:cacheprovider", folder], stdout=subprocess.PIPE, timeout=LONGEST)
        self.assertIn(b"AssertionError: the paths aren't left as they were:", ended.stdout)
        self.assertIn(b"read is in progress, begun by thread 1", ended.stdout)
        self.assertRegex(ended.stdout, rb"2 passed, 1 error in ")


if __name__ == "__main__":
    unittest.main()
