"""Stores for tests: each in a folder of its own, which goes when the test is over."""

import os
import signal
import sys
import tempfile
import time
import warnings

from wanzoche import Paths

from .limits import LONGEST

THOROUGH = not os.environ.get("WANZOCHE_FEWER")
"""Whether tests that take long are made, too."""

ANOTHER = 54321
"""The number of a user and of a group that aren't those of the tests."""


class OverAStore:
    """For a TestCase: processes that open a store, and die."""

    grace = 0.0
    """So many seconds one who is dead is taken for alive."""

    def setUp(self):
        super().setUp()
        quiet = warnings.catch_warnings()
        quiet.__enter__()
        self.addCleanup(quiet.__exit__, None, None, None)
        warnings.simplefilter("ignore", ResourceWarning)  # of entries that are dropped when something fails

    def open(self, text, **options):
        """Paths that are closed when the test is over."""
        paths = self.made(text, **options)
        self.addCleanup(paths.close)
        return paths

    def child(self, work):
        """Begins a process that does this, and dies by SIGKILL behind it: its number."""
        child = os.fork()
        if child:
            return child
        try:
            work()
        except BaseException as error:
            print("in a child: {}: {}".format(type(error).__name__, error), file=sys.stderr, flush=True)
        os.kill(os.getpid(), signal.SIGKILL)

    def dies(self, work):
        """The same, and waits until it is dead."""
        os.waitpid(self.child(work), 0)

    def until(self, condition, seconds=LONGEST):
        """Waits until something holds."""
        end = time.monotonic() + seconds
        while not condition():
            self.assertLess(time.monotonic(), end, "it never comes")
            time.sleep(0.001)


class InFolder(OverAStore):
    """For a TestCase: a folder, and openings of stores in it."""

    def setUp(self):
        super().setUp()
        folder = tempfile.TemporaryDirectory(prefix="wanzoche-")
        self.addCleanup(folder.cleanup)
        self.folder = folder.name
        self.file = os.path.join(self.folder, "door.log")

    def made(self, text, **options):
        """Paths that nobody closes."""
        return Paths(text, store=self.file, **options)

    def text(self):
        """What stands in the file."""
        with open(self.file, "rb") as file:
            return file.read()

    def lines(self):
        """The lines of the journal, as they stand in the file, without their marks."""
        return [line.lstrip("+") for line in self.text().decode().splitlines()[1:]]

    def as_another(self, work, *groups):
        """The same as another user with these groups, where that can be: only root can. The user may write to the folder."""

        def is_another():
            os.setgroups(groups)
            os.setgid(ANOTHER)
            os.setuid(ANOTHER)
            work()

        os.chmod(self.folder, 0o777)
        self.ends_well(work if os.getuid() else is_another)

    def ends_well(self, work):
        """In another process, which has to end well."""
        child = os.fork()
        if child == 0:
            try:
                work()
                os._exit(0)
            except BaseException as error:
                print("in a child: {}: {}".format(type(error).__name__, error), file=sys.stderr, flush=True)
            finally:
                os._exit(1)
        self.assertEqual(os.waitpid(child, 0)[1], 0)
