"""The option `--every` of `exec`: at most once in some time, whoever asks."""

import os
import subprocess
import time
import unittest

from wanzoche import Paths

from .commands import LONGEST, OnCommand
from .stores import THOROUGH

NIGHTLY = """resource cron cell
operation nightly
path nightly end
end
"""
HOUR = 3600 * 1000


class Every(OnCommand, unittest.TestCase):
    DECLARATION = NIGHTLY

    def asks(self, every, *command, options=()):
        return self.runs("exec", "--declaration", self.declaration, "--every", every, *options, "nightly", "--", *command)

    def last_began(self, milliseconds):
        """From now on it began so long ago."""
        paths = self.open(NIGHTLY)
        with paths("nightly") as entry:
            entry.put(time.time_ns() // 1000000 - milliseconds)

    def test_at_most_once_in_that_time(self):
        self.assertEqual(self.asks("1h", "sh", "-c", "echo ran; exit 3"), ("ran\n", "", 3))
        told, why, status = self.asks("1h", "echo", "ran")
        self.assertEqual((told, status), ("", 1))
        self.assertRegex(why, "^wanzoche: nightly began [0-9.]+ seconds ago\n$")
        self.assertEqual(self.asks("1h", "echo", "ran", options=["--conflict-status", "0"]), ("", "", 0))
        self.assertEqual(self.asks("1h", "echo", "ran", options=["--quiet"]), ("", "", 1))
        self.assertEqual(self.runs("exec", "--nonblock", "nightly", "--", "echo", "ran"), ("ran\n", "", 0))  # who doesn't ask isn't held up
        self.assertEqual(self.runs("audit")[0], "sound\n")
        self.assertEqual(self.runs("status")[0], "startable nightly\nfrozen no\n")

    @unittest.skipUnless(THOROUGH, "it takes longer")
    def test_both_sides_of_the_limit(self):
        """A time that is to come is no reason to run it, unless it is further than that: then the clock was set back."""
        for ago, every, is_run in (
            (2 * HOUR + 60000, "2h", True), (2 * HOUR - 600000, "2h", False), (25 * HOUR, "1d", True), (23 * HOUR, "1d", False),
            (HOUR, "59m", True), (HOUR, "70m", False), (HOUR, "3599s", True), (HOUR, "9999s", False),
            (-HOUR, "2h", False), (-3 * HOUR, "2h", True),
        ):  # fmt: skip
            self.last_began(ago)
            with self.subTest(ago=ago, every=every):
                self.assertEqual(self.asks(every, "echo", "ran")[::2], ("ran\n", 0) if is_run else ("", 1))

    def test_several_ask_at_once(self):
        words = self.words("exec", "--declaration", self.declaration, "--every", "1h", "nightly", "--", "echo", "ran")
        running = [subprocess.Popen(words, stdout=subprocess.PIPE, stderr=subprocess.PIPE) for _ in range(3)]
        told = [each.communicate(timeout=LONGEST)[0] for each in running]
        self.assertEqual(sorted(told), [b"", b"", b"ran\n"])
        self.assertEqual(sorted(each.returncode for each in running), [0, 1, 1])

    def test_who_is_killed_has_run_it(self):
        self.asks("1h", "sh", "-c", "kill -KILL $PPID")
        self.assertEqual(self.asks("1h", "echo", "ran")[::2], ("", 1))

    def test_a_cell_with_something_else(self):
        with Paths(NIGHTLY, store=self.file) as paths, paths("nightly") as entry:
            entry.put(7)
        told = "wanzoche: the cell has 7, which isn't a time: --every wants a resource of its own\n"
        self.assertEqual(self.asks("1h", "echo", "ran"), ("", told, 125))
        with Paths(NIGHTLY, store=self.file) as paths, paths("nightly") as entry:
            self.assertEqual(entry.look(), 7)

    @unittest.skipUnless(THOROUGH, "it takes longer")
    def test_what_is_refused(self):
        for text, why in (
            ("tally operation nightly path nightly", "--every keeps a time in a cell, and cron is a tally"),
            ("cell operation nightly, report path nightly ; report", "so wants one at a time, .*: nightly lets others begin"),
            ("cell operation fetch, nightly path fetch ; nightly", "so wants one at a time, .*: nightly comes behind another"),
            ("cell operation nightly path { nightly : 2 }", "so wants one at a time, .*: nightly may run beside itself"),
        ):
            with open(self.declaration, "w") as file:
                file.write("resource cron {} end end".format(text))
            told, error, status = self.asks("1h", "echo", "ran")
            self.assertEqual((told, status), ("", 125))
            self.assertRegex(error, "^wanzoche: .*{}\n$".format(why))
        with open(self.declaration, "w") as file:
            file.write("resource cron cell operation nightly, done path nightly , done end end")
        self.assertRegex(self.asks("1h", "true", options=["--passed", "done"])[1], "^wanzoche: --every goes without --passed and ")
        for every in ("0s", "1", "1w", "-1h", "1.5h", "", "1h ", "12345678901s"):
            self.assertEqual(self.asks(every, "echo", "ran")[::2], ("", 125))
        self.assertEqual(os.listdir(self.folder), ["declaration.path"])


if __name__ == "__main__":
    unittest.main()
