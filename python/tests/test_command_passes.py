"""A pass: an operation that begins and ends at once, by the command `pass` or behind another in one hold of the turn."""

import os
import resource
import signal
import threading
import unittest

from wanzoche import Lost, Paths, StoreError
from wanzoche._executing import _end_with
from wanzoche._passing import make_pass, pass_at_once

from .commands import CROWDED, DELIVERY, OnCommand, in_file
from .interrupts import at_instruction
from .limits import LONGEST
from .stores import THOROUGH, InFolder

BESIDE = """resource delivery cell
operation build, built, thief
path build ; (built , thief) end
end
"""
SWAP = """resource table cell
operation load, swap
path load ; swap end
end
"""


class ByHand(OnCommand, unittest.TestCase):
    """What stands between two operations when who made the first has died."""

    DECLARATION = SWAP

    def test_who_loaded_died_behind_it(self):
        def loads():
            with Paths(SWAP, store=self.file) as paths:
                paths.enter("load").leave()
                os.kill(os.getpid(), signal.SIGKILL)

        self.dies(loads)
        self.assertEqual(self.runs("exec", "--nonblock", "load", "--", "true")[2], 1)
        self.assertEqual(self.runs("pass", "swap"), ("passed 1\n", "", 0))
        self.assertEqual(self.runs("exec", "--nonblock", "load", "--", "echo", "loaded")[0], "loaded\n")
        self.assertRegex(self.runs("log")[0], "\n(\\d+) start swap: started 1\n\\1 finish 1: finished\n")

    def test_who_loaded_died_within(self):
        """What is in progress is named, and isn't finished without being told so."""
        self.dies(lambda: setattr(self, "kept", Paths(SWAP, store=self.file).enter("load")))
        told, why, status = self.runs("pass", "swap")
        self.assertEqual((told, status), ("", 1))
        self.assertRegex(why, "^wanzoche: swap wasn't passed: swap is blocked: path 0 .* in progress: load by process 1; ")
        self.assertRegex(why, "; process 1 is dead: `wanzoche recover 1` finishes what it has\n$")
        self.assertEqual(self.runs("recover", "1")[0], "finished 1\n")
        self.assertEqual(self.runs("pass", "swap"), ("passed 1\n", "", 0))

    def test_faults(self):
        self.assertRegex(self.runs("pass", "load")[1], "shared isn't there: ")
        self.assertEqual(self.runs("pass", "--declaration", self.declaration, "load")[2], 1)
        self.assertEqual(os.listdir(self.folder), ["declaration.path"])
        self.open(SWAP)
        self.assertEqual(self.runs("pass", "none"), ("", "wanzoche: no operation 'none' is declared; there are load, swap\n", 1))
        self.assertEqual([self.runs("pass", *words)[2] for words in ([], ["--timeout", "soon", "load"], ["load", "swap"])], [2, 2, 2])
        self.assertEqual(self.runs("pass", "--timeout", "nan", "load")[2], 1)
        self.assertEqual(self.runs_without((1,), "pass", "load"), ("", "wanzoche: standard output is closed\n", 1))
        self.assertEqual(self.runs("log")[0], "")


class AtOnce(InFolder, unittest.TestCase):
    """The end of an operation and a pass in one hold of the turn."""

    def test_nobody_comes_between(self):
        """One who waits for what comes next is called behind the pass, and not by the end before it; nor is the pass withheld for it."""
        for is_exec in (True, False):
            ours, others = self.open(BESIDE, patience=0), self.open(BESIDE, patience=0)
            entry = ours.enter("build")
            thief = threading.Thread(target=lambda: others.enter("thief", timeout=LONGEST).leave())
            thief.start()
            self.until(others.waiting)
            if is_exec:
                _end_with(ours, entry, "built", 0.0, False, None)
            else:
                pass_at_once(ours, "built", entry)
            lines = r"(\d+) finish \d+: finished\n\1 start built: started (\d+)\n\1 finish \2: finished\n$"
            self.assertRegex(ours.journal(), lines)
            self.assertTrue(ours.can_start("build"))
            ours.enter("build").leave()
            thief.join(LONGEST)

    def test_who_was_taken_for_dead_passes_nothing(self):
        ours, others = self.open(BESIDE), self.open(BESIDE)
        entry = ours.enter("build")
        others.recover(ours.worker, even_alive=True)
        with self.assertRaises(Lost):
            pass_at_once(ours, "built", entry)
        self.assertEqual(others.report().startable, ("built", "thief"))

    def test_a_pass_that_must_wait_has_ended_what_is_before_it(self):
        paths = self.open(CROWDED)
        entry = paths.enter("build")
        with paths("inspect"):
            self.assertIsNone(pass_at_once(paths, "built", entry))
            self.assertEqual([each.operation for each in paths.report().live], ["inspect"])
        self.assertEqual(make_pass(paths, "built", 0.0), 2)

    def test_a_kill_at_any_moment(self):
        """It leaves the build in progress, or ended, or passed, too: then all goes on when what is missing is done by hand."""
        found, number = set(), 0
        step = 4 if THOROUGH else 25
        self.open(DELIVERY, sync=False).close()
        while self.is_killed_at(number):
            with Paths(DELIVERY, store=self.file, sync=False, lost="keep") as paths:
                self.assertTrue(paths.audit())
                report = paths.report()
                found.add((tuple(each.operation for each in report.lost), report.startable))
                for each in report.lost:
                    paths.recover(each)
                for operation in ("built", "deploy"):
                    if paths.can_start(operation):
                        make_pass(paths, operation, 0.0)
                self.assertEqual(paths.report().startable, ("build",))
            number += step
        whole = {(("build",), ()), ((), ("built", "broken")), (("built",), ()), ((), ("deploy",))}
        self.assertLessEqual(found, whole)
        self.assertLessEqual({(("build",), ()), ((), ("deploy",))}, found)

    def is_killed_at(self, number):
        """Whether a process died at the instruction of this number while it ended a build and passed on."""
        seen, says = os.pipe()

        def work():
            paths = Paths(DELIVERY, store=self.file, sync=False)
            entry = paths.enter("build")
            if not at_instruction(number, lambda: os.kill(os.getpid(), signal.SIGKILL), lambda: pass_at_once(paths, "built", entry)):
                os.write(says, b"whole")

        self.dies(work)
        os.close(says)
        with open(seen, "rb") as told:
            return not told.read()

    def test_a_write_that_fails(self):
        """Once there is room again the end is known, and the pass can be made."""

        def work():
            paths = Paths(DELIVERY, store=self.file)
            entry = paths.enter("build")
            size = len(self.text())
            in_file(size + len(b"1 finish 0: finished\n") + 3)()
            with self.assertRaises(StoreError):
                pass_at_once(paths, "built", entry)
            in_file(resource.getrlimit(resource.RLIMIT_FSIZE)[1])()
            self.assertEqual(paths.report().startable, ("built", "broken"))
            self.assertEqual(make_pass(paths, "built", 0.0), 1)

        self.ends_well(work)


if __name__ == "__main__":
    unittest.main()
