"""What begins and ends behind the end of a command that ran as an operation: `exec --passed --failed`."""

import os
import re
import signal
import subprocess
import sys
import unittest

from wanzoche._executing import Signals, Stopped

from .commands import CROWDED, DELIVERY, LONGEST, OnCommand, in_file, running
from .stores import THOROUGH

OUTCOMES = ["--passed", "built", "--failed", "broken"]


class Outcomes(OnCommand, unittest.TestCase):
    DECLARATION = DELIVERY

    def builds(self, *command, options=()):
        """A build by this command: what `runs` says."""
        return self.runs("exec", "--declaration", self.declaration, *OUTCOMES, *options, "build", "--", *command)

    def begun(self):
        """The operations that were begun, in turn."""
        return re.findall(r"^\d+ start (\w+): started", self.runs("log")[0], re.M)

    def test_what_comes_next_hangs_on_how_it_ended(self):
        for command, status, outcome in (
            (["sh", "-c", "exit 3"], 3, "broken"),
            (["sh", "-c", "kill -TERM $$"], 128 + signal.SIGTERM, "broken"),
            (["no-such-command"], 127, "broken"),
            ([self.folder], 126, "broken"),
            (["true"], 0, "built"),
        ):
            with self.subTest(command):
                self.assertEqual(self.builds(*command)[::2], ("", status))
                self.assertEqual(self.begun()[-2:], ["build", outcome])
                self.assertEqual("deploy" in self.runs("status")[0].splitlines()[0], status == 0)
        self.assertEqual(self.runs("exec", "--nonblock", "deploy", "--", "echo", "deployed"), ("deployed\n", "", 0))
        self.assertEqual(self.runs("audit")[0], "sound\n")

    def test_one_outcome_alone(self):
        """Where nothing is said of the other, nothing is passed."""
        self.assertEqual(self.runs("exec", "--declaration", self.declaration, "--failed", "broken", "build", "--", "true"), ("", "", 0))
        self.assertEqual(self.begun(), ["build"])
        self.assertEqual(self.runs("pass", "built"), ("passed 1\n", "", 0))
        self.runs("exec", "deploy", "--", "true")
        self.assertEqual(self.runs("exec", "--failed", "broken", "build", "--", "false"), ("", "", 1))
        self.assertEqual(self.runs("exec", "--passed", "built", "build", "--", "true"), ("", "", 0))
        self.runs("exec", "deploy", "--", "true")
        self.assertEqual(self.runs("exec", "--passed", "built", "build", "--", "false"), ("", "", 1))
        self.assertEqual(self.begun(), ["build", "built", "deploy", "build", "broken", "build", "built", "deploy", "build"])

    def test_a_command_that_was_not_run(self):
        """Nothing has begun, so nothing is passed."""
        self.builds("true")
        self.assertEqual(self.builds("true", options=["--nonblock", "--conflict-status", "9"])[2], 9)
        self.assertEqual(self.begun(), ["build", "built"])

    def test_words_that_are_refused(self):
        twice = "wanzoche: {} is named twice: the operation, that of --passed and that of --failed are different ones\n"
        unknown = "wanzoche: no operation 'none' is declared; there are build, built, broken, deploy\n"
        for options, told in (
            (["--passed", "none"], unknown),
            (["--failed", "none"], unknown),
            (["--passed", "built", "--failed", "built"], twice.format("built")),
            (["--failed", "build"], twice.format("build")),
        ):
            got = self.runs("exec", "--declaration", self.declaration, *options, "build", "--", "true")
            self.assertEqual(got, ("", told, 125))
        self.assertEqual(os.listdir(self.folder), ["declaration.path"])

    def test_streams_that_are_closed_or_full(self):
        for streams in ((0, 1, 2), (1,), (2,)):
            got = self.runs_without(streams, "exec", "--declaration", self.declaration, *OUTCOMES, "build", "--", "false")
            self.assertEqual(got, ("", "", 1))
        self.assertEqual(self.begun(), ["build", "broken"] * 3)
        self.builds("true")
        words = self.words("exec", "--nonblock", "--conflict-status", "9", *OUTCOMES, "build", "--", "true")
        with open("/dev/full", "w") as full:
            self.assertEqual(subprocess.run(words, stdout=full, stderr=full, timeout=LONGEST).returncode, 9)
            self.assertEqual(subprocess.run(self.words("pass", "broken"), stderr=full, timeout=LONGEST).returncode, 1)
            ended = subprocess.run(self.words("pass", "deploy"), stdout=full, stderr=subprocess.PIPE, timeout=LONGEST)
        self.assertEqual((ended.stderr, ended.returncode), (b"wanzoche: standard output: No space left on device\n", 1))
        self.assertEqual(self.begun()[-1], "deploy")  # which the log says, though it couldn't be told

    @unittest.skipUnless(THOROUGH, "it takes longer")
    def test_nothing_is_said_where_that_is_asked(self):
        self.builds("true")
        for options, status in ((["--quiet"], 1), (["--conflict-status", "0"], 0), (["--quiet", "--conflict-status", "7"], 7)):
            for limit in (["--nonblock"], ["--timeout", "0.05"]):
                self.assertEqual(self.runs("exec", *options, *limit, "build", "--", "true"), ("", "", status))
        self.assertRegex(self.runs("exec", "--nonblock", "build", "--", "true")[1], "^wanzoche: build is blocked: ")
        self.assertRegex(self.runs("exec", "--quiet", "build")[1], "there is no command")  # a fault is said all the same

    @unittest.skipUnless(THOROUGH, "it takes longer")
    def test_nothing_is_said_on_a_terminal_either(self):
        self.builds("true")
        try:
            ours, theirs = os.openpty()
        except OSError:
            self.skipTest("this system makes no pseudo-terminals, as a chroot without /dev/pts")
        self.addCleanup(os.close, ours)
        words = self.words("exec", "--quiet", "--timeout", "2", "build", "--", "true")
        self.assertEqual(subprocess.run(words, stdin=subprocess.DEVNULL, stderr=theirs, timeout=LONGEST).returncode, 1)
        os.write(theirs, b"end\n")
        os.close(theirs)
        self.assertEqual(os.read(ours, 1000), b"end\r\n")

    def test_who_runs_it_is_killed(self):
        """Then nobody knows how the command ended: its end is written for it, and nothing is passed until somebody does so."""
        got = self.builds("sh", "-c", "kill -KILL $PPID; exit 1")
        self.assertEqual(got[2], -signal.SIGKILL)
        self.until(lambda: "lost 0 1 build" in self.runs("status")[0])
        self.assertEqual(self.runs("exec", "--nonblock", "deploy", "--", "true")[2], 1)  # which finishes what the dead had
        self.assertEqual(self.runs("status")[0].splitlines()[0], "startable built broken")
        self.assertEqual(self.runs("pass", "broken"), ("passed 1\n", "", 0))
        self.assertEqual(self.builds("true"), ("", "", 0))

    def test_a_full_disk(self):
        """Where the end can't be written it isn't, and where the pass can't, the end may be: the status says that all is not well."""
        self.open(DELIVERY).close()
        start, finish = b"1 start build: started 0\n", b"1 finish 0: finished\n"
        for place, told in ((len(start), "can't be written"), (len(start) + len(finish) + 6, "broken wasn't passed: .* can't be written")):
            with self.subTest(place):
                self.assertEqual(self.runs("status")[0].splitlines()[0], "startable build")
                limit = os.path.getsize(self.file) + place + 2  # the marks of the lines
                words = self.words("exec", *OUTCOMES, "build", "--", "false")
                ended = subprocess.run(words, stderr=subprocess.PIPE, preexec_fn=in_file(limit), timeout=LONGEST)
                self.assertEqual(ended.returncode, 125)
                self.assertRegex(ended.stderr.decode(), "^wanzoche: .*{}: File too large".format(told))
                for worker in re.findall(r"^lost \d+ (\d+)", self.runs("status")[0], re.M):
                    self.assertEqual(self.runs("recover", worker)[0], "finished 1\n")
                self.assertEqual(self.runs("pass", "broken")[2], 0)
        self.assertEqual(self.runs("audit")[0], "sound\n")
        self.assertEqual(self.begun(), ["build", "broken"] * 2)

    @unittest.skipUnless(THOROUGH, "it takes longer")
    def test_several_at_once(self):
        """The end of each is followed by its own pass, with no other's line between."""
        builds = ["exec", "--no-sync", "--declaration", self.declaration, *OUTCOMES, "build", "--"]
        running = [subprocess.Popen(self.words(*builds, "sh", "-c", "exit {}".format(n % 2))) for n in range(6)]
        deploys = self.words("exec", "--no-sync", "--declaration", self.declaration, "deploy", "--", "true")
        running += [subprocess.Popen(deploys) for _ in range(3)]
        ended = [each.wait(LONGEST) for each in running]
        self.assertEqual(ended, [0, 1] * 3 + [0] * 3)
        steps = [re.sub(r"\d+$", "", line) for line in self.runs("log")[0].splitlines()]
        for before, behind in zip(steps, steps[2:]):
            if " start build" in before:
                self.assertRegex(behind, "^{} start (built|broken)".format(before.split()[0]))
        self.assertEqual(self.runs("audit")[0], "sound\n")
        self.assertEqual(sorted(self.begun()), sorted(["build"] * 6 + ["built", "broken", "deploy"] * 3))


class Waits(OnCommand, unittest.TestCase):
    """A pass that has to wait for its turn."""

    DECLARATION = CROWDED

    def setUp(self):
        super().setUp()
        self.paths = self.open(CROWDED)

    def waits(self):
        """Whether somebody waits for the operation that is to be passed."""
        return "built" in self.paths.waiting()

    def builds(self, *options):
        words = self.words("exec", "--passed", "built", *options, "build", "--", "true")
        return running(words, stdin=subprocess.DEVNULL, stderr=subprocess.PIPE)

    def test_it_waits_for_its_turn(self):
        with self.paths("inspect"):
            words = self.words("exec", "--passed", "built", "build", "--", "true")
            process = subprocess.Popen(words, stdin=subprocess.DEVNULL, stderr=subprocess.PIPE)
            self.addCleanup(process.kill)
            self.until(self.waits)
        self.assertEqual((process.communicate(timeout=LONGEST)[1], process.returncode), (b"", 0))
        self.assertTrue(self.paths.can_start("build"))

    def test_it_waits_no_longer_than_the_operation_would(self):
        for options, told in ((["--nonblock"], ""), (["--timeout", "0.05"], " for 0.05 seconds")):
            with self.paths("inspect"), self.builds(*options) as process:
                why = "^wanzoche: built wasn't passed: built is blocked{}: path 1 .* in progress: inspect by process 1; `wanzoche pass`"
                self.assertRegex(process.stderr.read().decode(), why.format(told))
                self.assertEqual(process.wait(LONGEST), 0)
            self.assertEqual(self.runs("pass", "built")[2], 0)
            self.assertTrue(self.paths.can_start("build"))

    def test_signals_end_the_wait(self):
        """The status stays the command's."""
        for number in (signal.SIGTERM, signal.SIGINT, signal.SIGUSR1):
            with self.paths("inspect"), self.builds() as process:
                self.until(self.waits)
                process.send_signal(number)
                told = "wanzoche: built wasn't passed: {} came; `wanzoche pass` makes up for it\n"
                self.assertEqual(process.stderr.read().decode(), told.format(number.name))
                self.assertEqual(process.wait(LONGEST), 0)
            self.assertFalse(self.waits())
            self.assertEqual(self.runs("pass", "built")[2], 0)

    def test_a_kill_while_it_waits(self):
        with self.paths("inspect"), self.builds() as process:
            self.until(self.waits)
            process.kill()
            process.communicate(timeout=LONGEST)
        self.assertEqual(self.paths.report().startable, ("built", "broken", "inspect"))
        self.assertEqual(self.runs("pass", "built")[2], 0)
        self.assertTrue(self.paths.can_start("build"))

    def test_who_passes_by_hand_waits_only_if_told_to(self):
        self.paths.enter("build").leave()
        with self.paths("inspect"):
            told, why, status = self.runs("pass", "built")
            self.assertEqual((told, status), ("", 1))
            self.assertRegex(why, "^wanzoche: built wasn't passed: built is blocked: path 1 .* in progress: inspect by process 1\n$")
            self.assertRegex(self.runs("pass", "--timeout", "0.05", "built")[1], "blocked for 0.05 seconds: ")
            process = subprocess.Popen(self.words("pass", "--timeout", str(LONGEST), "built"), stdout=subprocess.PIPE)
            self.addCleanup(process.kill)
            self.until(self.waits)
        self.assertEqual((process.communicate(timeout=LONGEST)[0], process.returncode), (b"passed 2\n", 0))

    def test_a_signal_that_came_before_the_wait(self):
        """It was kept, since the command had ended and its end wasn't written; the wait isn't begun then."""

        def in_child():
            signals = Signals()
            os.kill(os.getpid(), signal.SIGTERM)
            with self.assertRaises(Stopped), signals.stopping():
                self.fail("it waits")
            os.kill(os.getpid(), signal.SIGTERM)  # behind the wait it does nothing

        self.ends_well(in_child)

    def test_a_hangup_that_is_ignored_stays_so(self):
        """As under nohup, for the command, too."""
        command = [sys.executable, "-c", "import signal; print(signal.getsignal(signal.SIGHUP) is signal.SIG_IGN)"]
        for action in (signal.SIG_IGN, signal.SIG_DFL):
            words = self.words("exec", "inspect", "--", *command)
            options = {"preexec_fn": lambda: signal.signal(signal.SIGHUP, action), "timeout": LONGEST}
            ended = subprocess.run(words, stdout=subprocess.PIPE, **options)
            self.assertEqual(ended.stdout.decode(), "{}\n".format(action is signal.SIG_IGN))


if __name__ == "__main__":
    unittest.main()
