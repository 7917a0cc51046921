"""The command `wanzoche`, as a shell runs it."""

import os
import re
import signal
import subprocess
import sys
import time
import unittest
from unittest import mock

from wanzoche import CorruptStore, Paths, _command, _native
from wanzoche._beside import Beside
from wanzoche._executing import TELLS

from .commands import COMMAND, IS_ANOTHER, OnCommand, running
from .declarations import BOOK, SLOT
from .limits import LONGEST

SAYS_HELLO = """
import os, sys
def is_open(stream):
    try:
        return bool(os.fstat(stream))
    except OSError:
        return False
streams = [stream for stream in range(3) if is_open(stream)]
for stream in set(streams) - {0}:
    os.write(stream, b"hello")
with open(sys.argv[1], "w") as file:
    file.write(str(streams))
sys.exit(4)
"""


class Commands(OnCommand, unittest.TestCase):
    def test_a_command_as_an_operation(self):
        words = ["--declaration", self.declaration, "--token-env", "TOKEN", "write", "--", "sh", "-c", "echo $TOKEN; exit 7"]
        self.assertEqual(self.runs("exec", *words), ("0\n", "", 7))
        self.assertEqual(self.runs("exec", "read", "--", "sh", "-c", "kill -TERM $$")[2], 128 + signal.SIGTERM)
        lines = "1 start write: started 0\n1 finish 0: finished\n2 start read: started 1\n2 finish 1: finished\n"
        self.assertEqual(self.runs("log"), (lines, "", 0))
        self.assertEqual(self.runs("audit"), ("sound\n", "", 0))
        self.assertEqual(self.runs("status"), ("startable read write\nfrozen no\n", "", 0))

    def test_a_conflict(self):
        paths = self.open(BOOK)
        with paths("write"):
            for options in (["--nonblock"], ["--timeout", "0.05"], ["--nonblock", "--conflict-status", "9"]):
                told, why, status = self.runs("exec", *options, "read", "--", "echo", "hello")
                self.assertEqual((told, status), ("", 9 if len(options) == 3 else 1))
                self.assertRegex(why, "^wanzoche: read is blocked( for 0.05 seconds)?: .* in progress: write by process 1\n$")
            told = "startable\nblocked read 0\nblocked write 0\nlive 0 1 write\nfrozen no\nprocess 1 {}\n".format(os.getpid())
            self.assertEqual(self.runs("status")[0], told)
        self.assertEqual(self.runs("exec", "read", "--", "echo", "hello"), ("hello\n", "", 0))

    def test_a_conflict_says_what_may_begin_next(self):
        with open(self.declaration, "w") as file:
            file.write(SLOT)
        told, why, status = self.runs("exec", "--declaration", self.declaration, "--nonblock", "remove", "--", "echo", "hello")
        self.assertEqual((told, status), ("", 1))
        self.assertRegex(why, "^wanzoche: remove is blocked: .* in progress: nothing of it; may begin next: deposit\n$")

    def test_who_waits_is_told_so_on_a_terminal(self):
        paths = self.open(BOOK)
        words = self.words("exec", "--timeout", str(LONGEST), "read", "--", "echo", "hello")
        try:
            ours, theirs = os.openpty()
        except OSError:
            self.skipTest("this system makes no pseudo-terminals, as a chroot without /dev/pts")
        self.addCleanup(os.close, ours)
        with paths("write") as entry:
            with subprocess.Popen(words, stdin=subprocess.DEVNULL, stdout=subprocess.PIPE, stderr=theirs) as process:
                os.close(theirs)
                told = b""
                while not told.endswith(b"\n"):
                    told += os.read(ours, 1000)
                why = "^wanzoche: waiting: read is blocked: path 0 of book: .*; in progress: write by process 1 [(]process 1 is {}[)]\r\n$"
                self.assertRegex(told.decode(), why.format(os.getpid()))
                entry.leave()
                self.assertEqual((process.stdout.read(), process.wait(LONGEST)), (b"hello\n", 0))
        entry = paths.enter("write")
        with subprocess.Popen(words, stdin=subprocess.DEVNULL, stdout=subprocess.PIPE, stderr=subprocess.PIPE) as process:
            self.until(paths.waiting)
            time.sleep(1.5 * TELLS)
            entry.leave()
            self.assertEqual((process.stdout.read(), process.stderr.read()), (b"hello\n", b""))

    def test_signals_are_handed_on(self):
        ready = "trap 'echo caught; exit 3' TERM; echo ready; while :; do sleep 0.05; done"
        words = self.words("exec", "--declaration", self.declaration, "write", "--", "sh", "-c", ready)
        with subprocess.Popen(words, stdin=subprocess.DEVNULL, stdout=subprocess.PIPE) as process:
            self.assertEqual(process.stdout.readline(), b"ready\n")
            process.send_signal(signal.SIGTERM)
            self.assertEqual((process.stdout.read(), process.wait(LONGEST)), (b"caught\n", 3))
        self.assertEqual(self.open(BOOK).report().live, ())

    def test_what_a_command_begins_with(self):
        """The mask of who runs it and the usual signals, but for an ignored SIGHUP; and of the store one file alone, by which it counts as alive."""
        words = self.words("exec", "--declaration", self.declaration, "write", "--")

        def blocks():
            signal.pthread_sigmask(signal.SIG_SETMASK, [signal.SIGUSR1, signal.SIGWINCH])
            signal.signal(signal.SIGHUP, signal.SIG_IGN)

        def told(*command):
            with open(os.devnull) as nothing:
                return subprocess.run(words + list(command), stdin=nothing, stdout=subprocess.PIPE, preexec_fn=blocks, timeout=LONGEST).stdout.decode()

        found = re.findall(r"^Sig(?:Blk|Ign):\s*(\w+)", told("cat", "/proc/self/status"), re.M)
        kept = [1 << number - 1 for number in (signal.SIGUSR1, signal.SIGWINCH, signal.SIGHUP)]
        self.assertEqual([int(each, 16) & 0x7FFFFFFF for each in found], [kept[0] | kept[1], kept[2]])  # the C library keeps others for itself
        self.assertEqual(re.findall("-> ({}.*)".format(re.escape(self.folder)), told("ls", "-l", "/proc/self/fd")), [self.file + ".shared"])

    def test_signals_to_who_waits(self):
        """An interrupt ends the wait with a status, and another signal ends the process: then nobody waits any more, and nothing was run."""
        paths = self.open(BOOK)
        with paths("write"):
            for number, status in ((signal.SIGINT, 128 + signal.SIGINT), (signal.SIGTERM, -signal.SIGTERM), (signal.SIGHUP, -signal.SIGHUP)):
                words = self.words("exec", "read", "--", "echo", "hello")
                with running(words, stdin=subprocess.DEVNULL, stdout=subprocess.PIPE, stderr=subprocess.PIPE) as process:
                    self.until(paths.waiting)
                    process.send_signal(number)
                    self.assertEqual((process.stdout.read(), process.stderr.read(), process.wait(LONGEST)), (b"", b"", status))
                self.until(lambda: not paths.waiting())

    def test_a_stop_while_it_runs(self):
        """Who is stopped goes on where it was, and has the signals that came meanwhile."""
        ready = "trap 'exit 3' TERM; echo ready; while :; do sleep 0.05; done"
        words = self.words("exec", "--declaration", self.declaration, "write", "--", "sh", "-c", ready)
        with running(words, stdin=subprocess.DEVNULL, stdout=subprocess.PIPE) as process:
            self.assertEqual(process.stdout.readline(), b"ready\n")
            process.send_signal(signal.SIGSTOP)
            self.until(lambda: self.is_stopped(process.pid))
            process.send_signal(signal.SIGTERM)
            process.send_signal(signal.SIGCONT)
            self.assertEqual(process.wait(LONGEST), 3)

    def is_stopped(self, process):
        with open("/proc/{}/stat".format(process)) as file:
            return file.read().rpartition(")")[2].split()[0] == "T"

    def test_a_command_outlives_who_runs_it(self):
        """Then its operation is in progress until it ends, too."""
        words = self.words("exec", "--declaration", self.declaration, "write", "--", "sh", "-c", "echo ready; read line")
        with subprocess.Popen(words, stdin=subprocess.PIPE, stdout=subprocess.PIPE) as process:
            self.assertEqual(process.stdout.readline(), b"ready\n")
            process.kill()
            process.wait(LONGEST)
            paths = self.open(BOOK)
            self.assertIsNone(paths.try_enter("read"))
            process.stdin.close()
            process.stdout.read()  # until it has ended
        paths.enter("read", timeout=LONGEST).leave()

    def test_streams_that_are_closed(self):
        """They are closed for the command, too. No file of the store takes their place: what is written there would stand in it."""
        paths, told = self.open(BOOK), os.path.join(self.folder, "told")
        words = ["write", "--", sys.executable, "-c", SAYS_HELLO, told]
        for streams in ((0, 1), (0, 1, 2), (1,), (2,), (1, 2), (0,), ()):
            with self.subTest(streams):
                texts = ["" if stream in streams else "hello" for stream in (1, 2)]
                self.assertEqual(self.runs_without(streams, "exec", *words), (*texts, 4))
                with open(told) as file:
                    self.assertEqual(file.read(), str([stream for stream in range(3) if stream not in streams]))
                self.assertEqual(self.declared(), paths._text_of(_native.declaration))
                paths.enter("write", timeout=0).leave()
                self.assertTrue(paths.audit())

    def declared(self):
        """The declaration that stands beside the journal."""
        beside = Beside(self.file + ".shared")
        self.addCleanup(beside.close)
        return beside.declaration()

    def test_what_cannot_be_told(self):
        """Where standard error is closed nothing is said, and the status is the same. What goes to a closed standard output fails."""
        paths = self.open(BOOK)
        with paths("write"):
            self.assertEqual(self.runs_without((2,), "exec", "--nonblock", "read", "--", "true"), ("", "", 1))
        self.assertEqual(self.runs_without((2,), "exec", "steal", "--", "true"), ("", "", 125))
        self.assertEqual(self.runs_without((2,), "exec", "read", "--", "no-such-command"), ("", "", 127))
        self.assertEqual(self.runs_without((2,), "exec", "--nothing"), ("", "", 125))
        self.assertEqual(self.runs_without((2,), "audit"), ("sound\n", "", 0))
        for command in (["status"], ["log"], ["audit"], ["watch"], ["operations"], ["recover", "1"]):
            self.assertEqual(self.runs_without((1,), *command), ("", "wanzoche: standard output is closed\n", 1))
        with open("/dev/full", "w") as full:
            ended = subprocess.run(self.words("log"), stdout=full, stderr=subprocess.PIPE, timeout=LONGEST)
        self.assertEqual((ended.stderr, ended.returncode), (b"wanzoche: standard output: No space left on device\n", 1))

    def test_a_reader_that_has_enough(self):
        """What it doesn't read isn't lost without a word, also where Python doesn't buffer."""
        paths = self.open(BOOK, sync=False)
        for _ in range(4000):
            paths.enter("read").leave()
        for unbuffered in ("", "1"):
            environment = {**os.environ, "PYTHONUNBUFFERED": unbuffered}
            with running(self.words("log"), stdout=subprocess.PIPE, stderr=subprocess.PIPE, env=environment) as process:
                self.assertEqual(process.stdout.read(8), b"1 start ")
                process.stdout.close()
                self.assertEqual((process.stderr.read(), process.wait(LONGEST)), (b"", 128 + signal.SIGPIPE))
            ended = subprocess.run(self.words("log"), stdout=subprocess.PIPE, env=environment, timeout=LONGEST)
            self.assertEqual(ended.stdout.decode(), paths.journal())

    def test_a_store_by_another_name(self):
        """A symbolic link is the same store, also in another folder."""
        with self.open(BOOK)("write"):
            os.mkdir(os.path.join(self.folder, "links"))
            os.symlink(self.file, os.path.join(self.folder, "links", "door"))
            self.file = os.path.join(self.folder, "links", "door")
            self.assertEqual(self.runs("exec", "--nonblock", "write", "--", "true")[2], 1)
            self.assertIn("live 0 1 write\n", self.runs("status")[0])
        self.assertEqual(self.runs("operations"), ("read\nwrite\n", "", 0))

    def test_recovery(self):
        def holds():
            self.kept = Paths(BOOK, store=self.file).enter("write")

        self.dies(holds)
        self.assertIn("lost 0 1 write\n", self.runs("status")[0])
        self.assertEqual(self.runs("recover", "1"), ("finished 1\n", "", 0))
        self.assertNotIn("lost", self.runs("status")[0])
        paths = self.open(BOOK)
        with paths("read"):
            worker = paths.worker.split()[-1]
            self.assertEqual(self.runs("recover", worker), ("", "wanzoche: process {} is alive\n".format(worker), 1))

    def test_what_the_dead_had_is_kept_where_that_is_asked(self):
        def holds():
            self.kept = Paths(BOOK, store=self.file, lost="keep").enter("write")

        self.dies(holds)
        told, why, status = self.runs("exec", "--lost", "keep", "--timeout", "0.3", "read", "--", "echo", "hello")
        self.assertEqual((told, status), ("", 1))
        self.assertRegex(why, "^wanzoche: read is blocked for 0.3 seconds: .* in progress: write by process 1\n$")
        self.assertIn("lost 0 1 write\n", self.runs("status")[0])
        self.assertEqual(self.runs("exec", "--lost", "finish", "read", "--", "echo", "hello"), ("hello\n", "", 0))
        self.assertIn("1 finish 0: finished\n", self.runs("log")[0])
        self.assertEqual(self.runs("exec", "--lost", "never", "read", "--", "true")[::2], ("", 125))

    def test_watching(self):
        paths = self.open(BOOK)
        with subprocess.Popen(self.words("watch"), stdout=subprocess.PIPE) as process:
            for _ in range(3):
                paths.enter("write").leave()
                self.assertIn(b"start write", process.stdout.readline())
                self.assertIn(b"finished", process.stdout.readline())
            process.send_signal(signal.SIGINT)
            self.assertEqual(process.wait(LONGEST), 128 + signal.SIGINT)

    def test_commands_that_cannot_be_run(self):
        """As in a shell: 126 for a file that may not be run, 127 where none is found, whatever else stands in PATH."""
        folder = os.path.join(self.folder, "commands")
        os.makedirs(os.path.join(folder, "no-such-command"))  # to run a folder is refused, as to look into a closed one
        with open(os.path.join(folder, "notes"), "w") as file:
            file.write("not a program\n")
        self.addCleanup(os.environ.__setitem__, "PATH", os.environ["PATH"])
        os.environ["PATH"] = os.environ["PATH"] + os.pathsep + folder
        exec_words = ("exec", "--declaration", self.declaration, "read", "--")
        self.assertEqual(self.runs(*exec_words, "no-such-command")[1:], (
            "wanzoche: no-such-command: No such file or directory\n", 127))  # fmt: skip
        self.assertEqual(self.runs(*exec_words, "notes")[1:], ("wanzoche: notes: Permission denied\n", 126))

    def test_operations(self):
        """Of a declaration or of a store, which isn't opened for that: no number is given."""
        words = [*COMMAND, "operations", "--declaration", self.declaration]
        self.assertEqual(subprocess.run(words, stdout=subprocess.PIPE, timeout=LONGEST, check=True).stdout, b"read\nwrite\n")
        self.assertEqual(os.listdir(self.folder), ["declaration.path"])
        self.open(BOOK)
        self.assertEqual(self.runs("operations"), ("read\nwrite\n", "", 0))
        self.assertEqual(self.open(BOOK).worker, "process 2")
        told = subprocess.run([*COMMAND, "operations"], stderr=subprocess.PIPE, timeout=LONGEST)
        self.assertEqual((told.stderr, told.returncode), (b"wanzoche: --store or --declaration is wanted\n", 1))
        with open(self.declaration, "w") as file:
            file.write("resource")
        told = subprocess.run(words, stderr=subprocess.PIPE, timeout=LONGEST)
        self.assertEqual((told.stderr[:33], told.returncode), (b"wanzoche: unexpected in line 1, c", 1))

    def test_faults(self):
        self.assertRegex(self.runs("status")[1], "^wanzoche: .*door.log.shared isn't there: `wanzoche exec` with --declaration makes a store\n$")
        for command in ("status", "log", "audit", "watch"):  # a store that was misspelled isn't made by who only looks
            self.assertEqual(self.runs(command, "--declaration", self.declaration)[2], 1)
        for words in (["read"], ["read", "--"], ["steal", "--", "true"], ["--timeout", "soon", "read", "--", "true"], []):
            self.assertEqual(self.runs("exec", "--declaration", self.declaration, *words)[::2], ("", 125))
        self.assertEqual(self.runs("exec", "--declaration", "none.path", "read", "--", "true")[1:], (
            "wanzoche: none.path: No such file or directory\n", 125))  # fmt: skip
        self.assertEqual(sorted(os.listdir(self.folder)), ["declaration.path"])
        self.assertEqual(self.runs("exec", "--declaration", self.declaration, "read", "--", "no-such-command")[2], 127)
        self.assertEqual(self.runs("exec", "read", "--", self.folder)[2], 126)
        self.assertEqual(self.runs("exec", "read", "--", os.path.join(self.folder, "no-such-command"))[2], 127)
        self.assertEqual(self.runs("exec", "steal", "--", "true")[1:], (
            "wanzoche: no operation 'steal' is declared; there are read, write\n", 125))  # fmt: skip
        self.assertEqual(self.runs("exec", "read")[1:], ("wanzoche: there is no command behind --\n", 125))
        with open(self.declaration, "w") as file:
            file.write(SLOT)
        self.assertEqual(self.runs("exec", "--declaration", self.declaration, "deposit", "--", "true")[2], 125)
        self.assertRegex(self.runs("log", "--declaration", self.declaration)[1], "is of another declaration: ")
        with open(self.file, "ab") as file:
            file.write(b"9 start write: started 99\n")
        told = "^wanzoche: .* in line [0-9]+: `9 start write: started 99`"
        self.assertRegex(self.runs("audit")[1], told)
        self.assertEqual([self.runs(command)[2] for command in ("audit", "status")], [5, 1])


@unittest.skipIf(IS_ANOTHER, "it is this package's own")
class Audits(OnCommand, unittest.TestCase):
    def test_a_line_that_breaks_behind_the_opening(self):
        """It is told as one that the opening finds."""
        given = _command._given(["audit", "--store", self.file])
        with Paths(BOOK, store=self.file, sync=False) as paths:
            paths.enter("read").leave()
            with open(self.file, "rb+") as file:
                text = file.read().replace(b"finish 0", b"finish 1")
                file.seek(0)
                file.write(text)
            told = [self.said_of(lambda: _command._end_audit(self.caught(lambda: _command._do(paths, given))))]
        told.append(self.said_of(lambda: _command.main(["audit", "--store", self.file])))
        path = os.path.realpath(self.file)
        why = "{} in line 3: `+1 finish 1: finished`, where `stale` is owed".format(path)
        self.assertEqual(told, [(["wrong line 1 of {}\n".format(path)], [why], 5)] * 2)

    def caught(self, does):
        with self.assertRaises(CorruptStore) as raised:
            does()
        return raised.exception

    @staticmethod
    def said_of(does):
        """What it writes to both streams, and what it gives."""
        told, why = [], []
        with mock.patch.object(_command, "write", told.append), mock.patch.object(_command, "say", why.append):
            status = does()
        return told, why, status


if __name__ == "__main__":
    unittest.main()
