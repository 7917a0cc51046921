"""The command `status`: as JSON, and again and again."""

import calendar
import fcntl
import json
import os
import re
import select
import signal
import socket
import struct
import subprocess
import sys
import termios
import time
import unittest

import wanzoche._watching as watching
from wanzoche import Paths
from wanzoche._processes import process_at
from wanzoche._watching import Table

from .commands import IS_ANOTHER, LONGEST, OnCommand, running
from .declarations import BOOK

# Runs the command with a change that comes when it has made its first report, and before it waits.
BETWEEN = """
import sys
import wanzoche._watching as watching
from wanzoche import Paths, _command
makes, others = watching.{0}, Paths({1!r}, store=sys.argv[1])
kept = []

def makes_and_changes(*given):
    told = makes(*given)
    if not kept:
        kept.append(others.enter("write"))
    return told

watching.{0} = makes_and_changes
sys.exit(_command.main(["status", "--store", sys.argv[1], "--watch", "600", *sys.argv[2:]]))
"""


class Status(OnCommand, unittest.TestCase):
    def told(self):
        text, why, status = self.runs("status", "--json")
        self.assertEqual((why, status, text.count("\n")), ("", 0, 1))
        return json.loads(text)

    def test_what_stands_in_the_json(self):
        paths = self.open(BOOK)
        whole = {
            "form": 1,
            "frozen": False,
            "counts": {"in_progress": 0, "lost": 0, "waiting": 0},
            "operations": [
                {"operation": "read", "can_start": True, "blocked_by": None, "in_progress": 0, "waiting": 0},
                {"operation": "write", "can_start": True, "blocked_by": None, "in_progress": 0, "waiting": 0},
            ],
            "in_progress": [],
            "waiting": [],
        }
        self.assertEqual(self.told(), whole)
        with paths("read"), paths("read"):
            words = self.words("exec", "write", "--", "true")
            with running(words) as process:
                self.until(paths.waiting)
                told = self.told()
                process.send_signal(signal.SIGTERM)
        whole["counts"] = {"in_progress": 2, "lost": 0, "waiting": 1}
        whole["operations"][0]["in_progress"] = 2
        whole["operations"][1] = {"operation": "write", "can_start": False, "blocked_by": 0, "in_progress": 0, "waiting": 1}
        me = {"worker": 1, "lost": False, "since": None, "pid": os.getpid(), "host": socket.gethostname()}
        with open("/proc/self/cmdline") as file:
            me["command"] = " ".join(file.read().split("\0")).strip()
        whole["in_progress"] = [{"activation": number, "operation": "read", **me} for number in (0, 1)]
        nobody = {"worker": None, "since": None, "pid": None, "host": None, "command": None}
        whole["waiting"] = [{"operation": "write", "count": 1, **nobody}]
        self.assertEqual(told, whole)

    def test_who_runs_a_command(self):
        """It is told with its words, and when it was started."""
        before = int(time.time())
        words = self.words("exec", "--declaration", self.declaration, "write", "--", "sh", "-c", "echo begun; read line; exit", "a  word")
        with running(words, stdin=subprocess.PIPE, stdout=subprocess.PIPE) as process:
            self.assertEqual(process.stdout.readline(), b"begun\n")
            (found,) = self.told()["in_progress"]
        self.assertEqual((found["pid"], found["command"]), (process.pid, "sh -c echo begun; read line; exit a  word"))
        self.assertRegex(found["since"], r"^\d{4}-\d\d-\d\dT\d\d:\d\d:\d\dZ$")
        begun = calendar.timegm(time.strptime(found["since"], "%Y-%m-%dT%H:%M:%SZ"))
        self.assertLessEqual(abs(begun - before), LONGEST)

    def test_the_dead(self):
        self.dies(lambda: setattr(self, "kept", Paths(BOOK, store=self.file).enter("write")))
        told = self.told()
        self.assertEqual(told["counts"], {"in_progress": 1, "lost": 1, "waiting": 0})
        (found,) = told["in_progress"]
        self.assertEqual((found["lost"], found["command"], found["since"]), (True, None, None))

    def test_a_number_that_was_given_again(self):
        """A process that hasn't the store open isn't the one that is meant."""
        self.open(BOOK)
        beside = self.file + ".shared"
        self.assertEqual(process_at("1", beside)[1:], (None, None, None))
        self.assertEqual(process_at(str(os.getpid()), beside)[:2], (os.getpid(), socket.gethostname()))
        self.assertEqual(process_at("1 elsewhere", None), (1, "elsewhere", None, None))
        self.assertEqual([process_at(told, None) for told in (None, "", "x")], [(None, None, None, None)] * 3)
        self.assertEqual(process_at("4294967295", beside)[1:], (None, None, None))

    def test_frozen(self):
        with open(self.declaration, "w") as file:
            file.write("resource r cell operation a, b path a ; b end path b ; a end end")
        self.runs("exec", "--declaration", self.declaration, "--nonblock", "a", "--", "true")
        self.assertTrue(self.told()["frozen"])

    def test_faults(self):
        self.assertEqual(self.runs("status", "--json")[::2], ("", 1))
        self.open(BOOK)
        self.assertEqual([self.runs("status", "--watch", each)[2] for each in ("0", "-1", "nan", "inf", "soon")], [2] * 5)
        self.assertEqual(self.runs_without((1,), "status", "--json"), ("", "wanzoche: standard output is closed\n", 1))
        for words in (["--json"], ["--watch"], ["--json", "--watch"]):
            with open("/dev/full", "w") as full:
                ended = subprocess.run(self.words("status", *words), stdout=full, stderr=subprocess.PIPE, timeout=LONGEST)
            self.assertEqual((ended.stderr, ended.returncode), (b"wanzoche: standard output: No space left on device\n", 1))


class Watch(OnCommand, unittest.TestCase):
    def setUp(self):
        super().setUp()
        self.paths = self.open(BOOK)

    def watches(self, *words, **streams):
        return running(self.words("status", "--watch", "600", *words), stdout=subprocess.PIPE, stderr=subprocess.PIPE, **streams)

    def report(self, process):
        """The next report: its lines, up to the one of frozen, and those of processes behind it."""
        lines = [process.stdout.readline().decode()]
        while not lines[-1].startswith("frozen"):
            lines.append(process.stdout.readline().decode())
        return "".join(lines)

    def test_each_change_is_reported(self):
        with self.watches() as process:
            self.assertEqual(self.report(process), "startable read write\nfrozen no\n")
            with self.paths("write"):
                told = "\nstartable\nblocked read 0\nblocked write 0\nlive 0 1 write\nfrozen no\n"
                self.assertEqual(self.report(process), told)
                self.assertEqual(process.stdout.readline().decode(), "process 1 {}\n".format(os.getpid()))
            self.assertEqual(self.report(process), "\nstartable read write\nfrozen no\n")
            process.send_signal(signal.SIGTERM)
            self.assertEqual((process.stdout.read(), process.wait(LONGEST)), (b"", 128 + signal.SIGTERM))
            self.assertEqual(process.stderr.read(), b"")

    def test_as_json(self):
        with self.watches("--json") as process:
            self.assertEqual(json.loads(process.stdout.readline())["counts"], {"in_progress": 0, "lost": 0, "waiting": 0})
            with self.paths("write"):
                self.assertEqual(json.loads(process.stdout.readline())["counts"]["in_progress"], 1)
                with running(self.words("exec", "write", "--", "true")) as waits:
                    self.assertEqual(json.loads(process.stdout.readline())["counts"]["waiting"], 1)
                    waits.kill()
            process.send_signal(signal.SIGINT)
            process.stdout.read()
            self.assertEqual((process.stderr.read(), process.wait(LONGEST)), (b"", 128 + signal.SIGINT))

    def test_a_change_between_a_report_and_the_wait(self):
        for words, call in (([], "lines_of"), (["--json"], "json_of")):
            script = BETWEEN.format(call, BOOK)
            with running([sys.executable, "-c", script, self.file, *words], stdout=subprocess.PIPE) as process:
                told = process.stdout.readline() if words else self.report(process).encode()
                self.assertNotIn(b"live", told)
                second = process.stdout.readline() if words else self.report(process).encode()
                self.assertRegex(second, b'"in_progress": 1' if words else b"live")
                process.kill()
            for each in self.paths.report().lost:
                self.paths.recover(each)

    def test_a_death(self):
        """It changes no line, so it is found when the time is over."""
        with running(self.words("status", "--watch", "0.1"), stdout=subprocess.PIPE) as process:
            self.report(process)
            holds = "import sys; from wanzoche import Paths; kept = Paths({!r}, store={!r}).enter('write'); sys.stdin.read()"
            with running([sys.executable, "-c", holds.format(BOOK, self.file)], stdin=subprocess.PIPE) as holder:
                self.assertIn("live", self.report(process))
                holder.kill()
            line = b""
            while not line.startswith(b"lost "):
                line = process.stdout.readline()
            process.terminate()

    def test_a_reader_that_has_enough(self):
        """It ends also while nothing changes."""
        with self.watches() as process:
            self.report(process)
            process.stdout.close()
            self.assertEqual((process.stderr.read(), process.wait(LONGEST)), (b"", 128 + signal.SIGPIPE))

    def test_streams_that_are_closed(self):
        for streams in ((0,), (2,), (0, 2)):
            with self.watches(preexec_fn=lambda: [os.close(stream) for stream in streams]) as process:
                self.report(process)
                process.send_signal(signal.SIGINT)
                self.assertEqual(process.wait(LONGEST), 128 + signal.SIGINT)


class OnTerminal(OnCommand, unittest.TestCase):
    """A table stays on a terminal."""

    def setUp(self):
        super().setUp()
        self.paths = self.open(BOOK)
        try:
            self.ours, self.theirs = os.openpty()
        except OSError:
            self.skipTest("this system makes no pseudo-terminals, as a chroot without /dev/pts")
        self.addCleanup(os.close, self.ours)
        self.addCleanup(os.close, self.theirs)
        self.sized(24, 80)
        self.seen = ""

    def sized(self, rows, columns):
        fcntl.ioctl(self.ours, termios.TIOCSWINSZ, struct.pack("HHHH", rows, columns, 0, 0))

    def watches(self, seconds="600", term="xterm"):
        words = self.words("status", "--watch", seconds)
        process = subprocess.Popen(words, stdin=self.theirs, stdout=self.theirs, stderr=self.theirs, env={**os.environ, "TERM": term})
        self.addCleanup(process.wait)
        self.addCleanup(process.kill)
        return process

    def until_told(self, pattern):
        """What the terminal got, up to what is looked for."""
        while not re.search(pattern, self.seen):
            self.assertTrue(select.select([self.ours], [], [], LONGEST)[0], self.seen)
            self.seen += os.read(self.ours, 10000).decode()
        told, self.seen = self.seen, ""
        return told

    def test_a_table_that_stays(self):
        before = termios.tcgetattr(self.theirs)
        process = self.watches()
        first = self.until_told("write +0 +0 +yes\r\n")
        self.assertRegex(first, r"^\S+/door.log, \d\d:\d\d:\d\d: 0 in progress, 0 waiting\r\n\r\nOPERATION  RUNS  WAITS  CAN START\r\n")
        self.assertNotIn("\x1b", first)
        with self.paths("write"):
            told = self.until_told("IN PROGRESS.*\r\n.*\r\n")
            self.assertTrue(told.startswith("\x1b[5F\x1b[J"), told)
            self.assertIn("write      1     0      no: path 0\r\n", told)
            self.assertRegex(told, r"\r\nIN PROGRESS  WORKER  SINCE  PID +HOST +COMMAND\r\nwrite +1 +{} ".format(os.getpid()))
            os.kill(process.pid, signal.SIGSTOP)
            os.kill(process.pid, signal.SIGCONT)
            self.until(lambda: not self.has_pending(process.pid, signal.SIGCONT))
        self.assertNotIn("\x1b", self.until_told("write +0 +0 +yes\r\n"))  # behind a stop others may have written
        process.send_signal(signal.SIGINT)
        self.assertEqual(process.wait(LONGEST), 128 + signal.SIGINT)
        self.assertEqual(termios.tcgetattr(self.theirs), before)
        os.write(self.theirs, b"end\n")
        self.assertEqual(self.until_told("end\r\n"), "end\r\n")

    def has_pending(self, process, number):
        """Whether a signal hasn't reached a process yet."""
        with open("/proc/{}/status".format(process)) as file:
            found = re.search(r"^ShdPnd:\s*(\w+)$", file.read(), re.M)
        return int(found.group(1), 16) >> (number - 1) & 1

    def test_it_ends_by_a_signal(self):
        for number in (signal.SIGTERM, signal.SIGINT):
            process = self.watches()
            self.until_told("write +0 +0 +yes\r\n")
            process.send_signal(number)
            self.assertEqual(process.wait(LONGEST), 128 + number)

    def test_a_terminal_that_has_no_lines_to_go_back(self):
        self.watches(term="dumb")
        self.until_told("startable read write\r\nfrozen no\r\n")

    def test_a_small_window(self):
        self.sized(4, 20)
        self.watches()
        told = self.until_told("OPERATION  RUNS  WA\r\n")
        self.assertEqual([len(line) for line in told.split("\r\n")], [19, 0, 19, 0])

    def test_signs_that_a_terminal_would_act_on(self):
        words = self.words("exec", "write", "--", "sh", "-c", "read line; exit", "\x1b[2J\x07")
        with running(words, stdin=subprocess.PIPE):
            self.until(lambda: json.loads(self.runs("status", "--json")[0])["in_progress"][:1] and True)
            self.sized(24, 200)
            self.until(lambda: (json.loads(self.runs("status", "--json")[0])["in_progress"][0]["command"] or "").startswith("sh"))
            self.watches()
            told = self.until_told("read line; exit .*\r\n")
        self.assertIn("?[2J?", told)
        self.assertNotIn("\x1b", told)


class Drawn(unittest.TestCase):
    """How far a table goes back for its next lines."""

    def drawn(self, sizes, tables, forgets=False):
        table, told, size, write = Table(), [], watching._size, watching.write
        watching.write = told.append
        try:
            for (rows, columns), lines in zip(sizes, tables):
                watching._size = lambda: os.terminal_size((columns, rows))
                table.draw(lines)
                if forgets:
                    table.forget()
        finally:
            watching._size, watching.write = size, write
        return [re.match("(?:\x1b\\[(\\d+)F)?", each).group(1) for each in told]

    def test_lines_that_a_narrower_window_has_broken(self):
        self.assertEqual(self.drawn([(24, 80)] * 3, [["a"], ["a", "b", ""], []]), [None, "1", "3"])
        self.assertEqual(self.drawn([(24, 80), (24, 40)], [["a" * 60, ""], []]), [None, "3"])
        self.assertEqual(self.drawn([(24, 80), (3, 80)], [["a"] * 10, []]), [None, "2"])

    def test_what_is_forgotten(self):
        self.assertEqual(self.drawn([(24, 80)] * 2, [["a"], ["b"]], True), [None, None])


@unittest.skipIf(IS_ANOTHER, "the one in C reads what lies beside the journal whenever it looks, so its bytes say nothing of lines")
class Costs(OnCommand, unittest.TestCase):
    """What goes on reads what is new, and not all that there is."""

    MANY = 20000

    @staticmethod
    def read_by(process):
        """How many bytes it has read so far."""
        with open("/proc/{}/io".format(process.pid)) as file:
            return int(file.readline().split()[1])

    def follows(self, paths, words, begun, over):
        """How many bytes it reads while somebody enters and leaves ten times, and the journal is moved away in between."""
        with running(self.words(*words), stdout=subprocess.PIPE) as process:
            self.until(process, over)
            before = self.read_by(process)
            for number in range(10):
                with paths("write"):
                    self.until(process, begun)
                if number == 5:
                    paths.rotate()
                self.until(process, over)
            read = self.read_by(process) - before
            process.kill()
        return read

    def until(self, process, wanted):
        line = process.stdout.readline()
        while not re.search(wanted, line):
            self.assertTrue(line)
            line = process.stdout.readline()

    def test_new_lines_alone_are_read(self):
        with Paths(BOOK, store=self.file, sync=False) as paths:
            for _ in range(self.MANY):
                paths.enter("read").leave()
            size = os.stat(self.file).st_size
            paths.enter("write").leave()
            for words, begun, over in (
                (["watch"], b"start write", b"finish 2[0-9]{4}: "),
                (["status", "--watch", "600"], b"^live .* write", b"^startable read write"),
                (["status", "--json", "--watch", "600"], b'"in_progress": ?1[,}]', b'"in_progress": ?0[,}]'),
            ):
                with self.subTest(words):
                    self.assertLess(self.follows(paths, words, begun, over), size / 4)


if __name__ == "__main__":
    unittest.main()
