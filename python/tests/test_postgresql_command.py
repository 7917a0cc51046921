"""The command `wanzoche` over a log in PostgreSQL."""

import json
import os
import re
import signal
import socket
import subprocess
import sys
import tempfile
import threading
import time
import unittest
import urllib.request

from wanzoche._every import seconds_since

from .commands import CROWDED, DELIVERY, LONGEST, running
from .declarations import BOOK, SLOT
from .servers import COMMAND, SHORT_GRACE, OnServer, folder_of_programs, needs_server
from .test_command_every import NIGHTLY

TOP = os.path.dirname(os.path.dirname(os.path.dirname(os.path.abspath(__file__))))
PROGRAMS = os.path.join(os.path.dirname(os.path.dirname(os.path.abspath(os.environ.get("WANZOCHE_LIBRARY", "")))), "bin")


@needs_server
class Commands(OnServer, unittest.TestCase):
    grace = SHORT_GRACE

    def setUp(self):
        super().setUp()
        folder = tempfile.TemporaryDirectory(prefix="wanzoche-")
        self.addCleanup(folder.cleanup)
        self.declaration = os.path.join(folder.name, "book.path")
        with open(self.declaration, "w") as file:
            file.write(BOOK)

    def words(self, command, *words):
        return COMMAND + [command, "--store", self.server.url, "--name", self.name] + list(words)

    def runs(self, command, *words):
        """What it writes, what it writes on standard error, and its status."""
        ended = subprocess.run(
            self.words(command, *words), stdin=subprocess.DEVNULL, stdout=subprocess.PIPE, stderr=subprocess.PIPE, timeout=LONGEST
        )
        return ended.stdout.decode(), ended.stderr.decode(), ended.returncode

    def test_a_command_as_an_operation(self):
        words = ["--declaration", self.declaration, "--token-env", "TOKEN", "write", "--", "sh", "-c", "echo $TOKEN; exit 7"]
        self.assertEqual(self.runs("exec", *words), ("0\n", "", 7))
        self.assertEqual(self.runs("exec", "read", "--", "sh", "-c", "kill -TERM $$")[2], 128 + signal.SIGTERM)
        lines = "1 start write: started 0\n1 finish 0: finished\n2 start read: started 1\n2 finish 1: finished\n"
        self.assertEqual(self.runs("log"), (lines, "", 0))
        self.assertEqual(self.runs("audit"), ("sound\n", "", 0))
        self.assertEqual(self.runs("status"), ("startable read write\nfrozen no\n", "", 0))
        paths = self.open(BOOK, grace=None)
        with paths("write"):
            told, why, status = self.runs("exec", "--nonblock", "--conflict-status", "9", "read", "--", "echo", "hello")
            self.assertEqual((told, status), ("", 9))
            self.assertRegex(why, "^wanzoche: read is blocked( for .* seconds)?: .* in progress: write by process ")
            told = "process {} {} {}\n".format(paths.worker.split()[-1], os.getpid(), socket.gethostname())
            self.assertEqual(self.runs("status")[0].partition("frozen no\n")[2], told)

    def test_a_conflict_says_what_may_begin_next(self):
        with open(self.declaration, "w") as file:
            file.write(SLOT)
        told, why, status = self.runs("exec", "--declaration", self.declaration, "--nonblock", "remove", "--", "echo", "hello")
        self.assertEqual((told, status), ("", 1))
        self.assertRegex(why, "^wanzoche: remove is blocked: .* in progress: nothing of it; may begin next: deposit\n$")

    def test_who_is_withheld_is_told_so_on_a_terminal(self):
        """For whom, and which processes are in the way. No door opens there."""
        a, b = self.open(BOOK), self.open(BOOK)
        try:
            ours, theirs = os.openpty()
        except OSError:
            self.skipTest("this system makes no pseudo-terminals, as a chroot without /dev/pts")
        self.addCleanup(os.close, ours)
        entry, writer = a.enter("read"), threading.Thread(target=lambda: b.enter("write", timeout=LONGEST).leave())
        writer.start()
        self.until(a.waiters)
        words = self.words("exec", "read", "--", "echo", "hello")
        words[2] = "from wanzoche import _order; _order.SHUT = 10**15; " + words[2]
        with running(words, stdin=subprocess.DEVNULL, stdout=subprocess.PIPE, stderr=theirs) as process:
            os.close(theirs)
            told = b""
            while not told.endswith(b"\n"):
                told += os.read(ours, 1000)
            why = "^wanzoche: waiting: read is withheld: behind write by process 2, which has waited [0-9.]+ s, path 0 of book: .*; "
            why += "in progress: read by process 1 [(]process 2 is {0} .*, process 1 is {0} .*[)]\r\n$"
            self.assertRegex(told.decode(), why.format(os.getpid()))
            entry.leave()
            self.assertEqual((process.stdout.read(), process.wait(LONGEST)), (b"hello\n", 0))
        writer.join(LONGEST)

    def test_a_command_outlives_who_runs_it(self):
        """Then its operation is in progress until it ends, too."""
        paths = self.open(BOOK)
        words = self.words("exec", "write", "--", "sh", "-c", "echo ready; read line")
        with subprocess.Popen(words, stdin=subprocess.PIPE, stdout=subprocess.PIPE) as process:
            self.assertEqual(process.stdout.readline(), b"ready\n")
            process.kill()
            process.wait(LONGEST)
            with self.assertRaises(TimeoutError):
                paths.enter("read", timeout=4 * self.grace)
            process.stdin.close()
            process.stdout.read()  # until it has ended
        paths.enter("read", timeout=LONGEST).leave()

    def test_what_comes_next_hangs_on_how_it_ended(self):
        with open(self.declaration, "w") as file:
            file.write(DELIVERY)
        words = ["exec", "--declaration", self.declaration, "--passed", "built", "--failed", "broken", "build", "--"]
        self.assertEqual(self.runs(*words, "sh", "-c", "exit 3"), ("", "", 3))
        self.assertEqual(self.runs("exec", "--nonblock", "--quiet", "deploy", "--", "true"), ("", "", 1))
        self.assertEqual(self.runs(*words, "true"), ("", "", 0))
        steps = re.findall(r"^\d+ (?:start (\w+): started|finish) \d+", self.runs("log")[0], re.M)
        self.assertEqual(steps, ["build", "", "broken", "", "build", "", "built", ""])
        self.assertEqual(self.runs("exec", "--nonblock", "deploy", "--", "echo", "deployed")[0], "deployed\n")
        unknown = "wanzoche: no operation 'none' is declared; there are build, built, broken, deploy\n"
        self.assertEqual(self.runs("exec", "--failed", "none", "build", "--", "true"), ("", unknown, 125))

    def test_a_pass_that_waits(self):
        """It is ended by a signal, by its limit, or by a kill; then it is made by hand."""
        with open(self.declaration, "w") as file:
            file.write(CROWDED)
        paths = self.open(CROWDED)
        for options, number in (([], signal.SIGTERM), (["--timeout", "0.05"], None), (["--nonblock"], None), ([], signal.SIGKILL)):
            words = self.words("exec", "--passed", "built", *options, "build", "--", "true")
            with paths("inspect"), running(words, stderr=subprocess.PIPE) as process:
                if number is not None:
                    self.until(self.waits)
                    process.send_signal(number)
                told = process.stderr.read().decode()
                self.assertEqual(process.wait(LONGEST), 0 if number != signal.SIGKILL else -signal.SIGKILL)
                if number != signal.SIGKILL:
                    self.assertRegex(told, "^wanzoche: built wasn't passed: .*; `wanzoche pass` makes up for it\n$")
                self.assertEqual(self.runs("pass", "built")[2], 1)
            self.assertRegex(self.runs("pass", "built")[0], "^passed [0-9]+\n$")
            self.assertTrue(paths.can_start("build"))

    def waits(self):
        told, why, status = self.runs("status", "--json")
        self.assertEqual((why, status), ("", 0))
        return json.loads(told)["counts"]["waiting"]

    def test_as_json(self):
        paths = self.open(BOOK)
        me = {"since": None, "pid": os.getpid(), "host": socket.gethostname()}
        with open("/proc/self/cmdline") as file:
            me["command"] = " ".join(file.read().split("\0")).strip()
        with paths("write"):
            with running(self.words("exec", "--quiet", "read", "--", "true")) as process:
                self.until(self.waits)
                told = json.loads(self.runs("status", "--json")[0])
                process.terminate()
        self.assertEqual(told["counts"], {"in_progress": 1, "lost": 0, "waiting": 1})
        (found,), (waits,) = told["in_progress"], told["waiting"]
        worker = int(paths.worker.split()[-1])
        self.assertEqual(found, {"activation": 0, "operation": "write", "worker": worker, "lost": False, **me})
        told = {name: waits[name] for name in ("operation", "count", "pid", "host")}
        self.assertEqual(told, {"operation": "read", "count": 1, "pid": process.pid, "host": socket.gethostname()})
        self.assertRegex(waits["since"], r"^\d{4}-\d\d-\d\dT\d\d:\d\d:\d\dZ$")
        words = self.words("exec", "write", "--", "sh", "-c", "echo; read line; exit")
        with running(words, stdin=subprocess.PIPE, stdout=subprocess.PIPE) as process:
            process.stdout.readline()
            (found,) = json.loads(self.runs("status", "--json")[0])["in_progress"]
            self.assertEqual((found["pid"], found["command"]), (process.pid, "sh -c echo; read line; exit"))
            process.stdin.close()

    def test_at_most_once_in_some_time(self):
        """By the server's clock, whatever that of the machine shows."""
        with open(self.declaration, "w") as file:
            file.write(NIGHTLY)
        words = self.words("exec", "--declaration", self.declaration, "--every", "1h", "nightly", "--", "echo", "ran")
        asking = [subprocess.Popen(words, stdout=subprocess.PIPE, stderr=subprocess.PIPE) for _ in range(3)]
        self.assertEqual(sorted(each.communicate(timeout=LONGEST)[0] for each in asking), [b"", b"", b"ran\n"])
        self.assertEqual(sorted(each.returncode for each in asking), [0, 1, 1])
        paths, kept = self.open(NIGHTLY, grace=None), time.time_ns
        time.time_ns = lambda: 0
        self.addCleanup(setattr, time, "time_ns", kept)
        with paths("nightly") as entry:
            self.assertLess(seconds_since(paths, entry, 3600), 600)
            last = entry.look()
        with paths("nightly") as entry:
            entry.put(last - 7200 * 1000)
            self.assertIsNone(seconds_since(paths, entry, 3600))
            self.assertGreaterEqual(entry.look(), last)

    def test_status_again_and_again(self):
        paths = self.open(BOOK)
        with running(self.words("status", "--json", "--watch", "600"), stdout=subprocess.PIPE) as process:
            for count in (0, 1, 0):
                self.assertEqual(json.loads(process.stdout.readline())["counts"]["in_progress"], count)
                if count == 0 and not paths.report().live:
                    entry = paths.enter("write")
                else:
                    entry.leave()
            self.assertEqual(json.loads(process.stdout.readline())["counts"]["in_progress"], 1)
            process.send_signal(signal.SIGTERM)
            self.assertEqual((process.stdout.read(), process.wait(LONGEST)), (b"", 128 + signal.SIGTERM))
            entry.leave()

    def test_recovery(self):
        self.dies(lambda: setattr(self, "kept", self.made(BOOK, lost="keep").enter("write")))
        paths = self.open(BOOK)
        self.until(lambda: paths.report().lost)
        self.until(lambda: self.runs("recover", "1") == ("finished 1\n", "", 0)) 
        self.assertNotIn("lost", self.runs("status")[0])
        with paths("read"):
            worker = paths.worker.split()[-1]
            self.assertEqual(self.runs("recover", worker), ("", "wanzoche: process {} is alive\n".format(worker), 1))

    def test_watching(self):
        paths = self.open(BOOK)
        with subprocess.Popen(self.words("watch"), stdout=subprocess.PIPE) as process:
            for _ in range(3):
                paths.enter("write").leave()
                self.assertIn(b"start write", process.stdout.readline())
                self.assertIn(b"finished", process.stdout.readline())
            process.send_signal(signal.SIGINT)
            self.assertEqual(process.wait(LONGEST), 128 + signal.SIGINT)

    def test_viewing(self):
        paths = self.open(BOOK)
        paths.enter("read").leave()
        with running(self.words("view"), stdout=subprocess.PIPE) as process:
            address = process.stdout.readline().decode().strip()

            def news():
                with urllib.request.urlopen(address + "news", timeout=LONGEST) as answer:
                    return json.loads(answer.read().decode())

            self.assertEqual((news()["store"], news()["verdict"], news()["bars"]), (self.name, {"sound": True, "lines": 2, "told": None}, []))
            with paths("write"), running(self.words("exec", "--quiet", "read", "--", "true")) as waiting:
                self.until(lambda: news()["waiting"])
                told = news()
                (found,), (waits,), (bar,) = told["in_progress"], told["waiting"], told["bars"]
                self.assertEqual((found["operation"], found["pid"], bar[:3]), ("write", os.getpid(), ["write", found["worker"], 1]))
                self.assertEqual((waits["operation"], waits["pid"]), ("read", waiting.pid))
                self.assertTrue(told["began"] <= found["seen"] == bar[3])
                waiting.terminate()
            self.until(lambda: news()["bars"][0][4] is not None)
            self.assertEqual([each[:4] for each in news()["bars"]], [bar[:4]])  # each line was seen once
            process.terminate()
            self.assertEqual((process.stdout.read(), process.wait(LONGEST)), (b"", 128 + signal.SIGTERM))

    def test_lines_that_are_moved(self):
        """To the commands nothing changes."""
        paths, told = self.open(BOOK), b""
        with subprocess.Popen(self.words("watch"), stdout=subprocess.PIPE) as process:
            for _ in range(3):
                paths.enter("write").leave()
                told += process.stdout.readline()
                paths.enter("read").leave()
                paths.rotate()
                told += b"".join(process.stdout.readline() for _ in range(3))
            process.send_signal(signal.SIGINT)
            self.assertEqual(process.wait(LONGEST), 128 + signal.SIGINT)
        self.assertEqual(told.decode(), paths.journal())
        self.assertEqual(self.runs("log"), (paths.journal(), "", 0))
        self.assertEqual(self.runs("audit"), ("sound\n", "", 0))
        self.assertEqual(self.runs("exec", "write", "--", "true"), ("", "", 0))
        told = "update wanzoche.segment set text = replace(text, 'started 2', 'started 3') where log = (select log from wanzoche.log where name = %s)"
        self.server.run(told, self.name)
        told, why, status = self.runs("audit")
        self.assertEqual((told, status), ("wrong line 4\n", 5))
        self.assertRegex(why, "at place 4: .1 start write: started 3., where .started 2. is owed")

    def test_faults(self):
        self.assertRegex(self.runs("status")[1], "^wanzoche: there is no log .*: `wanzoche exec` with --declaration makes one\n$")
        words = COMMAND + ["status", "--store", self.server.url]
        ended = subprocess.run(words, stderr=subprocess.PIPE, timeout=LONGEST)
        self.assertEqual(ended.stderr, b"wanzoche: --name is wanted for a store in PostgreSQL, and for no other\n")
        self.assertEqual(self.runs("exec", "--declaration", self.declaration, "steal", "--", "true")[1:], (
            "wanzoche: no operation 'steal' is declared; there are read, write\n", 125))  # fmt: skip
        self.assertEqual(self.runs("exec", "--declaration", self.declaration, "read", "--", "true")[2], 0)
        with open(self.declaration, "w") as file:
            file.write(SLOT)
        self.assertRegex(self.runs("log", "--declaration", self.declaration)[1], "is of another declaration: ")


@needs_server
@unittest.skipUnless(os.path.exists(os.path.join(PROGRAMS, "pathsys")), "there is no pathsys beside the library")
class Page(OnServer, unittest.TestCase):
    """What docs/machines.md shows, copied as it stands, where the server is another."""

    URL = "postgresql://app@db.example/app"

    def setUp(self):
        super().setUp()
        self.name = "pool"
        folder = tempfile.TemporaryDirectory(prefix="wanzoche-")
        self.addCleanup(folder.cleanup)
        self.folder = folder.name
        with open(os.path.join(self.folder, "wanzoche"), "w") as file:
            file.write('#!/bin/sh\nexec "{}" -m wanzoche "$@"\n'.format(sys.executable))
        os.chmod(file.name, 0o755)
        path = [self.folder, PROGRAMS, folder_of_programs(), os.environ["PATH"]]
        self.environment = {**os.environ, "PATH": ":".join(path), "URL": self.server.url, "PYTHONPATH": os.path.join(TOP, "python")}
        with open(os.path.join(TOP, "docs", "machines.md")) as file:
            text = file.read()
        self.blocks = re.findall(r"^```(\w+)\n(.*?)^```$", text, re.M | re.S)

    def runs(self, language, block):
        """What it writes."""
        words = {"python": [sys.executable, "-W", "ignore", "-c"], "sh": ["sh", "-e", "-c"]}[language]
        words.append(block.replace(self.URL, self.server.url))
        ended = subprocess.run(words, cwd=self.folder, env=self.environment, stdout=subprocess.PIPE, stderr=subprocess.PIPE, timeout=LONGEST)
        self.assertEqual((ended.returncode, ended.stderr), (0, b""), block)
        return ended.stdout.decode()

    def test_each_block(self):
        told = [self.runs(*block) for block in self.blocks if "apt-get" not in block[1]]
        python, audit, removed, shell = told
        self.assertEqual((python, audit), ("", "sound\n"))
        self.assertRegex(removed, "^[tf]\n$")
        self.assertRegex(shell, "^startable job backup\nfrozen no\n")

    def test_segments(self):
        """The texts that it takes are all lines, also of a dozen segments."""
        (language, declared), = [block for block in self.blocks if block[0] == "python"]
        paths = self.open(re.search('"""(.*?)"""', declared, re.S).group(1), grace=None)
        for _ in range(12):
            paths.enter("job").leave()
            paths.rotate()
        audits = [block for block in self.blocks if "pathsys audit" in block[1]]
        self.assertEqual([self.runs(*block) for block in audits], ["sound\n"])
        names = sorted((name for name in os.listdir(self.folder) if re.match(r"pool\.\d+$", name)), key=lambda name: int(name[5:]))
        lines = []
        for name in names + ["pool.rest"]:
            with open(os.path.join(self.folder, name)) as file:
                lines += file.read().splitlines()[1:]
        self.assertEqual((len(names), lines), (12, paths.journal().splitlines()))


if __name__ == "__main__":
    unittest.main()
