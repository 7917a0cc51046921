"""The commands that only look at a store, where this user may read its files and no more."""

import contextlib
import json
import os
import re
import shutil
import signal
import unittest

from wanzoche import _command

from .commands import COMMAND, IS_ANOTHER, OnCommand
from .declarations import BOOK
from .stores import ANOTHER


@unittest.skipIf(os.geteuid(), "only root can become another user")
class Reading(OnCommand, unittest.TestCase):
    def setUp(self):
        super().setUp()
        os.chmod(self.folder, 0o755)
        self.paths = self.open(BOOK)
        self.declared = ["--declaration", self.declaration]
        if IS_ANOTHER:
            self.program = shutil.copy(shutil.which(COMMAND[0]), os.path.join(self.folder, "program"))  # where another user finds it

    @contextlib.contextmanager
    def begun(self, command, *words):
        """The command in a process of another user: its number, and the ends of pipes from both its streams. It is dead behind the block."""
        pipes = os.pipe(), os.pipe()
        child = os.fork()
        if not child:
            try:
                for stream, (_, into) in enumerate(pipes, 1):
                    os.dup2(into, stream)
                os.closerange(3, 64)
                os.setgroups([])
                os.setgid(ANOTHER)
                os.setuid(ANOTHER)
                given = [command, "--store", self.file, *self.declared, *words]
                if IS_ANOTHER:
                    os.execv(self.program, [*COMMAND, *given])
                os._exit(_command.main(given))
            finally:
                os._exit(99)
        for _, into in pipes:
            os.close(into)
        files = [open(outof, "rb", buffering=0) for outof, _ in pipes]
        try:
            yield (child, *files)
        finally:
            for file in files:
                file.close()
            with contextlib.suppress(ProcessLookupError, ChildProcessError):
                os.kill(child, signal.SIGKILL)
                os.waitpid(child, 0)

    def ran(self, command, *words):
        """What it writes to both streams, and its status."""
        with self.begun(command, *words) as (child, told, why):
            texts = told.readall().decode(), why.readall().decode()
            return (*texts, os.WEXITSTATUS(os.waitpid(child, 0)[1]))

    def test_what_they_say(self):
        """The same as to who may write, but for what stands beside the journal: who is dead, who waits, and which processes those are."""
        self.paths.enter("read").leave()
        self.paths.rotate()
        with self.paths("write"):
            for words in (["status"], ["status", "--json"], ["log"], ["audit"], ["operations"]):
                told, why, status = self.ran(*words)
                self.assertEqual((why, status), ("", 0), words)
                self.assertEqual(len(self.lines()), 1)  # and no line was written
                ours = re.sub("process .*\n", "", self.runs(*words)[0])
                if words[-1] == "--json":
                    told, ours = ({**json.loads(each), "in_progress": []} for each in (told, ours))  # another user's /proc says less
                self.assertEqual(told, ours, words)
        self.assertEqual(os.stat(self.file + ".shared").st_mode & 0o777, 0o600)

    def test_the_dead(self):
        """They are in progress, and it isn't known that they are dead."""
        self.dies(lambda: setattr(self, "kept", self.made(BOOK, lost="keep").enter("write")))
        self.assertEqual(self.ran("status")[0], "startable\nblocked read 0\nblocked write 0\nlive 0 2 write\nfrozen no\n")

    def test_the_declaration_is_wanted(self):
        """It stands in a file that who may only read doesn't get."""
        told = "can't be opened: Permission denied: who may read the journal alone names its declaration by --declaration\n$"
        for name, wanted in ((None, told), ("none.path", "^wanzoche: none.path: No such file")):
            self.declared = [] if name is None else ["--declaration", name]
            said, why, status = self.ran("status")
            self.assertEqual((said, status), ("", 1))
            self.assertRegex(why, wanted)

    def test_a_line_that_is_wrong(self):
        self.paths.close()
        with open(self.file, "ab") as file:
            file.write(b"1 start write: started 7\n")
        verdict = "wrong line 0 of {}\n".format(os.path.realpath(self.file))
        for command, wanted in (("audit", (verdict, 5)), ("status", ("", 1)), ("log", ("", 1))):
            told, why, status = self.ran(command)
            self.assertEqual((told, status), wanted)
            self.assertRegex(why, "door.log in line 2: `1 start write: started 7`, where `started 0` is owed\n$")

    def test_as_it_changes(self):
        with self.begun("status", "--json", "--watch", "600") as (child, told, _), open(told.fileno(), closefd=False) as lines:
            self.assertEqual(json.loads(lines.readline())["counts"]["in_progress"], 0)
            with self.paths("write"):
                self.assertEqual(json.loads(lines.readline())["counts"]["in_progress"], 1)
                self.paths.rotate()
            while json.loads(lines.readline())["counts"]["in_progress"]:
                pass  # as when it saw the rotation
            os.kill(child, signal.SIGTERM)
            self.assertEqual(os.WEXITSTATUS(os.waitpid(child, 0)[1]), 128 + signal.SIGTERM)

    def test_lines_as_they_come(self):
        with self.begun("watch") as (child, told, _), open(told.fileno(), closefd=False) as lines:
            for number in range(3):
                self.paths.enter("read").leave()
                wanted = ["1 start read: started {}\n".format(number), "1 finish {}: finished\n".format(number)]
                self.assertEqual([lines.readline() for _ in wanted], wanted)
                self.paths.rotate()
            os.kill(child, signal.SIGTERM)
            os.waitpid(child, 0)

    def test_all_others_want_the_right_to_write(self):
        for words in (["exec", "read", "--", "true"], ["pass", "read"], ["recover", "1"]):
            told, why, status = self.ran(*words)
            self.assertEqual((told, status), ("", 125 if words[0] == "exec" else 1))
            self.assertRegex(why, "can't be opened: Permission denied\n$")

    def test_who_may_not_read(self):
        os.chmod(self.file, 0o600)
        self.assertEqual(self.ran("status")[1:], ("wanzoche: {} can't be opened: Permission denied\n".format(self.file), 1))
