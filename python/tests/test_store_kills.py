"""Processes over one store that are killed under load, with a witness outside: a pipe, which gets a word only when a call has returned.

After each kill the journal is audited, and has to have all that the pipe tells: 200 kills, of which a few where tests are to be quick.
WANZOCHE_KILLS in the environment says another number, and WANZOCHE_SEED what the random moments follow from.
"""

import os
import random
import re
import select
import signal
import tempfile
import time
import unittest

import wanzoche
from wanzoche import Paths

from .declarations import BOOK
from .limits import LONGEST
from .stores import THOROUGH

KILLS = int(os.environ.get("WANZOCHE_KILLS", "200" if THOROUGH else "20"))
SEED = int(os.environ.get("WANZOCHE_SEED", "1974"))
WORKERS = 4
PAUSE = 0.02
"""So many seconds at most are between two kills."""
LINE = re.compile(r"^\d+ (?:start (\w+): started|finish) (\d+)", re.M)


class Load:
    """So many workers, which enter and leave a book, and tell the pipe each answer."""

    def __init__(self, folder, chance, options):
        self.file, self.chance, self.options = folder + "/door.log", chance, options
        self.out, self.into = os.pipe2(os.O_CLOEXEC)
        os.set_blocking(self.out, False)
        self.told, self.count, self.alive = b"", 0, []
        Paths(BOOK, store=self.file, **options).close()

    def begin(self):
        child = os.fork()
        if child:
            self.alive.append(child)
            return
        try:
            with Paths(BOOK, store=self.file, **self.options) as paths:
                self.work(paths, random.Random(self.chance.random()))
        except BaseException as error:
            os.write(self.into, b"wrong: %s\n" % repr(error).encode())
        finally:
            os._exit(1)

    def work(self, paths, chance):
        while True:
            operation = "write" if chance.random() < 0.3 else "read"
            entry = paths.enter(operation, timeout=LONGEST)
            token = entry.token
            os.write(self.into, b"%s %d\n" % (operation.encode(), token))
            entry.leave()
            os.write(self.into, b"finish %d\n" % token)

    def kill(self):
        """Kills one of them, and one that comes after it takes its place."""
        child = self.alive.pop(self.chance.randrange(len(self.alive)))
        os.kill(child, signal.SIGKILL)
        return os.WTERMSIG(os.waitpid(child, 0)[1])

    def answered(self):
        """What the pipe tells since the last time, in whole lines."""
        try:
            while True:
                self.told += os.read(self.out, 1 << 16)
        except BlockingIOError:
            pass
        lines, _, self.told = self.told.rpartition(b"\n")
        return lines.decode().splitlines()

    def first(self):
        """The same, once there is something to tell."""
        select.select([self.out], [], [], LONGEST)
        return self.answered()

    def lines(self):
        """The journal as it stands, of all its files. It is audited."""
        names = None
        while names != sorted(os.listdir(os.path.dirname(self.file))):  # else one was moved away meanwhile
            names = sorted(os.listdir(os.path.dirname(self.file)))
            moved = sorted(int(name[9:]) for name in names if name[9:].isdigit())
            texts = [read(path) for path in ["{}.{}".format(self.file, number) for number in moved] + [self.file]]
        parts = [text[: text.rfind("\n") + 1].replace("\n+", "\n") for text in texts]
        text = "journal 2 room 1048576\n" + "".join(part.partition("\n")[2].lstrip("+") for part in parts)
        return text, wanzoche.audit(BOOK, text)

    def end(self):
        while self.alive:
            self.kill()
        os.close(self.out)
        os.close(self.into)


def read(path):
    with open(path) as file:
        return file.read()


class Kills(unittest.TestCase):
    def killed(self, count, seed, **options):
        """So many kills, beginning with a new store."""
        with tempfile.TemporaryDirectory(prefix="wanzoche-") as folder:
            load = Load(folder, random.Random(seed), options)
            self.addCleanup(load.end)
            told = set()
            for _ in range(WORKERS):
                load.begin()
            for _ in range(count):
                told.update(load.first())
                time.sleep(load.chance.uniform(0, PAUSE))
                is_killed = load.kill() == signal.SIGKILL
                told.update(load.answered())
                self.assertEqual([each for each in told if each.startswith("wrong")], [])
                self.assertTrue(is_killed)
                text, verdict = load.lines()
                self.assertTrue(verdict, verdict)
                found = {"{} {}".format(operation or "finish", number) for operation, number in LINE.findall(text)}
                self.assertEqual(told - found, set())
                told = set()
                load.begin()
            while load.alive:
                load.kill()
            with Paths(BOOK, store=load.file) as paths:
                self.assertEqual(paths.report().live, ())
                self.assertTrue(paths.audit())

    def test_each_is_on_the_disk(self):
        self.killed(KILLS // 4, SEED)

    def test_nobody_waits_for_the_disk(self):
        for number in range(2):
            self.killed(KILLS // 4, SEED + 1 + number, sync=False)

    def test_files_are_moved_away(self):
        self.killed(KILLS // 4, SEED + 3, sync=False, room=400)


if __name__ == "__main__":
    unittest.main()
