"""Many processes over one store, with a witness that knows nothing of paths.

The witness is a file that each body locks, shared or alone, without waiting; the bodies that are alone also add 1 to a number in a file, in
two steps. Each process notes what it has entered and left.
"""

import faulthandler
import fcntl
import os
import random
import re
import signal
import sys
import tempfile
import threading
import time
import warnings

import wanzoche

from .declarations import LINE
from .limits import LONGEST

ROUNDS = int(os.environ.get("WANZOCHE_ROUNDS", "1"))
"""More find more."""
SOON = 5
"""So many seconds it is waited for the end of what is in progress where something is wrong already."""
SHARED = {"read"}
"""The operations whose bodies run side by side."""
BUFFER = LINE.replace("path put end\npath get end", "path put , get end")
"""A buffer at which one works at a time."""


class Round:
    """So many processes with so many entries each, of which some are killed, and something that disturbs them."""

    grace = 0.0
    """So many seconds one who is dead is taken for alive."""
    worker: "type[Worker]"

    def __init__(self, text, processes, entries, *, kills, patience, disturb=None):
        self.text, self.processes, self.entries = text, processes, entries
        self.kills, self.patience, self.disturb = kills, patience, disturb
        self.seed = int(os.environ.get("WANZOCHE_SEED") or random.randrange(1 << 32))
        self.chance = random.Random(self.seed)
        self.alive, self.killed, self.begun, self.lost, self.wrong = {}, 0, 0, 0, []

    def first(self):
        """Opens the store before anybody else does."""
        return self.again()

    def again(self):
        """Opens it when all have ended."""
        raise NotImplementedError

    def run(self):
        """What was wrong."""
        with tempfile.TemporaryDirectory(prefix="wanzoche-") as self.folder:
            self.first().close()
            for _ in range(self.processes):
                self.begin(self.entries)
            over = threading.Event()
            beside = threading.Thread(target=self.disturb, args=(over, self.chance, self.noted, self)) if self.disturb else None
            if beside:
                beside.start()
            try:
                self.wait()
            finally:
                over.set()
                if beside:
                    beside.join()
            try:
                self.judge()
            except wanzoche.StoreError as error:
                self.wrong.append(str(error))
        return self.wrong and ["seed {}".format(self.seed)] + self.wrong

    def begin(self, entries):
        """Begins a process."""
        sys.stdout.flush()
        child = os.fork()
        if child == 0:
            try:
                self.worker(self, self.begun).run(entries)
                os._exit(0)
            except BaseException as error:
                with open("{}/wrong.{}".format(self.folder, self.begun), "w") as file:
                    file.write("{}: {}".format(type(error).__name__, error))
            finally:
                os._exit(1)
        self.alive[child] = self.begun
        self.begun += 1

    def wait(self):
        """Until all have ended. Kills some, for each of which another takes its place."""
        moved, size = time.monotonic(), 0
        while self.alive:
            child, status = os.waitpid(-1, os.WNOHANG)
            if child in self.alive:
                del self.alive[child]
                if os.WIFSIGNALED(status):
                    self.killed += 1
                    if self.killed <= 3 * self.processes:
                        self.begin(self.entries // 2)
                continue
            if self.kills and self.chance.random() < self.kills and self.killed < 3 * self.processes:
                os.kill(self.chance.choice(sorted(self.alive)), signal.SIGKILL)
            now = self.noted()
            moved, size = (time.monotonic(), now) if now != size else (moved, size)
            if time.monotonic() - moved > self.patience:
                self.wrong.append("stuck: {}".format(sorted(self.alive.values())))
                self.ask_where()
                self.end_all()
            time.sleep(0.004)

    def ask_where(self):
        """Where those are that are stuck."""
        for child in self.alive:
            os.kill(child, signal.SIGUSR1)
        time.sleep(1)
        for name in os.listdir(self.folder):
            if name.startswith("where."):
                with open(os.path.join(self.folder, name)) as file:
                    self.wrong.append(file.read())

    def noted(self):
        """How much was noted so far."""
        return sum(entry.stat().st_size for entry in os.scandir(self.folder) if entry.name.startswith("notes."))

    def end_all(self):
        """Kills all that are left."""
        for child in list(self.alive):
            os.kill(child, signal.SIGKILL)
            os.waitpid(child, 0)
        self.alive.clear()

    def judge(self):
        """Compares the journal with what each has noted."""
        with self.again() as paths:
            until = time.monotonic() + (SOON if self.wrong else LONGEST)
            while paths.report().live and time.monotonic() < until:
                time.sleep(0.1)
            live, journal, verdict = paths.report().live, paths.journal(), paths.audit()
        if live or not verdict:
            self.wrong.append("live: {}; {}".format(live, verdict))
        self.judge_journal(journal)
        starts = {number: name for name, number in re.findall(r"^\d+ start (\w+): started (\d+)$", journal, re.M)}
        finishes = re.findall(r"^\d+ finish (\d+): finished$", journal, re.M)
        if len(set(finishes)) != len(finishes) or set(finishes) != set(starts):
            self.wrong.append("starts and finishes aren't the same")
        alone = sum(self.compare(notes, starts, set(finishes)) for notes in self.notes())
        total = 0
        if os.path.exists(self.folder + "/total"):
            with open(self.folder + "/total") as file:
                total = int(file.read() or 0)
        if not alone <= total <= alone + self.killed:
            self.wrong.append("{} bodies were alone, and the number is {}".format(alone, total))

    def judge_journal(self, journal):
        """What else is looked at."""

    def notes(self):
        """The notes of each process; what one died of is noted as wrong."""
        for name in os.listdir(self.folder):
            with open(os.path.join(self.folder, name), errors="replace") as file:
                if name.startswith("wrong."):
                    self.wrong.append(file.read())
                elif name.startswith("notes."):
                    yield list(file)

    def compare(self, notes, starts, finishes):
        """How many bodies were alone, by these notes."""
        alone = 0
        for line in notes:
            word, *rest = line.split()
            if word == "breach" or word == "entered" and starts.get(rest[0]) != rest[1] or word == "left" and rest[0] not in finishes:
                self.wrong.append(line.strip())
            alone += word == "body" and rest[1] not in SHARED
            self.lost += word == "lost"
        return alone


class Worker:
    """One process of a round."""

    def __init__(self, round, number):
        self.round = round
        self.witness = os.open(round.folder + "/witness", os.O_RDWR | os.O_CREAT)  # before the store: the kernel gives it back first
        self.total = os.open(round.folder + "/total", os.O_RDWR | os.O_CREAT)
        self.notes = os.open("{}/notes.{}".format(round.folder, number), os.O_WRONLY | os.O_CREAT | os.O_APPEND)
        random.seed(round.seed * 1000 + number)
        self.where = open("{}/where.{}".format(round.folder, number), "w")
        faulthandler.register(signal.SIGUSR1, self.where)
        warnings.simplefilter("ignore", ResourceWarning)  # of entries that an exception drops

    def run(self, entries):
        """Enters so often."""
        raise NotImplementedError

    def note(self, *words):
        """Notes something, in one write."""
        os.write(self.notes, (" ".join(map(str, words)) + "\n").encode())

    def dies_around(self, of, name, chance):
        """Sometimes this process is killed just before or behind a call."""
        call = getattr(of, name)

        def dying(*given):
            if random.random() < chance:
                os.kill(os.getpid(), signal.SIGKILL)
            found = call(*given)
            if random.random() < chance:
                os.kill(os.getpid(), signal.SIGKILL)
            return found

        setattr(of, name, dying)

    def body(self, operation, token):
        """What is done in the entry."""
        try:
            fcntl.lockf(self.witness, (fcntl.LOCK_SH if operation in SHARED else fcntl.LOCK_EX) | fcntl.LOCK_NB)
        except OSError:
            self.note("breach", token)
        if operation not in SHARED:
            before = int(os.pread(self.total, 20, 0) or b"0")
            if random.random() < 0.3:
                time.sleep(random.random() * 0.002)
            os.pwrite(self.total, b"%020d" % (before + 1), 0)
        fcntl.lockf(self.witness, fcntl.LOCK_UN)
        self.note("body", token, operation)
