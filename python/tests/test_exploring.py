"""Every schedule of a script: what is found, bad input, other threads, and interrupts."""

import os
import pickle
import subprocess
import sys
import threading
import unittest
from unittest import mock

import wanzoche
from wanzoche import DeclarationError, Exploration, ScriptError, explore

from .interrupts import each_instruction, interrupt
from .limits import LONGEST

LOCKS = "resource a cell operation x path x end end resource b queue 1 operation y path y end end"


def process(name, *steps):
    return "process {}\n{}end\n".format(name, "".join(step + "\n" for step in steps))


ONE = process("p", "enter x", "enter y", "leave", "leave")
CROSSWISE = ONE + process("q", "enter y", "enter x", "leave", "leave")
# Nine processes that never wait for each other have 21 to the ninth states.
FREE = "resource r cell operation a end"
MANY = "".join(process("p{}".format(n), *["enter a", "leave"] * 10) for n in range(9))
# Comes by twice, between which the search has worked, and goes on. If it kept the lock, this thread would come by only before and behind it.
WATCHED = """
import os, threading, time, wanzoche

def work():
    return time.process_time() - time.thread_time()  # the processor time of the other thread

search = threading.Thread(target=wanzoche.explore, args=({!r}, {!r}, 3000000), daemon=True)
search.start()
first = None
while search.is_alive():
    first = work() if first is None and work() > 0.1 else first
    if first is not None and work() > first + 0.1 and search.is_alive():
        print("came by", flush=True)
        os._exit(0)
    time.sleep(0.001)
"""
# Sends Ctrl-C when the search has begun, and again until it was seen: Python sleeps on if a signal comes just before it goes to sleep.
INTERRUPTED = """
import os, signal, threading, time, wanzoche
seen = threading.Event()

def comes(*_):
    if not seen.is_set():
        seen.set()
        raise KeyboardInterrupt

def searches():
    return sum(each.name == "wanzoche.explore" for each in threading.enumerate())

def sends():
    while not searches():
        time.sleep(0.001)
    while not seen.is_set():
        os.kill(os.getpid(), signal.SIGINT)
        seen.wait(1)

signal.signal(signal.SIGINT, comes)
threading.Thread(target=sends, daemon=True).start()
try:
    wanzoche.explore({!r}, {!r}, most=3000000)
except KeyboardInterrupt:
    print(searches(), flush=True)
"""


class Finding(unittest.TestCase):
    def test_a_stall(self):
        found = explore(LOCKS, CROSSWISE)
        self.assertEqual((found.outcome, found.states, bool(found)), ("stalled", None, False))
        self.assertEqual((found.done, found.stalled, found.refused, found.undecided), (False, True, False, False))
        self.assertEqual(
            found.journal,
            "journal 2 room 1048576\n0 start x: started 0\n1 start y: started 1\n0 start y: blocked 1\n1 start x: blocked 0\n",
        )
        self.assertEqual(found.processes, ("p: stalled y", "q: stalled x"))
        self.assertEqual(str(found), found.journal + "p: stalled y\nq: stalled x\n")
        self.assertTrue(wanzoche.audit(LOCKS, found.journal))

    def test_a_step_that_is_refused(self):
        found = explore(LOCKS, process("p", "enter y", "use take", "leave") + process("q"))
        self.assertTrue(found.refused and not found and found.states is None)
        self.assertEqual(found.journal, "journal 2 room 1048576\n0 start y: started 0\n0 use 0 take: empty\n")
        self.assertEqual(found.processes, ("p: faulted empty", "q: done"))

    def test_all_done(self):
        found = explore(LOCKS, ONE)
        self.assertTrue(found and found.done)
        self.assertEqual(found, Exploration("done", 5))
        self.assertEqual(str(found), "every schedule ends done\nstates 5\n")
        self.assertEqual(explore(LOCKS.encode(), b""), Exploration("done", 1))

    def test_undecided(self):
        found = explore(FREE, MANY, most=1000)
        self.assertTrue(found.undecided and not found)
        self.assertEqual((found.states, found.journal, found.processes), (1000, "", ()))
        self.assertEqual(str(found), "undecided after 1000 states\n")
        self.assertEqual(explore(LOCKS, ONE, most=5).states, 5)
        self.assertTrue(explore(LOCKS, ONE, most=4).undecided and explore(LOCKS, ONE, most=0).undecided)

    def test_it_is_as_the_program_says(self):
        program = os.environ.get("PATHSYS")
        examples = os.path.join(os.path.dirname(__file__), "..", "..", "examples")
        for name in ("crosswise", "one_by_one", "other_first", "philosophers", "bounded_buffer", "pool"):
            files = [os.path.join(examples, name, part) for part in ("declaration", "script")]
            texts = []
            for path in files:
                with open(path, "rb") as file:
                    texts.append(file.read())
            found = explore(*texts)
            if program:
                told = subprocess.run([program, "explore", *files], stdout=subprocess.PIPE, stderr=subprocess.PIPE)
                self.assertEqual(str(found).encode(), told.stdout + told.stderr)
            with open(os.path.join(examples, name, "explored")) as file:
                self.assertEqual(str(found), file.read())

    def test_the_most_processes(self):
        names = [("p" + "x" * 30 + chr(ord("a") + n), "o" + "y" * 30 + chr(ord("a") + n)) for n in range(16)]
        form = "resource r{0} cell operation first{0}, {1} path first{0} ; {1} end end "
        declaration = "".join(form.format(n, op) for n, (_, op) in enumerate(names))
        found = explore(declaration, "".join(process(name, "enter " + op, "leave") for name, op in names))
        self.assertEqual(found.processes, tuple("{}: stalled {}".format(name, op) for name, op in names))
        self.assertEqual(found.journal.count("\n"), 1 + 16)


class Refusing(unittest.TestCase):
    def test_a_script(self):
        for script, told, line in (
            (process("p", "enter z", "leave"), "undeclared in line 1, which is line 2 counted from 1:\n  enter z", 2),
            (process("p", "leave"), "unbalanced in line 1, which is line 2 counted from 1:\n  leave", 2),
            ("process p\nenter x\n\nend\n", "bad line 2, which is line 3 counted from 1:\n  ", 3),
            ("process p", "bad line 1, which is line 2 counted from 1:\n  (the text ends inside a process)", 2),
            ("process p\n", "bad line 1, which is line 2 counted from 1:\n  (the text ends inside a process)", 2),
            (process("p", *["enter x"] * 17), "too deep in line 17, which is line 18 counted from 1:\n  enter x", 18),
            (process("p") * 17, "too many in line 32, which is line 33 counted from 1:\n  process p", 33),
            ("\n" * 262145, "too long", None),
        ):
            with self.assertRaises(ScriptError) as raised:
                explore(LOCKS, script)
            self.assertEqual((str(raised.exception), raised.exception.line), (told, line))
            again = pickle.loads(pickle.dumps(raised.exception))
            self.assertEqual((str(again), again.line), (told, line))
            self.assertIsInstance(raised.exception, ValueError)

    def test_a_declaration(self):
        with self.assertRaises(DeclarationError) as raised:
            explore("resource a cell operation x path z end end", "nothing")
        self.assertEqual((raised.exception.line, raised.exception.column), (1, 34))

    def test_a_number_of_states(self):
        for most in (-1, 2**32):
            with self.assertRaises(ValueError):
                explore(LOCKS, ONE, most=most)
        self.assertTrue(explore(LOCKS, ONE, most=2**32 - 1))


class Meanwhile(unittest.TestCase):
    def test_other_threads_go_on(self):
        """While a search of a minute is in the midst of its work, another thread comes by: the search doesn't keep the interpreter's lock."""
        told = subprocess.run([sys.executable, "-c", WATCHED.format(FREE, MANY)], stdout=subprocess.PIPE, timeout=LONGEST)
        self.assertEqual((told.stdout, told.returncode), (b"came by\n", 0))

    def test_many_at_once(self):
        found = [None] * 8

        def search(n):
            found[n] = explore(LOCKS, CROSSWISE if n % 2 else ONE)

        threads = [threading.Thread(target=search, args=(n,)) for n in range(8)]
        for thread in threads:
            thread.start()
        for thread in threads:
            thread.join()
        self.assertEqual([each.outcome for each in found], ["done", "stalled"] * 4)

    def test_a_signal_ends_the_wait(self):
        """Ctrl-C comes while a search of a minute is under way: the process ends without waiting for that."""
        code = INTERRUPTED.format(FREE, MANY)
        told = subprocess.run([sys.executable, "-c", code], stdout=subprocess.PIPE, timeout=LONGEST)
        self.assertEqual((told.stdout, told.returncode), (b"1\n", 0))

    def test_an_interrupt_before_each_instruction(self):
        """Whatever is raised, the next search is as ever, and each that was left ends by itself."""
        number = 0
        for number in each_instruction(interrupt, lambda: explore(LOCKS, CROSSWISE)):
            self.assertTrue(explore(LOCKS, CROSSWISE).stalled)
        self.assertGreater(number, 50)
        for each in threading.enumerate():
            if each.name == "wanzoche.explore":
                each.join(LONGEST)
                self.assertFalse(each.is_alive(), "a search hasn't ended")

    def test_in_another_thread_no_thread_is_started(self):
        found = []

        def search():
            with mock.patch.object(threading.Thread, "start", side_effect=AssertionError("a thread is started")):
                found.append(explore(LOCKS, ONE).outcome)

        thread = threading.Thread(target=search)
        thread.start()
        thread.join()
        self.assertEqual(found, ["done"])


if __name__ == "__main__":
    unittest.main()
