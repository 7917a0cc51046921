"""Threads that wait on paths."""

import threading
import time
import unittest

from wanzoche import Closed, NotInProgress, Paths, Timeout

from .declarations import BOOK, LINE, SLOT
from .limits import LONGEST

THREADS = 16
ENTRIES = 200000


def run(count, work):
    """Runs the work in so many threads, and hands the first error on."""
    errors = []

    def guarded(number):
        try:
            work(number)
        except BaseException as error:
            errors.append(error)

    threads = [threading.Thread(target=guarded, args=(n,)) for n in range(count)]
    for thread in threads:
        thread.start()
    for thread in threads:
        thread.join(LONGEST)
    if errors:
        raise errors[0]
    if any(thread.is_alive() for thread in threads):
        raise AssertionError("threads still wait")


class Threads(unittest.TestCase):
    def test_readers_and_writers(self):
        paths = Paths(BOOK, room=1048576)
        book, readers, torn = [0, 0], [0], []
        counting = threading.Lock()

        def work(number):
            for n in range(ENTRIES // THREADS):
                if n % 8 == number % 8:
                    with paths("write"):
                        book[0] += 1
                        book[1] += 1
                else:
                    with paths("read"):
                        if book[0] != book[1]:
                            torn.append(n)

        run(THREADS, work)
        self.assertEqual(torn, [])
        self.assertEqual(book, [ENTRIES // 8] * 2)
        self.assertEqual(paths.report().live, ())
        self.assertEqual(str(paths.audit()), "sound")

    def test_a_queue_loses_nothing(self):
        log = []
        paths = Paths(LINE, room=65536, log=log)
        each = ENTRIES // THREADS
        got = [[] for _ in range(THREADS)]

        def work(number):
            for n in range(each):
                if number % 2 == 0:
                    with paths("put") as entry:
                        entry.put(number * each + n)
                else:
                    with paths("get") as entry:
                        got[number].append(entry.take())

        run(THREADS, work)
        put = [number * each + n for number in range(0, THREADS, 2) for n in range(each)]
        self.assertEqual(sorted(sum(got, [])), sorted(put))
        self.assertEqual(paths.report().live, ())
        lines = "".join(log) + paths.journal()
        self.assertEqual(str(paths.audit(lines)), "sound")

    def test_time_limits_lose_no_turn(self):
        paths = Paths(SLOT)
        late = [0]

        def work(number):
            for _ in range(200):
                while True:
                    try:
                        with paths("deposit" if number % 2 else "remove", timeout=0.001):
                            if number < 2:
                                time.sleep(0.0005)
                            while not late[0]:  # the first has company until somebody is late
                                time.sleep(0.0005)
                        break
                    except Timeout:
                        late[0] += 1

        run(8, work)
        self.assertTrue(paths.audit())

    def test_closing_wakes_whoever_waits(self):
        paths = Paths(SLOT)
        told = []

        def work(_):
            try:
                paths.enter("remove")
            except Closed as error:
                told.append(error)

        threads = [threading.Thread(target=work, args=(n,)) for n in range(4)]
        for thread in threads:
            thread.start()
        while paths.waiting() != {"remove": 4}:
            time.sleep(0.001)
        paths.close()
        for thread in threads:
            thread.join(LONGEST)
        self.assertEqual(len(told), 4)

    def test_one_entry_is_entered_by_one_thread_at_a_time(self):
        paths = Paths(BOOK)
        entry, within, refused = paths("write"), [0], []

        def work(_):
            for _ in range(2000):
                try:
                    with entry:
                        within[0] += 1
                        alone = within[0] == 1
                        within[0] -= 1
                        self.assertTrue(alone)
                except RuntimeError as error:
                    refused.append(error)

        run(4, work)
        with entry:
            run(1, lambda _: self.assertRaisesRegex(RuntimeError, "^this entry of write is in progress already$", entry.__enter__))
        self.assertEqual(paths.report().live, ())
        self.assertTrue(paths.audit())

    def test_one_entry_for_which_many_wait_is_entered_by_one(self):
        paths = Paths(BOOK)
        entry, entered, refused = paths("read"), [], []

        def read():
            try:
                entered.append(entry.__enter__().activation)
            except RuntimeError as error:
                refused.append(str(error))

        threads = [threading.Thread(target=read) for _ in range(4)]
        with paths("write"):
            for thread in threads:
                thread.start()
            while paths.waiting() != {"read": 4}:
                time.sleep(0.001)
        for thread in threads:
            thread.join(LONGEST)
        self.assertEqual((entered, refused), ([1], ["this entry of read is in progress already"] * 3))
        entry.leave()
        self.assertEqual(paths.report().live, ())
        self.assertTrue(paths.audit())

    def test_one_entry_is_left_by_one_thread(self):
        paths = Paths(BOOK, room=1048576)
        for _ in range(300):
            entry, left = paths.enter("write"), []

            def leave(_):
                try:
                    entry.leave()
                    left.append(True)
                except NotInProgress:
                    pass

            run(4, leave)
            self.assertEqual(left, [True])
        self.assertEqual(paths.report().live, ())

    def test_a_finish_that_frees_two_operations_wakes_both(self):
        paths = Paths("resource r cell operation x, y, z path x ; y end path x ; z end end")
        done = []

        def waits(name):
            with paths(name):
                done.append(name)

        threads = [threading.Thread(target=waits, args=(name,)) for name in ("y", "z")]
        for thread in threads:
            thread.start()
        while paths.waiting() != {"y": 1, "z": 1}:
            time.sleep(0.001)
        paths.enter("x").leave()
        for thread in threads:
            thread.join(LONGEST)
        self.assertEqual(sorted(done), ["y", "z"])

    def test_readers_that_wait_are_all_woken(self):
        paths = Paths(BOOK)
        inside = threading.Barrier(THREADS + 1)

        def read():
            with paths("read"):
                inside.wait(LONGEST)

        threads = [threading.Thread(target=read) for _ in range(THREADS)]
        with paths("write"):
            for thread in threads:
                thread.start()
            while paths.waiting() != {"read": THREADS}:
                time.sleep(0.001)
        inside.wait(LONGEST)  # all of them are in progress at once
        for thread in threads:
            thread.join(LONGEST)

    def test_any_thread_may_leave(self):
        paths = Paths(SLOT)
        entry = paths.enter("deposit")
        run(1, lambda _: entry.leave())
        with paths("remove", timeout=1):
            pass


if __name__ == "__main__":
    unittest.main()
