"""How a service with paths is watched: names, the log `wanzoche`, and metrics."""

import asyncio
import gc
import logging
import os
import pickle
import socket
import threading
import time
import unittest
from unittest import mock

from wanzoche._native import BLOCKED
from wanzoche import Blocked, Paths, Timeout, Worker, _filed, _waiting, prometheus
from wanzoche._metrics import BOUNDS, Waits

from .declarations import BOOK
from .limits import LONGEST
from .stores import InFolder

WRITE = "write is blocked{}: path 0 of book: {{ read }} , write; in progress: {}"


def in_thread(name, work):
    """Does it in a thread of this name, to its end."""
    thread = threading.Thread(target=work, name=name)
    thread.start()
    thread.join()


class Names(unittest.TestCase):
    """Who has something in progress is known by name."""

    def test_the_name_of_a_thread_that_lives(self):
        paths, begun, over = Paths(BOOK), threading.Event(), threading.Event()

        def reads():
            with paths("read"):
                begun.set()
                over.wait()

        thread = threading.Thread(target=reads, name="indexer")
        thread.start()
        begun.wait()
        self.assertEqual(str(paths.why("write")), WRITE.format("", "read by thread 1 (indexer)"))
        worker = paths.report().live[0].worker
        self.assertEqual((worker, worker.name, worker.pid, worker.host), ("thread 1", "indexer", os.getpid(), socket.gethostname()))
        with self.assertRaises(Timeout) as caught:
            paths.enter("write", timeout=0.001)
        self.assertIn("read by thread 1 (indexer)", str(caught.exception))
        thread.name = "searcher"
        self.assertEqual(paths.report().live[0].worker.told, "thread 1 (searcher)")
        over.set()
        thread.join()

    def test_a_thread_that_has_ended_has_no_name(self):
        paths, entries = Paths(BOOK), []
        in_thread("indexer", lambda: entries.append(paths.enter("read")))
        self.assertEqual(str(paths.why("write")), WRITE.format("", "read by thread 1"))
        self.assertIsNone(paths.report().live[0].worker.name)
        entries[0].leave()

    def test_a_name_that_python_gave_is_known_and_not_told(self):
        for name in ("MainThread", "Thread-3", "Thread-12 (reads)", "Task-7", "Dummy-1", "", None):
            self.assertEqual(Worker("thread 1", name).told, "thread 1")
        paths = Paths(BOOK)
        with paths("read"):
            self.assertEqual(str(paths.why("write")), WRITE.format("", "read by thread 1"))
            self.assertEqual(paths.report().live[0].worker.name, threading.current_thread().name)

    def test_the_name_of_a_task(self):
        paths = Paths(BOOK)

        async def reads():
            async with paths.aio("read"):
                return paths.why("write")

        async def main():
            return await asyncio.get_running_loop().create_task(reads(), name="feed")

        self.assertEqual(str(asyncio.run(main())), WRITE.format("", "read by task 1 (feed)"))

    def test_names_of_those_that_are_gone_take_no_room(self):
        paths = Paths(BOOK)
        for _ in range(20):
            in_thread("indexer", lambda: paths.enter("read").leave())
            asyncio.run(self.reads(paths))
        gc.collect()
        self.assertEqual((len(paths._workers), len(paths._workers._numbers)), (0, 0))

    async def reads(self, paths):
        async with paths.aio("read"):
            pass

    def test_a_copy_has_the_name(self):
        why = Blocked("write", 0, "book", "{ read } , write", [("read", Worker("thread 1", "indexer", 5, "db1"))])
        copied = pickle.loads(pickle.dumps(why))
        self.assertEqual((str(copied), copied.in_progress[0][1].pid), (str(why), 5))


class NamesOverAStore(InFolder, unittest.TestCase):
    def test_the_process_of_another(self):
        """Each opening is one: here both are this process."""
        a, b = self.open(BOOK), self.open(BOOK)
        with a("read"):
            for paths in (a, b):
                worker = paths.report().live[0].worker
                self.assertEqual((worker, worker.pid, worker.host), ("process 1", os.getpid(), socket.gethostname()))
            self.assertEqual(str(b.why("write")), WRITE.format("", "read by process 1"))


class Seen(logging.Handler):
    """The messages of the log that have a text in them; `come` is set by the first."""

    def __init__(self, test, text, level=logging.INFO):
        super().__init__()
        self.text, self.messages, self.come = text, [], threading.Event()
        logger = logging.getLogger("wanzoche")
        for each in (mock.patch.object(logger, "level", level), mock.patch.object(logger, "propagate", False)):
            each.start()
            test.addCleanup(each.stop)
        logger.manager._clear_cache()
        test.addCleanup(logger.manager._clear_cache)
        logger.addHandler(self)
        test.addCleanup(logger.removeHandler, self)

    def emit(self, record):
        message = record.getMessage()
        if self.text in message:
            self.messages.append(message)
            self.come.set()


class Told(InFolder, unittest.TestCase):
    """What the log `wanzoche` says."""

    def setUp(self):
        super().setUp()
        for module in (_waiting, _filed):
            sooner = mock.patch.object(module, "FIRST_LOOK", 0.02)
            sooner.start()
            self.addCleanup(sooner.stop)

    def told_of_a_wait(self, paths):
        """What is told of a thread that waits, which it does until it is told."""
        seen = Seen(self, "has waited")
        with paths("read"):
            thread = threading.Thread(target=lambda: paths.enter("write").leave(), name="printer")
            thread.start()
            self.assertTrue(seen.come.wait(LONGEST))
        thread.join()
        return seen.messages[0]

    def test_who_waits_and_for_whom(self):
        pattern = r"^thread \d \(printer\) has waited for \d+ s: "
        self.assertRegex(self.told_of_a_wait(Paths(BOOK)), pattern + WRITE.format("", "read by thread 1$").replace("{", r"\{"))

    def test_who_waits_at_a_store(self):
        pattern = r"^thread \d \(printer\) has waited for \d+ s: "
        self.assertRegex(self.told_of_a_wait(self.open(BOOK)), pattern + WRITE.format("", "read by process 1$").replace("{", r"\{"))

    def waiting_tasks(self, paths):
        """What is told of two tasks that wait, once both have waited long enough."""
        seen = Seen(self, "(and 1 more) has waited")

        async def writes():
            async with paths.aio("write"):
                pass

        async def main():
            async with paths.aio("read"):
                tasks = [asyncio.ensure_future(writes()) for _ in range(2)]
                while not seen.messages:
                    await asyncio.sleep(0.001)
            await asyncio.gather(*tasks)

        asyncio.run(asyncio.wait_for(main(), LONGEST))
        return seen.messages[0]

    def test_tasks_that_wait_are_told_of_together(self):
        self.assertRegex(self.waiting_tasks(Paths(BOOK)), r"^task \d \(and 1 more\) has waited for \d+ s: write is blocked")

    def test_a_task_that_waits_at_a_store(self):
        seen, paths = Seen(self, "has waited"), self.open(BOOK)

        async def writes():
            async with paths.aio("write"):
                pass

        async def main():
            async with paths.aio("read"):
                task = asyncio.ensure_future(writes())
                while not seen.messages:
                    await asyncio.sleep(0.001)
            await task

        asyncio.run(asyncio.wait_for(main(), LONGEST))
        self.assertRegex(seen.messages[0], r"^task \d has waited for \d+ s: write is blocked")

    def test_nothing_is_asked_where_nobody_reads_it(self):
        paths = self.open(BOOK)
        seen = Seen(self, "", logging.WARNING)
        with mock.patch.object(paths, "report", side_effect=AssertionError):
            paths._tell_long_wait(paths("read")._begun, BLOCKED, 1, 0.0)
        self.assertEqual(seen.messages, [])

    def test_a_process_that_died(self):
        seen = Seen(self, "is dead")
        paths, kept = self.open(BOOK), []
        self.dies(lambda: kept.append(Paths(BOOK, store=self.file).enter("write")))
        paths.enter("read").leave()
        self.assertEqual(seen.messages, ["process 2 is dead, and its write is finished"])

    def test_a_rotation(self):
        seen = Seen(self, "moved")
        paths = self.open(BOOK)
        paths.enter("read").leave()
        paths.rotate()
        self.assertEqual(seen.messages, ["{0} was moved to {0}.1".format(os.path.realpath(self.file))])


class Counted(unittest.TestCase):
    """The metrics of paths."""

    def test_entries(self):
        paths = Paths(BOOK)
        for _ in range(3):
            paths.enter("read").leave()
        paths.try_enter("read").leave()

        async def reads():
            async with paths.aio("read"):
                pass

        asyncio.run(reads())
        with paths("write"):
            self.assertIsNone(paths.try_enter("read"))
            read, write = paths.metrics()["read"], paths.metrics()["write"]
        self.assertEqual((read.entries, read.waits, read.waiting, read.in_progress), (5, 0, 0, 0))
        self.assertEqual((write.entries, write.waits, write.waiting, write.in_progress), (1, 0, 0, 1))
        self.assertEqual((read.waited.bounds, sum(read.waited.counts), read.waited.seconds), (BOUNDS, 0, 0.0))

    def is_refused(self, paths):
        """Whether somebody waits, who was refused."""
        return bool(paths.waiting())

    def test_those_that_wait(self):
        paths = Paths(BOOK)
        with paths("read"):
            thread = threading.Thread(target=lambda: paths.enter("write").leave())
            thread.start()
            while not self.is_refused(paths):
                time.sleep(0.001)
            self.assertEqual((paths.metrics()["write"].waiting, paths.metrics()["write"].waits), (1, 0))
        thread.join()
        write = paths.metrics()["write"]
        self.assertEqual((write.entries, write.waits, sum(write.waited.counts), write.waiting), (1, 1, 1, 0))
        self.assertGreater(write.waited.seconds, 0)

    def test_those_that_give_up(self):
        paths = Paths(BOOK)
        with paths("read"):
            with self.assertRaises(Timeout):
                paths.enter("write", timeout=0.03)
        write = paths.metrics()["write"]
        self.assertEqual((write.entries, write.waits), (0, 1))
        self.assertGreaterEqual(write.waited.seconds, 0.02)
        self.assertEqual(sum(write.waited.counts[:2]), 0)

    def test_a_task_that_waits(self):
        paths = Paths(BOOK)

        async def writes():
            async with paths.aio("write"):
                pass

        async def main():
            async with paths.aio("read"):
                task = asyncio.ensure_future(writes())
                while not self.is_refused(paths):
                    await asyncio.sleep(0.001)
            await task

        asyncio.run(main())
        self.assertEqual(paths.metrics()["write"].waits, 1)
        self.assertEqual(paths.metrics()["write"].entries, 1)


try:
    import prometheus_client
except ImportError:
    prometheus_client = None


@unittest.skipIf(prometheus_client is None, "there is no prometheus_client")
class Collected(unittest.TestCase):
    """What Prometheus is told."""

    def setUp(self):
        self.registry = prometheus_client.CollectorRegistry()

    def value(self, name, operation="write", paths="book", **labels):
        return self.registry.get_sample_value(name, {"operation": operation, "paths": paths, **labels})

    def test_all_values(self):
        paths = Paths(BOOK)
        prometheus.register(paths, "book", self.registry)
        with paths("read"):
            with self.assertRaises(Timeout):
                paths.enter("write", timeout=0.03)
            self.assertEqual(self.value("wanzoche_in_progress", "read"), 1)
        self.assertEqual((self.value("wanzoche_entries_total", "read"), self.value("wanzoche_entries_total")), (1, 0))
        self.assertEqual((self.value("wanzoche_wait_seconds_count"), self.value("wanzoche_waiting")), (1, 0))
        self.assertGreaterEqual(self.value("wanzoche_wait_seconds_sum"), 0.02)
        self.assertEqual(self.value("wanzoche_wait_seconds_bucket", le="0.005"), 0)
        self.assertEqual(self.value("wanzoche_wait_seconds_bucket", le="+Inf"), 1)

    def test_several_of_one_registry(self):
        first, second = Paths(BOOK), Paths(BOOK)
        collector = prometheus.register(first, "book", self.registry)
        self.assertIs(prometheus.register(second, "other", self.registry), collector)
        second.enter("write").leave()
        found = self.value("wanzoche_entries_total"), self.value("wanzoche_entries_total", paths="other")
        self.assertEqual(found, (0, 1))

    def test_those_that_are_gone_have_none(self):
        paths, closed = Paths(BOOK), Paths(BOOK)
        prometheus.register(paths, "book", self.registry)
        prometheus.register(closed, "closed", self.registry)
        del paths
        closed.close()
        found = self.value("wanzoche_entries_total"), self.value("wanzoche_entries_total", paths="closed")
        self.assertEqual(found, (None, None))


class WithoutAClient(unittest.TestCase):
    def test_it_says_what_is_missing(self):
        with mock.patch.dict("sys.modules", {"prometheus_client": None}):
            with self.assertRaisesRegex(ImportError, "python3-prometheus-client"):
                prometheus.register(Paths(BOOK), "book")


class Summed(unittest.TestCase):
    """Waits that are added up."""

    def test_each_is_counted_where_it_belongs(self):
        waits = Waits()
        for seconds in (0.0, 0.001, 0.0011, 600.0, 601.0):
            waits.note(3, seconds)
        found = waits.of(3)
        self.assertEqual(found.counts, (2, 1, 0, 0, 0, 0, 0, 0, 0, 1, 1))
        self.assertAlmostEqual(found.seconds, 1201.0021)
        self.assertEqual(sum(waits.of(4).counts), 0)

    def test_none_is_lost_among_threads(self):
        waits = Waits()
        threads = [threading.Thread(target=lambda: [waits.note(0, 0.5) for _ in range(5000)]) for _ in range(8)]
        for each in threads:
            each.start()
        for each in threads:
            each.join()
        self.assertEqual((sum(waits.of(0).counts), waits.of(0).seconds), (40000, 20000.0))
        self.assertEqual(len(waits._new), 0)

    def test_one_that_comes_while_this_thread_adds_up(self):
        waits = Waits()
        adding = waits._adding
        with adding:
            for _ in range(1000):
                waits.note(0, 0.5)
        self.assertEqual(sum(waits.of(0).counts), 1000)


if __name__ == "__main__":
    unittest.main()
