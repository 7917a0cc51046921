"""The tests of paths in memory, over a log in PostgreSQL: what holds of a process's own paths holds of those that machines share."""

import threading
import unittest
from unittest import mock

import wanzoche

from . import test_paths, test_tasks, test_threads, test_watching
from .declarations import BOOK
from .limits import LONGEST
from .servers import SHORT_GRACE, OnServer, needs_server, new_name, the_server
from .stores import THOROUGH

FEWER = 1600 if THOROUGH else 640
"""So many entries, where paths in memory make 200,000."""


class OverServer:
    """For a TestCase: what it opens is a log of its own."""

    module = None

    def setUp(self):
        super().setUp()
        patched = mock.patch.object(self.module, "Paths", self.over_server)
        patched.start()
        self.addCleanup(patched.stop)

    def over_server(self, text, **options):
        options.pop("log", None)
        options.pop("room", None)
        paths = wanzoche.Paths(text, store=the_server().url, name=new_name(), **options)
        self.addCleanup(paths.close)
        return paths


@needs_server
class ServedEntries(OverServer, test_paths.Entries):
    module = test_paths


@needs_server
class ServedUnused(OverServer, test_paths.Unused):
    module = test_paths
    test_nothing_of_one_that_found_no_room = None  # lines of the log make room by themselves

    def options(self):
        return {"store": the_server().url, "name": new_name()}


@needs_server
class ServedMetrics(OverServer, test_watching.Counted):
    module = test_watching

    def is_refused(self, paths):
        """Who has only asked waits for an answer."""
        try:
            return any(each.has_waited for queue in list(paths.served.clerk.wanted.starts.values()) for each in list(queue))
        except RuntimeError:  # the clerk has changed a queue meanwhile
            return False


@needs_server
class ServedTold(OnServer, unittest.TestCase):
    """What the program's log says of a log on a server."""

    grace = SHORT_GRACE

    def test_who_waits_and_for_whom(self):
        seen = test_watching.Seen(self, "has waited")
        paths = self.open(BOOK)
        with paths("read"):
            thread = threading.Thread(target=lambda: paths.enter("write").leave(), name="printer")
            thread.start()
            self.assertTrue(seen.come.wait(LONGEST))
        thread.join()
        wanted = r"^thread 2 \(printer\) has waited for \d+ s: write is blocked: path 0 of .*; in progress: read by process 1$"
        self.assertRegex(seen.messages[0], wanted)

    def test_a_process_that_died(self):
        seen, held = test_watching.Seen(self, "is dead"), []
        paths = self.open(BOOK)
        self.dies(lambda: held.append(self.made(BOOK).enter("write")))
        paths.enter("read", timeout=LONGEST).leave()
        self.assertEqual(seen.messages, ["process 2 is dead, and what it had in progress is finished: write"])

    def test_a_session_that_the_server_ends(self):
        seen = test_watching.Seen(self, "the server")
        paths = self.open(BOOK)
        self.server.run("select pg_terminate_backend(pid) from pg_stat_activity where application_name = 'wanzoche' and pid <> pg_backend_pid()")
        paths.enter("read", timeout=LONGEST).leave()
        self.assertRegex(seen.messages[0], "^the log {}: the server doesn't answer: ".format(self.name))
        self.assertRegex(seen.messages[-1], "^the log {}: the server is there again, after .* s$".format(self.name))


@needs_server
class ServedRefusals(OverServer, test_paths.Refusals):
    module = test_paths
    test_a_blocked_start_says_why = test_a_time_limit_says_why_too = None  # they name threads, and test_postgresql has their like
    test_a_room_and_a_name_are_refused = test_a_room_of_one_place_has_none_for_a_finish = None


@needs_server
class ServedEnds(OverServer, test_paths.Ends):
    module = test_paths
    test_a_collected_handle_is_closed = None


@needs_server
class ServedThreads(OverServer, test_threads.Threads):
    module = test_threads

    def setUp(self):
        super().setUp()
        fewer = mock.patch.object(test_threads, "ENTRIES", FEWER)
        fewer.start()
        self.addCleanup(fewer.stop)

    test_a_queue_loses_nothing = None  # its journal is in a log, and test_postgresql_many has its like


@needs_server
class ServedTasks(OverServer, test_tasks.Tasks):
    module = test_tasks
    test_a_time_limit = test_a_guarded_coroutine = None  # they name tasks, and test_postgresql has their like
    # A task that is cancelled while the server is asked may have started. It finishes then: see test_postgresql.
    test_an_entry_that_is_cancelled_before_each_step = test_a_task_cancelled_as_it_is_woken_passes_its_turn_on = None


if __name__ == "__main__":
    unittest.main()
