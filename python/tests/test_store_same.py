"""The tests of paths in memory, over a store: what holds of a process's own paths holds of those that it shares."""

import os
import tempfile
import unittest
from unittest import mock

import wanzoche

from . import test_paths, test_tasks, test_threads, test_watching

FEWER = 12800
"""So many entries, where paths in memory make 200,000."""


class OverStores:
    """For a TestCase: what it opens is a store of its own."""

    module = None

    def setUp(self):
        super().setUp()
        folder = tempfile.TemporaryDirectory(prefix="wanzoche-")
        self.addCleanup(folder.cleanup)
        self.folder = folder.name
        self.opened = 0
        patched = mock.patch.object(self.module, "Paths", lambda text, **options: self.over_store(folder.name, text, options))
        patched.start()
        self.addCleanup(patched.stop)

    def over_store(self, folder, text, options):
        self.opened += 1
        options.pop("log", None)
        options.pop("room", None)
        store = os.path.join(folder, "{}.log".format(self.opened))
        paths = wanzoche.Paths(text, store=store, sync=False, **options)
        self.addCleanup(paths.close)
        return paths


class StoredEntries(OverStores, test_paths.Entries):
    module = test_paths


class StoredUnused(OverStores, test_paths.Unused):
    module = test_paths
    test_nothing_of_one_that_found_no_room = None  # a store's room is for lines, of which it has another file

    def options(self):
        return {"store": os.path.join(self.folder, "exit.log")}


class StoredMetrics(OverStores, test_watching.Counted):
    module = test_watching


class StoredRefusals(OverStores, test_paths.Refusals):
    module = test_paths
    test_a_blocked_start_says_why = test_a_time_limit_says_why_too = None  # they name threads, and test_store has their like
    test_a_room_and_a_name_are_refused = test_a_room_of_one_place_has_none_for_a_finish = None


class StoredMistakes(OverStores, test_paths.Mistakes):
    module = test_paths
    test_what_is_no_declaration = test_rooms_and_logs = None  # of paths that can't be opened there is no store


class StoredEnds(OverStores, test_paths.Ends):
    module = test_paths
    test_a_collected_handle_is_closed = None


class StoredThreads(OverStores, test_threads.Threads):
    module = test_threads

    def setUp(self):
        super().setUp()
        fewer = mock.patch.object(test_threads, "ENTRIES", FEWER)
        fewer.start()
        self.addCleanup(fewer.stop)

    test_a_queue_loses_nothing = None  # its journal is in a log, and test_store_many has its like


class StoredTasks(OverStores, test_tasks.Tasks):
    module = test_tasks
    test_a_time_limit = test_a_guarded_coroutine = None  # they name tasks, and test_store has their like


if __name__ == "__main__":
    unittest.main()
