"""One store and few processes: what is shared, what death leaves, what is refused, and what a crash leaves in the file."""

import asyncio
import contextlib
import copy
import errno
import fcntl
import gc
import multiprocessing
import os
import pickle
import re
import resource
import stat
import subprocess
import sys
import tempfile
import threading
import unittest
from unittest import mock

import wanzoche
from wanzoche import (
    CorruptStore,
    DeclarationError,
    Lost,
    OtherDeclaration,
    OutOfRoom,
    Paths,
    StoreError,
    StoreInUse,
    StoreLate,
    Timeout,
)

from wanzoche import _opened
from wanzoche._form import core
from wanzoche._opening import WAIT

from . import both_stores
from .declarations import BOOK, LINE, SLOT
from .limits import LONGEST
from .interrupts import Alarms, Interrupt, at_instruction, ends_a_hang, interrupt
from .stores import ANOTHER, THOROUGH, InFolder

WRITTEN = b"""journal 3 room 1048576
1 start put: started 0
1 use 0 put 41: used 1
1 finish 0: finished
2 start put: started 1
+3 start put: blocked 1
+2 finish 1: finished
1 start get: started 2
+1 use 2 take: used 41
3 start put: started 3
+1 finish 2: finished
+3 finish 3: finished
"""
"""A journal over LINE. Some lines have a mark."""


class Sharing(both_stores.Sharing, InFolder, unittest.TestCase):
    def test_why_says_that_nothing_may_begin(self):
        paths = self.open("resource r cell operation a, b path a ; b end path b ; a end end")
        self.assertEqual((paths.why("a").may_begin, paths.why("b").may_begin), ((), ()))
        self.assertRegex(str(paths.why("b")), "; may begin next: nothing$")

    def test_who_waits_is_woken(self):
        a, b = self.open(SLOT), self.open(SLOT)
        got = []

        def remove():
            for _ in range(200):
                with b("remove", timeout=LONGEST):
                    got.append(1)

        thread = threading.Thread(target=remove)
        thread.start()
        for _ in range(200):
            a.enter("deposit", timeout=LONGEST).leave()
        thread.join(LONGEST)
        self.assertEqual(len(got), 200)

    def test_a_leave_is_seen_by_one_who_is_about_to_sleep(self):
        a, b = self.open(BOOK), self.open(BOOK)
        entry, begun, store = a.enter("write"), b("read")._begun, b._store
        self.assertEqual(store.start(begun, 1, WAIT), wanzoche._native.BLOCKED)
        entry.leave()
        store.sleep(begun, 4 * LONGEST)
        self.assertEqual(store.start(begun, 1, WAIT), wanzoche._native.STARTED)
        store.finish(begun)

    def test_no_file_becomes_a_standard_stream(self):
        """Where these are closed: what a program writes there would stand in a file of the store."""

        def opens():
            for stream in range(3):
                os.close(stream)
            paths = Paths(LINE, store=self.file, room=8)
            for operation in ("put", "get") * 3:
                paths.enter(operation).leave()
                paths.journal()
                paths.rotate()
            for stream in range(3):
                with self.assertRaises(OSError):
                    os.fstat(stream)

        self.ends_well(opens)

    def test_nobody_is_told_before_the_line_is_synced(self):
        """Else the next line would have a mark."""
        paths = self.open(BOOK)
        with paths("write") as entry:
            entry.put(3)

        async def reads():
            async with paths.aio("read"):
                pass

        asyncio.run(reads())
        paths.enter("read").leave()
        marked = [line for line in self.text().decode().splitlines()[2:] if line.startswith("+")]
        self.assertEqual((marked, self.text().count(b"\n")), ([], 8))

    def test_what_belongs_to_a_process_is_not_copied(self):
        paths = self.open(SLOT)
        for one in (paths, paths("deposit"), paths.aio("deposit")):
            for copies in (pickle.dumps, copy.copy, copy.deepcopy):
                with self.assertRaisesRegex(TypeError, "^(paths belong|an entry belongs) to one process, .* Paths[(]TEXT, store=FILE[)]"):
                    copies(one)

    def test_options_are_checked(self):
        for options in ({"log": []}, {"journal": False}, {"room": 0}, {"lost": "maybe"}):
            with self.assertRaises(ValueError):
                Paths(SLOT, store=self.file, **options)
        with self.assertRaises(TypeError):
            Paths(SLOT, store=self.file, sink=1)
        with self.assertRaises(DeclarationError):
            Paths("resource", store=self.file)
        self.assertEqual(os.listdir(self.folder), [])

    def test_a_full_file_is_moved_away(self):
        a, b = self.open(LINE, room=8), self.open(LINE, sync=False)
        for number in range(40):
            with (a if number % 3 else b)("put") as entry:
                entry.put(number)
            with (b if number % 2 else a)("get") as entry:
                self.assertEqual((entry.take(), entry.token), (number, 2 * number + 1))
        b.rotate()
        archives = sorted(name for name in os.listdir(self.folder) if name[-1].isdigit())
        self.assertGreater(len(archives), 20)
        with open(os.path.join(self.folder, archives[3])) as file:
            self.assertLessEqual(file.read().count("\n"), 9)
        self.assertEqual(a.journal().count("\n"), 240)
        self.assertTrue(a.audit() and b.audit() and a.audit(a.journal()))
        c = self.open(LINE)
        self.assertEqual((c.worker, c.journal(), c.try_enter("get")), ("process 3", a.journal(), None))

    def test_a_room_that_is_too_small(self):
        paths = self.open(BOOK, room=6)
        entries = [paths.enter("read") for _ in range(5)]
        with self.assertRaisesRegex(OutOfRoom, "^no room for read: 5 in progress, in a room of 6$"):
            paths.enter("read")
        for entry in entries:
            entry.leave()
        self.assertTrue(paths.audit())

    def access(self, end=""):
        """Who may do what with the journal: its mode, its owner and its group."""
        found = os.stat(self.file + end)
        return stat.S_IMODE(found.st_mode), found.st_uid, found.st_gid

    def test_a_new_file_has_the_access_of_the_one_before(self):
        """Whoever moves it away, root too: else the others couldn't go on."""
        with Paths(SLOT, store=self.file):
            pass
        os.unlink(self.file + ".shared")
        os.chmod(self.file, 0o640)
        if os.getuid() == 0:
            os.chown(self.file, ANOTHER, ANOTHER + 1)
        elif len(os.getgroups()) > 1:
            os.chown(self.file, -1, max(os.getgroups()))
        before = self.access()
        before_umask = os.umask(0)
        self.addCleanup(os.umask, before_umask)
        paths = self.open(SLOT)
        mode, *owners = self.access(".shared")  # which nobody gets who may only read
        self.assertEqual((mode, tuple(owners)), (0o600, before[1:]))
        for umask in (0, 0o077):
            os.umask(umask)
            paths.enter(paths.report().startable[0]).leave()
            paths.rotate()
            self.assertEqual((self.access(), self.access(".1")), (before, before))

    @unittest.skipUnless(os.getuid() == 0, "only root has files of others")
    def test_a_new_file_has_as_much_of_it_as_may_be(self):
        """By a user who isn't its owner: the group stays if it is one of that user's. Else the new group gets no more than all others."""
        for groups, before, after in (
            ((ANOTHER + 1,), (0o664, 0, ANOTHER + 1), (0o664, ANOTHER, ANOTHER + 1)),
            ((), (0o676, 0, ANOTHER + 1), (0o666, ANOTHER, ANOTHER)),
        ):
            self.file = "{}/{}.log".format(self.folder, len(groups))
            with Paths(SLOT, store=self.file) as paths:
                paths.enter("deposit").leave()
            for end in ("", ".shared"):
                os.chown(self.file + end, *before[1:])
                os.chmod(self.file + end, before[0])
            self.as_another(lambda: Paths(SLOT, store=self.file).rotate(), *groups)
            self.assertEqual((self.access(), self.access(".1")), (after, before))

    def test_what_a_move_has_left_is_no_obstacle(self):
        """As of another user, who died in the middle of it."""
        paths = self.open(SLOT)
        paths.enter("deposit").leave()
        with open(self.file + ".new", "w"):
            pass
        os.chmod(self.file + ".new", 0)
        before = self.access()
        paths.rotate()
        self.assertFalse(os.path.exists(self.file + ".new"))
        self.assertEqual(self.access(), before)
        paths.enter("remove").leave()
        self.assertTrue(paths.audit())

    def test_exceptions_can_be_copied(self):
        for error in (CorruptStore("x", 3), OtherDeclaration("y"), StoreError("z"), Lost("l"), StoreInUse("u"), StoreLate("v")):
            other = pickle.loads(pickle.dumps(error))
            self.assertEqual((type(other), str(other), other.__dict__), (type(error), str(error), error.__dict__))


@unittest.skipIf(core is None, "the core's own")
class Steps(InFolder, unittest.TestCase):
    """What the core calls by itself of the library's store."""

    def test_one_that_was_never_opened(self):
        steps = core.Steps()
        for call in (lambda: steps._begin_now(0, 0, 0, 0, 0), lambda: steps._end_now(0)):
            with self.assertRaisesRegex(RuntimeError, "^this store was never opened$"):
                call()

    def test_bad_arguments(self):
        store = self.open(BOOK)._store
        for given in ((), (1,), ("x", 0, 0, 1, 0), (0, 0, 0, 1, None)):
            with self.assertRaises(TypeError):
                store._begin_now(*given)
        with self.assertRaises(TypeError):
            store._end_now(None)
        self.assertEqual((store._begin_now(0, 0, 0, 1, 0), store._end_now(0)), (wanzoche._native.STALE, wanzoche._native.STALE))

    def test_nothing_is_counted_wrongly(self):
        paths = self.open(BOOK, sync=False)
        store, begun = paths._store, paths("write")._begun

        def all_ways(times):
            for _ in range(times):
                store._begin_now(begun._at, begun._op, 0, 1, 0)
                store._begin_now(begun._at, begun._op, 0, 1, 0)
                store._end_now(begun._at)
                store._end_now(begun._at)
                with contextlib.suppress(TypeError):
                    store._end_now("x")

        all_ways(20)
        before = [sys.getrefcount(each) for each in (store, begun, core.Steps)]
        all_ways(300)
        self.assertEqual([sys.getrefcount(each) for each in (store, begun, core.Steps)], before)
        self.assertEqual(paths.report().live, ())


class Deaths(both_stores.Deaths, InFolder, unittest.TestCase):
    def test_one_who_waits_hears_of_a_death(self):
        a = self.open(BOOK)
        ready, die = multiprocessing.Event(), multiprocessing.Event()

        def holds():
            entry = Paths(BOOK, store=self.file).enter("write")
            ready.set()
            die.wait(LONGEST)
            self.assertTrue(entry)

        child = self.child(holds)
        ready.wait(LONGEST)
        threading.Timer(0.05, die.set).start()
        a.enter("read", timeout=LONGEST).leave()
        os.waitpid(child, 0)
        self.assertTrue(a.audit())

    def test_an_exit_is_a_death(self):
        opened = "Paths({!r}, store={!r})".format(BOOK, self.file)
        program = "import os\nfrom wanzoche import Paths\nentry = {}.enter('write')\nos._exit(0)".format(opened)
        subprocess.run([sys.executable, "-c", program], check=True, timeout=LONGEST)
        self.assertEqual(self.text().count(b"finish"), 0)
        self.open(BOOK).enter("read", timeout=0).leave()

    def test_numbers_are_not_given_twice(self):
        numbers = []
        for _ in range(3):
            with Paths(SLOT, store=self.file) as paths:
                numbers.append(paths.worker)
                paths.enter("deposit").leave()
                paths.enter("remove").leave()
        os.unlink(self.file + ".shared")
        numbers.append(self.open(SLOT).worker)
        self.assertEqual(numbers, ["process 1", "process 2", "process 3", "process 4"])


class Refusals(InFolder, unittest.TestCase):
    def refused(self, kind, told, text=BOOK):
        with self.assertRaisesRegex(kind, told) as caught:
            Paths(text, store=self.file)
        return caught.exception

    def test_another_declaration(self):
        self.open(BOOK)
        told = "behind `book cell operation read,` it has `write path { read`, and this one `store path { read`$"
        self.refused(OtherDeclaration, told, BOOK.replace("write", "store"))
        with Paths(" ".join(BOOK.split()), store=self.file):
            pass  # the same in another layout

    def test_a_forged_line(self):
        a, b = self.open(BOOK), self.open(BOOK)
        entry = a.enter("read")
        with open(self.file, "ab") as file:
            file.write(b"5 start write: started 1\n")
        told = "door.log in line 3: `5 start write: started 1`, where `blocked 0` is owed$"
        for paths in (a, b):
            for call in (paths.report, paths.journal, lambda: paths.enter("read"), lambda: paths("read").__enter__()):
                with self.assertRaisesRegex(CorruptStore, told) as caught:
                    call()
                self.assertEqual(caught.exception.line, 3)
        with self.assertRaises(CorruptStore):
            entry.leave()
        a.close()
        b.close()
        self.refused(CorruptStore, told)
        self.assertEqual(str(wanzoche.audit(BOOK, self.text().decode())), "wrong line 1")

    def test_a_forged_line_ends_a_wait(self):
        a, b = self.open(BOOK), self.open(BOOK)
        told = []

        def waits():
            try:
                b.enter("write")
            except CorruptStore as error:
                told.append(error.line)

        entry = a.enter("read")
        thread = threading.Thread(target=waits)
        thread.start()
        self.until(lambda: b.waiting() == {"write": 1})
        with open(self.file, "ab") as file:
            file.write(b"hello\n")
        thread.join(LONGEST)
        self.assertEqual(told, [3])
        with self.assertRaises(CorruptStore):
            entry.leave()

    def test_lines_that_are_gone(self):
        a = self.open(SLOT)
        a.enter("deposit").leave()
        os.truncate(self.file, len(self.text()) - 3)
        with self.assertRaisesRegex(CorruptStore, "lines are gone"):
            a.enter("remove")
        a.close()
        self.refused(StoreError, "is shorter than it was, by 3 bytes: put it back, or remove door.log.shared to go on with what is there$", SLOT)
        os.unlink(self.file + ".shared")
        self.open(SLOT).enter("remove").leave()  # then it is a torn end, and the dead one's finish comes again

    def test_a_line_of_another_declaration(self):
        with open(self.file, "wb") as file:
            file.write(b"journal 3 room 100\n1 start steal: started 0\n")
        error = self.refused(CorruptStore, "in line 2: `1 start steal: started 0` isn't a line of a journal$")
        self.assertEqual(error.line, 2)

    def test_other_versions(self):
        heads = ["journal 4 room 100", "journal 2 room 100", "1 start read: started 0", "hello", "journal 3 room 1048577"]
        for head in [each.encode() + b"\n" for each in heads]:
            with open(self.file, "wb") as file:
                file.write(head)
            self.refused(StoreError, "isn't a journal: it has no head as `journal 3 room 1048576`$")
            self.assertEqual(self.text(), head)
            for name in os.listdir(self.folder):
                os.unlink(os.path.join(self.folder, name))
        with Paths(BOOK, store=self.file):
            pass
        with open(self.file + ".shared", "r+b") as file:
            file.seek(8)
            file.write(b"\4")
        self.refused(StoreError, "is of version 4, and this library has 3$")

    def test_a_program_that_has_the_file_to_itself(self):
        with Paths(BOOK, store=self.file):
            pass
        with open(self.file, "rb") as file, mock.patch.object(_opened, "PATIENCE", 50):
            fcntl.flock(file, fcntl.LOCK_EX)
            self.refused(StoreInUse, "in use by a program that doesn't share it")

    def test_the_second_file_is_gone(self):
        paths = self.open(BOOK)
        os.unlink(self.file + ".shared")
        with mock.patch.object(_opened, "PATIENCE", 50):
            self.refused(StoreInUse, "is gone$")
        paths.close()
        self.open(BOOK)

    def test_the_journal_is_gone(self):
        """Nobody begins another one in its place: what was in progress would be forgotten, and tokens given again."""
        paths = self.open(BOOK)
        paths.enter("read").leave()
        text = self.text()
        os.unlink(self.file)
        told = "door.log is gone, and .*door.log.shared, which belongs to it, is there: put the journal back, or remove that file, too"
        self.refused(StoreError, told)
        for call in (paths.report, lambda: paths.enter("read")):
            with self.assertRaisesRegex(CorruptStore, "the file was removed$"):
                call()
        paths.close()
        self.refused(StoreError, told)
        self.assertEqual(os.listdir(self.folder), ["door.log.shared"])
        with open(self.file, "wb") as file:
            file.write(text)
        with Paths(BOOK, store=self.file) as again:
            self.assertEqual((again.worker, again.journal().count("\n")), ("process 2", 2))
        for end in ("", ".shared"):
            os.unlink(self.file + end)
        self.open(BOOK)

    def test_a_symbolic_link_is_the_same_store(self):
        """Whatever name the file is opened by, and also where it is made by one."""
        os.mkdir(self.folder + "/links")
        links = [self.folder + "/links/" + name for name in ("first", "second", "beside")]
        os.symlink(self.file, links[0])
        os.symlink("first", links[1])
        os.symlink(self.folder, links[2])
        names = [*links[:2], self.file, links[2] + "/door.log"]
        opened = [Paths(BOOK, store=name) for name in names]
        for paths in opened:
            self.addCleanup(paths.close)
        self.assertEqual([paths.worker for paths in opened], ["process 1", "process 2", "process 3", "process 4"])
        for paths in opened:
            with paths("write"):
                for other in opened:
                    self.assertIsNone(other.try_enter("read"))
            paths.rotate()
        self.assertEqual(sorted(os.listdir(self.folder + "/links")), ["beside", "first", "second"])
        self.assertEqual({paths.journal() for paths in opened}, {opened[0].journal()})

    def test_a_file_with_another_name_is_refused(self):
        """By a hard link: whoever opens it by the other name would share nothing with these."""
        other, told = self.folder + "/other.log", r"has 2 names \(hard links\), .*: remove all but one$"

        def both_are_refused():
            for name in (self.file, other):
                with self.assertRaisesRegex(StoreError, "^" + re.escape(name) + " " + told):
                    Paths(BOOK, store=name)

        with Paths(BOOK, store=self.file):
            os.link(self.file, other)
            both_are_refused()
        both_are_refused()
        self.assertEqual(sorted(os.listdir(self.folder)), ["door.log", "door.log.shared", "other.log"])
        os.unlink(other)
        with Paths(BOOK, store=self.file) as paths:
            self.assertEqual(paths.worker, "process 2")
            paths.enter("write").leave()
            os.link(self.file, other)
            paths.rotate()
            self.open(BOOK).enter("write").leave()
            with self.assertRaisesRegex(StoreError, told):
                Paths(BOOK, store=other)
            self.assertTrue(paths.audit())

    def test_another_journal_in_its_place(self):
        paths = self.open(BOOK)
        os.unlink(self.file)
        open(self.file, "w").close()
        self.refused(CorruptStore, "isn't the file that others have open$")
        paths.close()

    def test_files_that_cannot_be_opened(self):
        with self.assertRaisesRegex(StoreError, "can't be opened: Is a directory$"):
            Paths(BOOK, store=self.folder)
        with self.assertRaisesRegex(StoreError, "can't be opened: No such file"):
            Paths(BOOK, store=self.file + "/none")


class Systems(InFolder, unittest.TestCase):
    """What the system refuses is a `StoreError` with the system's own reason, wherever it comes, and nothing is lost by it."""

    def refused(self, number, told, call):
        """A call gets that the system refuses something."""
        with self.assertRaisesRegex(StoreError, told) as caught:
            call()
        self.assertEqual(caught.exception.__cause__.errno, number)

    def test_files_that_are_not_permitted(self):
        def asks():
            paths, other = Paths(LINE, store=self.file, sync=False), Paths(LINE, store=self.file, sync=False)
            paths.enter("put").leave()
            other.rotate()
            paths.report()
            os.chmod(self.file + ".1", 0)
            for call in (paths.journal, paths.audit):
                self.refused(errno.EACCES, "door.log can't be read: Permission denied$", call)
            self.refused(errno.EACCES, "door.log can't be opened: Permission denied$", lambda: Paths(LINE, store=self.file))
            os.chmod(self.file + ".1", 0o600)
            other.enter("get").leave()
            other.rotate()
            os.chmod(self.file, 0)
            for call in (paths.report, lambda: paths.enter("put")):
                self.refused(errno.EACCES, "door.log can't be opened: Permission denied$", call)
            os.chmod(self.file, 0o600)
            os.chmod(self.file + ".shared", 0)
            told = "door.log has a file beside it that can't be opened: Permission denied$"
            self.refused(errno.EACCES, told, lambda: Paths(LINE, store=self.file))
            os.chmod(self.file + ".shared", 0o600)
            paths.enter("put").leave()
            os.chmod(self.folder + "/of_another", 0o500)
            self.refused(errno.EACCES, "door.log can't be moved away: Permission denied$", paths.rotate)
            os.chmod(self.folder + "/of_another", 0o700)
            paths.rotate()
            self.assertEqual(paths.journal(), other.journal())
            self.assertTrue(paths.audit())

        def in_folder():
            os.mkdir(self.folder + "/of_another")
            self.file = self.folder + "/of_another/door.log"
            asks()

        self.as_another(in_folder)

    def test_no_descriptor_is_left(self):
        def asks():
            paths, other = Paths(LINE, store=self.file, sync=False), Paths(LINE, store=self.file, sync=False)
            other.enter("put").leave()
            other.rotate()
            taken = []
            for call in (paths.journal, lambda: Paths(LINE, store=self.file)):
                other.enter(other.report().startable[0]).leave()
                other.rotate()
                take_all(taken)
                self.refused(errno.EMFILE, ": Too many open files$", call)
                paths.report()  # which follows to another file, when it has given the last one back
                give_all(taken)
            self.assertEqual(paths.journal(), other.journal())
            self.assertTrue(paths.audit())

        def take_all(taken):
            resource.setrlimit(resource.RLIMIT_NOFILE, (256, most))
            with contextlib.suppress(OSError):
                while True:
                    taken.append(os.dup(0))

        def give_all(taken):
            while taken:
                os.close(taken.pop())

        most = resource.getrlimit(resource.RLIMIT_NOFILE)[1]
        self.ends_well(asks)

    def test_an_exception_of_a_handler_is_handed_on(self):
        """`TimeoutError`, as handlers of alarms raise it, is an OSError, too: it is no word of the system's, and the paths go on."""

        def late(*given):
            raise TimeoutError("the alarm")

        paths = self.open(BOOK, sync=False)
        quiet = mock.patch.object(sys, "unraisablehook", lambda what: self.assertIs(what.exc_type, TimeoutError))
        quiet.start()
        self.addCleanup(quiet.stop)
        number, goes_on = 0, True
        while goes_on:
            try:
                goes_on = at_instruction(number, late, lambda: paths.enter("write").leave())
            except TimeoutError as error:
                self.assertEqual((type(error), str(error)), (TimeoutError, "the alarm"))
            gc.collect()
            self.assertEqual(paths.report().live, ())
            number += 7
        self.assertTrue(paths.audit())


class Disks(InFolder, unittest.TestCase):
    def test_a_file_that_may_not_grow(self):
        """In a process whose files have a limit: a clear error, and all that was answered stands in the file."""

        def grows():
            paths = Paths(BOOK, store=self.file, sync=False)
            resource.setrlimit(resource.RLIMIT_FSIZE, (5000, 5000))
            entries = []
            try:
                while True:
                    entries.append(paths.enter("read"))
            except StoreError as error:
                self.assertRegex(str(error), "can't be written: File too large$")
            text = self.text()
            self.assertEqual((text.count(b"started"), text[-1:]), (len(entries), b"\n"))
            self.assertEqual(len(paths.report().live), len(entries))
            os._exit(0)

        self.ends_well(grows)
        self.assertEqual(self.open(BOOK).report().live, ())

    def test_a_disk_that_is_full(self):
        mounted = os.path.join(self.folder, "small")
        os.mkdir(mounted)
        mount = ["mount", "-t", "tmpfs", "-o", "size=2176k", "tmpfs", mounted]
        if subprocess.run(mount, stderr=subprocess.DEVNULL).returncode:
            self.skipTest("no file system may be mounted here")
        self.addCleanup(subprocess.run, ["umount", mounted], check=True)
        self.file = mounted + "/door.log"
        with Paths(BOOK, store=self.file, sync=False) as paths, Paths(BOOK, store=self.file, sync=False) as other:
            with open(mounted + "/filler", "wb") as filler:
                filler.write(b"x" * 40000)
            entries = []
            with self.assertRaisesRegex(StoreError, "can't be written: No space left on device$"):
                while True:
                    entries.append(paths.enter("read"))
            with self.assertRaisesRegex(StoreError, "can't be written: No space left on device$"):
                for entry in entries:
                    entry.leave()
            self.assertEqual(self.text()[-1:], b"\n")
            left = self.text().count(b"finished")
            self.assertEqual(len(other.report().live), len(entries) - left)
            with Paths(BOOK, store=self.file, lost="keep") as looking:
                self.assertEqual(len(looking.report().live), len(entries) - left)
                with self.assertRaisesRegex(StoreError, "can't be written: No space left on device$"):
                    looking.enter("read")
            os.unlink(mounted + "/filler")
            for entry in entries[left:]:
                entry.leave()
            self.assertEqual(other.report().live, ())
            self.assertTrue(paths.audit())
        with Paths(BOOK, store=self.file) as paths:
            self.assertTrue(paths.audit())

class Cuts(InFolder, unittest.TestCase):
    """What a crash leaves in the file: its bytes up to any place, and others behind it."""

    lines = WRITTEN.decode().splitlines(True)[1:]

    def setUp(self):
        super().setUp()
        if os.path.isdir("/dev/shm"):  # in memory: nothing here is about the disk's time
            folder = tempfile.TemporaryDirectory(prefix="wanzoche-", dir="/dev/shm")
            self.addCleanup(folder.cleanup)
            self.file = os.path.join(folder.name, "door.log")

    def opened(self, text):
        """The lines that are found in a file with this text."""
        with open(self.file, "wb") as file:
            file.write(text)
        if os.path.exists(self.file + ".shared"):
            os.unlink(self.file + ".shared")
        with Paths(LINE, store=self.file, sync=False, lost="keep") as paths:
            self.assertTrue(paths.audit())
            return paths.journal().splitlines(True)

    def plain(self, count):
        return [line.lstrip("+") for line in self.lines[:count]]

    def test_each_place_of_a_cut(self):
        for cut in range(len(WRITTEN) + 1):
            with self.subTest(cut):
                self.assertEqual(self.opened(WRITTEN[:cut]), self.plain(max(WRITTEN[:cut].count(b"\n") - 1, 0)))
                whole = WRITTEN[: WRITTEN.rfind(b"\n", 0, cut) + 1]
                self.assertEqual(self.text(), whole or b"journal 3 room 1048576\n")

    def test_zeros_and_an_old_block_behind_a_cut(self):
        for behind in (b"\0" * 100, b"\0\0 start put: started 9\n", b"garbage\nmore\n" * 3, b"\xff" * 70):
            for cut in range(30, len(WRITTEN), 7):
                with self.subTest((cut, behind)):
                    self.assertEqual(self.opened(WRITTEN[:cut] + behind), self.plain(WRITTEN[:cut].count(b"\n") - 1))

    def test_each_byte_that_is_damaged(self):
        """A line that was on the disk when a later one was written is refused with its place; else it and all behind it are a torn end."""
        starts = [len(WRITTEN.splitlines(True)[0])]
        for line in self.lines:
            starts.append(starts[-1] + len(line))
        for place in range(starts[0], len(WRITTEN)):
            number = sum(start <= place for start in starts) - 1
            # a line feed that is gone takes the next line along
            behind = self.lines[number + 1 + (WRITTEN[place] == 10) :]
            is_torn = all(line.startswith("+") for line in behind)
            for byte in (b"\0", b"\xff"):
                text = WRITTEN[:place] + byte + WRITTEN[place + 1 :]
                with self.subTest((place, byte)):
                    if is_torn:
                        self.assertEqual(self.opened(text), self.plain(number))
                    else:
                        with self.assertRaises(CorruptStore) as caught:
                            self.opened(text)
                        self.assertEqual(caught.exception.line, number + 2)
                        self.assertEqual(self.text(), text)

    def test_a_line_that_a_process_did_not_write_to_its_end(self):
        a = self.open(BOOK)
        with open(self.file, "ab") as file:
            file.write(b"9 start wri")
        with a("write"):
            pass
        self.assertEqual(a.journal(), "1 start write: started 0\n1 finish 0: finished\n")
        self.assertTrue(self.open(BOOK).audit())


@unittest.skipUnless(THOROUGH, "it takes long")
class Interrupts(InFolder, unittest.TestCase):
    """An exception before each instruction of the package, one after another."""

    def setUp(self):
        super().setUp()
        guard = ends_a_hang()
        guard.__enter__()
        self.addCleanup(guard.__exit__, None, None, None)

    def each(self, call, stride):
        """Calls with paths of their own, which have few lines, since each turn that is cut off reads them all again."""
        number, goes_on = 0, True
        while goes_on:
            file = "{}/{}.log".format(self.folder, number)
            with Paths(BOOK, store=file, sync=number % 2 == 0) as paths, Paths(BOOK, store=file, sync=False) as other:
                for number in range(number, number + 40 * stride, stride):
                    goes_on = goes_on and at_instruction(number, interrupt, lambda: call(paths))
                    gc.collect()
                    self.assertEqual(paths.report().live, ())
                    self.assertEqual(paths.waiting(), {})
                    other.enter("write", timeout=0).leave()
                self.assertTrue(other.audit())
            number += stride
        self.assertGreater(number, 200)

    def test_with(self):
        def write(paths):
            with paths("write"):
                pass

        self.each(write, 3)

    def test_enter_try_enter_and_leave(self):
        def write(paths):
            paths.enter("write").leave()
            entry = paths.try_enter("write")
            self.assertIsNotNone(entry)
            entry.leave()

        self.each(write, 7)

    def test_a_file_that_is_moved_away(self):
        def moves(paths):
            with paths("write"):
                paths.rotate()

        self.each(moves, 5)

    def test_a_time_limit(self):
        def late(paths):
            with paths("write"):
                try:
                    paths.enter("read", timeout=0)
                except Timeout:
                    pass

        self.each(late, 5)

    def test_signals_at_random_moments(self):
        unraisable = mock.patch.object(sys, "unraisablehook", lambda what: self.assertIs(what.exc_type, Interrupt))
        unraisable.start()
        self.addCleanup(unraisable.stop)
        alarms = Alarms(self)
        for number in range(4):
            with Paths(BOOK, store="{}/{}.log".format(self.folder, number), sync=False) as paths:
                for _ in range(25):
                    self.interrupted(alarms, paths)
                self.assertTrue(paths.audit())

    def interrupted(self, alarms, paths):
        def write():
            with paths("write"):
                pass

        alarms.cut_off(write, 1e-5, 3e-4)
        gc.collect()
        self.assertEqual(paths.report().live, ())


if __name__ == "__main__":
    unittest.main()
