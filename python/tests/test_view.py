"""A store over a file for who only reads its files."""

import fcntl
import mmap
import os
import signal
import shutil
import struct
import unittest

from wanzoche import CorruptStore, OtherDeclaration, StoreError, StoreLate
from wanzoche._reading import OnlyReading, Reader
from wanzoche._showing import Onlooker

from .declarations import BOOK, SLOT
from .stores import ANOTHER, InFolder


class OnReader(InFolder):
    def reader(self, *given):
        reader = Reader(self.file, *given)
        self.addCleanup(reader.close)
        return reader

    def looks(self, reader):
        """What it hands on; None if it has read all anew."""
        told = []
        is_new = reader.look(told.append)
        self.assertFalse(is_new and told)
        return None if is_new else b"".join(told).decode().replace("+", "")

    def live(self, reader):
        return [(each.operation, each.worker, each.is_lost) for each in reader.state().in_progress]

    def changed(self, text, place=os.SEEK_END):
        """Writes to the journal as nobody may."""
        with open(self.file, "r+b") as file:
            file.seek(0, place)
            file.write(text)


class Reading(OnReader, unittest.TestCase):
    def test_lines_as_they_come(self):
        paths = self.open(BOOK)
        with paths("read"):
            reader = self.reader()
            self.assertIsNone(self.looks(reader))
            self.assertEqual((self.live(reader), reader.lines), ([("read", 1, False)], 1))
            self.assertEqual(self.looks(reader), "")
            with paths("read"):
                self.assertEqual(self.looks(reader), "1 start read: started 1\n")
                self.assertEqual(len(self.live(reader)), 2)
            self.assertEqual(self.looks(reader), "1 finish 1: finished\n")
        self.assertEqual(self.looks(reader), "1 finish 0: finished\n")
        state = reader.state()
        self.assertEqual((state.report.startable, state.in_progress, state.waiting, reader.lines), (("read", "write"), (), (), 4))
        self.assertEqual((reader.operations, [path.text for path in reader.paths]), (("read", "write"), ["{ read } , write"]))

    def test_all_that_a_status_knows(self):
        paths = self.open(BOOK)
        with paths("write"):
            waits = self.child(lambda: self.made(BOOK).enter("read"))
            self.addCleanup(os.waitpid, waits, 0)
            self.addCleanup(os.kill, waits, signal.SIGKILL)
            self.until(paths.waiting)
            reader = self.reader()
            self.looks(reader)
            self.assertEqual(reader.state(), Onlooker(paths).state()._replace(report=reader.state().report))
            ours, theirs = reader.state().report, paths.report()
            self.assertEqual((ours.startable, ours.blocked, ours.live, ours.text), (theirs.startable, theirs.blocked, theirs.live, theirs.text))

    def test_the_dead(self):
        self.dies(lambda: setattr(self, "kept", self.made(BOOK).enter("write")))
        reader = self.reader()
        self.looks(reader)
        self.assertEqual(self.live(reader), [("write", 1, True)])

    def test_nobody_is_held_up(self):
        """It has no lock, and takes no part: who opens the store beside it is alone."""
        self.made(BOOK).close()
        reader = self.reader()
        self.looks(reader)
        with open(self.file, "rb") as file, open(self.file + ".shared", "rb") as beside:
            fcntl.flock(file, fcntl.LOCK_EX | fcntl.LOCK_NB)
            for fd in (file.fileno(), beside.fileno()):
                asked = struct.pack("hhqqi4x", fcntl.F_WRLCK, os.SEEK_SET, 0, 0, 0)
                self.assertEqual(struct.unpack("hhqqi4x", fcntl.fcntl(fd, 36, asked))[0], fcntl.F_UNLCK)  # F_OFD_GETLK
        before = self.text()
        paths = self.open(BOOK)
        self.assertEqual((paths.worker, self.text()), ("process 2", before))

    def test_nobody_holds_it_up(self):
        """As a process that was stopped in its turn."""
        paths = self.open(BOOK)
        reader = self.reader()
        self.looks(reader)
        with open(self.file + ".shared", "r+b") as file, mmap.mmap(file.fileno(), 4096) as page, paths("read"):
            page[64:68] = struct.pack("=I", 1)  # the turn is that of process 1
            self.assertEqual(self.looks(reader), "1 start read: started 0\n")
            self.assertEqual(self.live(reader), [("read", 1, False)])
            with self.assertRaises(StoreLate):
                paths.try_enter("read")
            page[64:68] = bytes(4)

    @unittest.skipIf(os.geteuid(), "only root can become another user")
    def test_the_right_to_read_will_do(self):
        os.chmod(self.folder, 0o755)
        paths = self.open(BOOK)
        with paths("write"):
            child = os.fork()
            if not child:
                try:
                    os.setgid(ANOTHER)
                    os.setuid(ANOTHER)
                    reader = Reader(self.file, BOOK.encode())
                    reader.look(print)
                    os._exit(10 * os.access(self.file, os.W_OK) + reader.lines + len(reader.state().in_progress))
                except BaseException as error:
                    os.write(2, "{}\n".format(error).encode())
                    os._exit(9)
            self.assertEqual(os.waitpid(child, 0)[1], 2 << 8)

    def test_files_that_are_moved_away(self):
        paths = self.open(BOOK)
        paths.enter("read").leave()
        paths.rotate()
        reader = self.reader()
        self.assertIsNone(self.looks(reader))
        self.assertEqual(reader.lines, 2)
        with paths("write"):
            for _ in range(3):
                paths.rotate()
                paths.report()
            self.assertEqual(self.looks(reader), "1 start write: started 1\n")
            paths.rotate()
        self.assertEqual(self.looks(reader), "1 finish 1: finished\n")
        paths.rotate()
        for _ in range(2):
            paths.enter("read").leave()
            paths.rotate()
        told = "".join("1 start read: started {0}\n1 finish {0}: finished\n".format(number) for number in (2, 3))
        self.assertEqual((self.looks(reader), reader.lines), (told, 8))

    def test_a_move_that_was_cut_off(self):
        """The file has both names: it is read once."""
        paths = self.open(BOOK)
        with paths("read"):
            os.link(self.file, self.file + ".1")
            reader = self.reader()
            self.looks(reader)
            self.assertEqual(reader.lines, 1)
        self.assertEqual(self.looks(reader), "1 finish 0: finished\n")
        os.unlink(self.file + ".1")

    def test_a_line_that_is_being_written(self):
        self.open(BOOK)
        reader = self.reader()
        self.looks(reader)
        self.changed(b"1 start re")
        self.assertEqual(self.looks(reader), "")
        self.changed(b"ad: started 0\n1")
        self.assertEqual(self.looks(reader), "1 start read: started 0\n")

    def test_lines_that_are_taken_back(self):
        self.open(BOOK)
        reader = self.reader()
        self.looks(reader)
        before = len(self.text())
        for text, live in ((b"1 start write: started 0\n", "write"), (b"7 start read: started 0\n1 start read: started 1\n", "read")):
            os.truncate(self.file, before)
            self.changed(text)
            self.looks(reader)
            self.assertEqual({each[0] for each in self.live(reader)}, {live})
        os.truncate(self.file, before)
        self.assertIsNone(self.looks(reader))
        self.assertEqual(self.live(reader), [])

    def test_lines_that_are_wrong(self):
        with self.made(BOOK) as paths:
            for rotate in (paths.rotate, list):
                paths.enter("read").leave()
                rotate()
        whole = len(self.text())
        for text, told in (
            (b"1 start write: started 5\n", "line 4: `1 start write: started 5`, where `started 2` is owed"),
            (b"1 finish 0: finished\n", "line 4: `1 finish 0: finished`, where `stale` is owed"),
            (b"<script>\n", "line 4: `<script>` isn't a line of a journal"),
        ):
            reader = self.reader()
            self.looks(reader)
            self.changed(text)
            for _ in range(2):
                with self.assertRaisesRegex(CorruptStore, told):
                    self.looks(reader)
                self.assertEqual((reader.lines, reader.state().report.startable), (4, ("read", "write")))
            os.truncate(self.file, whole)
            self.assertIsNone(self.looks(reader))

    def test_heads_that_are_wrong(self):
        self.made(BOOK).close()
        for head in (b"journal 3 room 0\n", b"\n", b"x" * 64):
            with open(self.file, "r+b") as file:
                file.write(head)
            with self.assertRaisesRegex(CorruptStore, "line 1: it has no head"):
                self.looks(self.reader())
        os.truncate(self.file, 10)
        self.assertIsNone(self.looks(self.reader()))

    def test_a_moved_file_with_half_a_line(self):
        paths = self.open(BOOK)
        paths.enter("read").leave()
        paths.rotate()
        with open(self.file + ".1", "ab") as file:
            file.write(b"1 st")
        with self.assertRaisesRegex(CorruptStore, "door.log.1: a file that was moved away doesn't end with a whole line"):
            self.looks(self.reader())

    def test_files_that_are_gone(self):
        paths = self.made(BOOK)
        entry = paths.enter("read")
        reader = self.reader()
        self.looks(reader)
        for name in (self.file, self.file + ".shared"):
            os.rename(name, name + ".away")
            for _ in range(2):
                with self.assertRaisesRegex(StoreError, "{} is gone".format(name)):
                    self.looks(reader)
            os.rename(name + ".away", name)
            self.assertEqual(self.looks(reader), "")
        entry.leave()
        paths.close()
        self.looks(reader)
        for name in os.listdir(self.folder):
            os.unlink(os.path.join(self.folder, name))
        other = self.open(SLOT)  # another store in its place
        with other("deposit"):
            self.assertIsNone(self.looks(reader))
            self.assertEqual((self.live(reader), reader.operations), ([("deposit", 1, False)], ("deposit", "remove")))

    def test_another_journal_in_its_place(self):
        """It isn't taken for what follows the one before, though that has gone to its end."""
        with self.made(BOOK) as paths:
            paths.enter("read").leave()
        reader = self.reader()
        self.looks(reader)
        with open(self.file + ".new", "wb") as file:
            file.write(b"journal 3 room 1048576\n")
        os.replace(self.file + ".new", self.file)
        self.assertIsNone(self.looks(reader))
        self.assertEqual(reader.lines, 0)

    def test_lines_for_people(self):
        """They have no marks, and each comes once, also where all is read anew."""
        with self.made(BOOK, sync=False) as paths:
            only = OnlyReading(self.reader())
            for _ in range(2):
                paths.enter("read").leave()
            self.assertIn(b"\n+", self.text())
            told = only.text_from(0)
            self.assertEqual(told, paths.journal())
            paths.enter("write").leave()
            told += only.text_from(4)
            self.assertEqual((told, only.text_from(6)), (paths.journal(), ""))
        shutil.copy(self.file, self.file + ".new")
        os.replace(self.file + ".new", self.file)
        self.changed(b"+1 start read: started 3\n")
        self.assertEqual(only.text_from(6), "1 start read: started 3\n")

    def test_what_is_no_store(self):
        with self.assertRaisesRegex(StoreError, "isn't there"):
            Reader(self.file)
        self.made(BOOK).close()
        self.reader(BOOK.replace("\n", " \n").encode())
        with self.assertRaises(OtherDeclaration):
            Reader(self.file, SLOT.encode())
        with self.assertRaises(OtherDeclaration):
            Reader(self.file, b"nothing")
        with open(self.file + ".shared", "r+b") as file:
            file.write(b"x")
        with self.assertRaisesRegex(StoreError, "isn't the file that a store has"):
            Reader(self.file)

    def test_nothing_is_left_open(self):
        self.made(BOOK).close()
        before = len(os.listdir("/proc/self/fd"))
        reader = self.reader()
        for _ in range(3):
            self.looks(reader)
            shutil.copy(self.file, self.file + ".new")
            os.replace(self.file + ".new", self.file)
        reader.close()
        self.assertEqual(len(os.listdir("/proc/self/fd")), before)
