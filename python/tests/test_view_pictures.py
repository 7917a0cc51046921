"""What the page of the command `view` is told of a store over a file."""

import json
import os
import signal
import unittest

import wanzoche._viewing as viewing
from wanzoche._viewing import Picture

from .declarations import BOOK
from .test_view import OnReader


class Pictures(OnReader, unittest.TestCase):
    def setUp(self):
        super().setUp()
        for name in ("SHOWS", "CHECKS"):
            self.addCleanup(setattr, viewing, name, getattr(viewing, name))
            setattr(viewing, name, 0)
        self.paths = self.open(BOOK)
        self.picture = Picture(self.reader(), "the <store>")

    def told(self):
        self.picture.turn()
        return json.loads(self.picture.news.text)

    def test_what_the_page_is_told(self):
        with self.paths("read"):
            told = self.told()
            self.assertEqual((told["serial"], told["store"], told["fault"]), (1, "the <store>", None))
            self.assertEqual(told["paths"], [{"resource": "book", "text": "{ read } , write", "operations": ["read", "write"]}])
            self.assertEqual(told["verdict"], {"sound": True, "lines": 1, "told": None})
            self.assertEqual(told["bars"], [["read", 1, 0, None, None, 1]])
            self.assertIsNone(told["in_progress"][0]["seen"])
            self.assertEqual(told["counts"], {"in_progress": 1, "lost": 0, "waiting": 0})
            self.assertEqual(self.told(), told)
            with self.paths("read"):
                told = self.told()
                self.assertEqual(told["serial"], 2)
                seen = told["in_progress"][1]["seen"]
                self.assertGreaterEqual(seen, told["began"])
                self.assertEqual(told["bars"][1], ["read", 1, 1, seen, None, 1])
        told = self.told()
        self.assertEqual([bar[:3] for bar in told["bars"]], [["read", 1, 1], ["read", 1, 0]])
        self.assertTrue(all(bar[4] is not None for bar in told["bars"]))

    def test_a_wrong_line_and_its_mending(self):
        self.told()
        whole = len(self.text())
        with self.paths("read"):
            self.changed(b"1 finish 9: finished\n")
            for _ in range(2):
                told = self.told()
                self.assertEqual((told["verdict"]["sound"], told["verdict"]["lines"], told["fault"]), (False, 1, None))
                self.assertRegex(told["verdict"]["told"], "line 3: `1 finish 9: finished`, where `stale` is owed")
                self.assertEqual([each["operation"] for each in told["in_progress"]], ["read"])
                self.assertEqual(told["bars"], [["read", 1, 0, None, None, 1]])
            os.truncate(self.file, len(self.text()) - len(b"1 finish 9: finished\n"))
            self.assertEqual(self.told()["verdict"], {"sound": True, "lines": 1, "told": None})
        self.assertGreater(len(self.text()), whole)

    def test_files_that_are_gone(self):
        """What was there last is shown, with the fault, until they are there again."""
        with self.paths("read"):
            self.told()
            os.rename(self.file, self.file + ".away")
            for _ in range(2):
                told = self.told()
                self.assertRegex(told["fault"], "door.log is gone")
                self.assertEqual((told["counts"]["in_progress"], told["verdict"]["sound"]), (1, None))
            os.rename(self.file + ".away", self.file)
            told = self.told()
            self.assertEqual((told["fault"], told["verdict"]["sound"]), (None, True))

    def test_a_death(self):
        """It comes without a line."""
        child = self.child(lambda: [setattr(self, "kept", self.made(BOOK).enter("read")), signal.pause()])
        self.until(lambda: self.told()["counts"]["in_progress"])
        self.assertEqual(self.told()["counts"]["lost"], 0)
        os.kill(child, signal.SIGKILL)
        os.waitpid(child, 0)
        self.assertEqual(self.told()["counts"]["lost"], 1)

    def test_so_often(self):
        """Lines are read at once, and shown when it is time."""
        viewing.SHOWS = viewing.CHECKS = 1e9
        self.assertEqual(self.told()["serial"], 1)
        with self.paths("read"):
            told = self.told()
            self.assertEqual((told["serial"], self.picture._source.lines), (1, 1))
            viewing.SHOWS = 0
            self.assertEqual(self.told()["serial"], 2)
            source = self.picture._source
            source.look = source.state = None  # which isn't called again while nothing comes
            self.assertEqual(self.told()["serial"], 2)
