"""The blocks of pages can be copied: each runs as it stands, in an empty folder and behind all that stand before it."""

import os
import re
import subprocess
import sys
import tempfile
import unittest

from .limits import LONGEST
from .stores import THOROUGH

DOCS = os.path.join(os.path.dirname(os.path.dirname(os.path.dirname(os.path.abspath(__file__)))), "docs")
PAGES = ("shared.md", "lasting.md", "python.md")
RUNS = {"python": [sys.executable, "-W", "error::ResourceWarning", "-c"], "sh": ["sh", "-eu", "-c"]}


def blocks(page):
    """The blocks of Python and of the shell on a page: the line of each, its language and its text."""
    with open(os.path.join(DOCS, page), encoding="utf-8") as file:
        text = file.read()
    for found in re.finditer(r"^```(python|sh)\n(.*?)^```$", text, re.DOTALL | re.MULTILINE):
        if "pip install" not in found.group(2):  # which the gate does in a new Debian
            yield text.count("\n", 0, found.start()) + 1, found.group(1), found.group(2)


class Pages(unittest.TestCase):
    def setUp(self):
        folder = tempfile.TemporaryDirectory(prefix="wanzoche-")
        self.addCleanup(folder.cleanup)
        self.folder = folder.name
        command = os.path.join(self.new_folder("bin"), "wanzoche")
        with open(command, "w") as file:
            file.write('#!/bin/sh\nexec "{}" -m wanzoche "$@"\n'.format(sys.executable))
        os.chmod(command, 0o755)
        self.environment = {**os.environ, "PATH": os.path.dirname(command) + os.pathsep + os.environ["PATH"]}

    def new_folder(self, name):
        path = os.path.join(self.folder, name)
        os.mkdir(path)
        return path

    def runs(self, folder, language, text):
        ended = subprocess.run(
            RUNS[language] + [text], cwd=folder, env=self.environment, stdin=subprocess.DEVNULL, stdout=subprocess.PIPE,
            stderr=subprocess.STDOUT, timeout=LONGEST,
        )  # fmt: skip
        self.assertEqual(ended.returncode, 0, ended.stdout.decode())

    def test_each_alone(self):
        for page in PAGES:
            for line, language, text in blocks(page):
                with self.subTest("docs/{}:{}".format(page, line)):
                    self.runs(self.new_folder("{}.{}".format(page, line)), language, text)

    @unittest.skipUnless(THOROUGH, "it takes longer")
    def test_one_behind_the_other(self):
        """Also where the pages before have left their files."""
        folder = self.new_folder("all")
        for page in PAGES:
            for line, language, text in blocks(page):
                with self.subTest("docs/{}:{}".format(page, line)):
                    self.runs(folder, language, text)


if __name__ == "__main__":
    unittest.main()
