"""Packing for pip: which files come with the package, and what is said where it can't be built."""

import importlib.util
import os
import sys
import tempfile
import unittest
import zipfile
from unittest import mock

from wanzoche import _native as native

HERE = os.path.dirname(os.path.dirname(os.path.abspath(__file__)))


def packing():
    """The module that pip calls."""
    spec = importlib.util.spec_from_file_location("packing", os.path.join(HERE, "packing.py"))
    module = importlib.util.module_from_spec(spec)
    spec.loader.exec_module(module)
    return module


class Packing(unittest.TestCase):
    def test_the_command_comes_with_its_man_page_and_completions(self):
        with open(native._at, "rb") as file, tempfile.TemporaryDirectory() as folder:
            made = packing().write_wheel(file.read(), None, folder)
            with zipfile.ZipFile(os.path.join(folder, made)) as wheel:
                shared = {name.split(".data/data/")[1] for name in wheel.namelist() if ".data/data/" in name}
        wanted = {"share/man/man1/wanzoche.1", "share/bash-completion/completions/wanzoche"}
        wanted |= {"share/zsh/site-functions/_wanzoche", "share/fish/vendor_completions.d/wanzoche.fish"}
        self.assertEqual(shared, wanted)

    def test_all_modules_come(self):
        """Those in folders of the package, too."""
        top = os.path.join(HERE, "wanzoche")
        with open(native._at, "rb") as file, tempfile.TemporaryDirectory() as folder:
            made = packing().write_wheel(file.read(), None, folder)
            with zipfile.ZipFile(os.path.join(folder, made)) as wheel:
                found = {name for name in wheel.namelist() if name.startswith("wanzoche/")}
        wanted = {os.path.relpath(os.path.join(at, name), HERE) for at, _, names in os.walk(top) for name in names}
        wanted = {name for name in wanted if name.endswith((".py", ".sql", ".html", ".typed"))}
        self.assertEqual(wanted - found, set())
        self.assertIn("wanzoche/_served/__init__.py", found)

    def test_elsewhere_than_on_linux(self):
        """One line, in place of what `make` and a compiler say there, or that they are missing."""
        for platform in ("darwin", "win32", "cygwin", "freebsd14"):
            with mock.patch.object(sys, "platform", platform), mock.patch("subprocess.run", side_effect=AssertionError):
                with tempfile.TemporaryDirectory() as folder, self.assertRaises(SystemExit) as caught:
                    packing().build_wheel(folder)
            self.assertRegex(str(caught.exception), "^[^\n]*Linux[^\n]*not on {}[^\n]*WSL[^\n]*docs/install.md[^\n]*$".format(platform))


if __name__ == "__main__":
    unittest.main()
