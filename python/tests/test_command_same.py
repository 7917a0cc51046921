"""The command in C says the same as the package's: its help, what is wrong with words, and what both write over one store. They are compared
where the variable WANZOCHE_COMMAND names the one in C."""

import os
import re
import subprocess
import sys
import tempfile
import unittest

from wanzoche import CorruptStore, Paths, _command
from wanzoche._reading import Reader

from .commands import COMMAND, DELIVERY, IS_ANOTHER, LONGEST, OnCommand
from .stores import InFolder

NAMES = ["exec", "status", "log", "audit", "watch", "view", "recover", "pass", "operations"]
STORE = ["--store", "none.log"]


def ended(words, **options):
    """What the command in C writes to both streams, and its status."""
    environment = {**os.environ, "COLUMNS": "80", **options.pop("env", {})}
    streams = {"stdin": subprocess.DEVNULL, "stdout": subprocess.PIPE, "stderr": subprocess.PIPE}
    done = subprocess.run([*COMMAND, *words], timeout=LONGEST, env=environment, **streams, **options)
    return done.stdout.decode(), done.stderr.decode(), done.returncode


def of_package(words):
    """The same of the package's command, in a child of this process, since to begin another Python takes long."""
    with tempfile.TemporaryFile() as told, tempfile.TemporaryFile() as why:
        child = os.fork()
        if not child:
            try:
                for stream, file in enumerate((told, why), 1):
                    os.dup2(file.fileno(), stream)
                os.environ["COLUMNS"] = "80"
                sys.stdout, sys.stderr = (open(stream, "w", closefd=False) for stream in (1, 2))
                os._exit(status_of(words))
            finally:
                os._exit(99)
        status = os.waitpid(child, 0)[1]
        texts = []
        for file in (told, why):
            file.seek(0)
            texts.append(file.read().decode())
        return (*texts, os.WEXITSTATUS(status))


def status_of(words):
    """Runs it here: its status, when all is written."""
    try:
        return _command.main(words)
    except SystemExit as ended:
        return ended.code or 0
    finally:
        sys.stdout.flush()
        sys.stderr.flush()


def plain(told):
    """Without what differs from one version of Python to the next."""
    texts = [re.sub(r"\s+", " ", text.replace("optional arguments:", "options:")) for text in told[:2]]
    return [re.sub(r"\(choose from [^)]*\)", lambda found: found.group().replace("'", ""), text) for text in texts] + [told[2]]


@unittest.skipUnless(IS_ANOTHER, "WANZOCHE_COMMAND names no other command")
class Words(unittest.TestCase):
    def is_the_same(self, *words):
        with self.subTest(words):
            self.assertEqual(plain(ended(words)), plain(of_package(list(words))))

    def test_help(self):
        self.is_the_same("--help")
        self.is_the_same("--version")
        for name in NAMES:
            self.is_the_same(name, "--help")
        self.is_the_same("status", "-h")
        self.is_the_same("exec", "--he")

    def test_words_that_are_none(self):
        for words in (
            [], ["none"], ["-x"], ["status"], ["status", "--store"], ["status", *STORE, "x", "y"], ["status", *STORE, "--none", "x"],
            ["status", *STORE, "--watch", "0"], ["status", *STORE, "--watch", "soon"], ["status", *STORE, "--watch=nan"],
            ["exec"], ["exec", *STORE], ["exec", "--none"], ["exec", *STORE, "--timeout", "soon", "a"], ["exec", *STORE, "--t", "3", "a"],
            ["exec", *STORE, "--lost", "never", "a"], ["exec", *STORE, "--every", "0s", "a"], ["exec", *STORE, "--every", "", "a"],
            ["exec", *STORE, "--conflict-status", "1.5", "a"], ["exec", *STORE, "--token-env", "--quiet", "a"], ["exec", *STORE, "--quiet=1", "a"],
            ["recover", *STORE], ["recover", *STORE, "--even-alive=3", "1"], ["pass", *STORE, "a", "b"], ["view", *STORE, "--port", "0"],
            ["view", *STORE, "--port", "x"], ["operations", "x"], ["operations"], ["log", "--store", "x", "--name", "y"],
            ["exec", "--store", "x", "--name", "y", "a", "--", "true"], ["exec", *STORE, "--timeout", "-1"], ["log", "--store", "-"],
        ):  # fmt: skip
            self.is_the_same(*words)


@unittest.skipUnless(IS_ANOTHER, "WANZOCHE_COMMAND names no other command")
class Stores(OnCommand, unittest.TestCase):
    DECLARATION = DELIVERY

    def is_the_same(self, command, *words):
        with self.subTest((command, *words)):
            given = [command, "--store", self.file, *words]
            self.assertEqual(ended(given), of_package(given))

    def test_what_they_write(self):
        """Before there is a store, when nothing is in progress, and while somebody has it open."""
        looks = [["status"], ["status", "--json"], ["log"], ["audit"], ["operations"], ["recover", "7"], ["recover", "all"], ["pass", "none"]]
        for words in looks:
            self.is_the_same(*words)
        paths = self.open(DELIVERY, lost="keep")
        for words in looks + [["exec", "--nonblock", "built", "--", "true"], ["pass", "deploy"]]:
            self.is_the_same(*words)
        with paths("build"):
            for words in looks + [["pass", "built"], ["exec", "--timeout", "0.01", "build", "--", "true"], ["exec", "build"]]:
                self.is_the_same(*words)

    def test_another_declaration(self):
        self.open(DELIVERY, lost="keep")
        for text in (DELIVERY.replace("broken", "broke"), DELIVERY.replace(" end\nend", " end path deploy end\nend")):
            with open(self.declaration, "w") as file:
                file.write(text)
            for words in (["status"], ["log"], ["exec", "build", "--", "true"], ["pass", "build"]):
                self.is_the_same(words[0], "--declaration", self.declaration, *words[1:])

    def test_where_the_dead_have_something(self):
        self.open(DELIVERY, lost="keep")
        self.dies(lambda: setattr(self, "kept", Paths(DELIVERY, store=self.file).enter("build")))
        for words in (["status"], ["status", "--json"], ["pass", "built"], ["exec", "--lost", "keep", "--nonblock", "build", "--", "true"]):
            self.is_the_same(*words)

    def breaks(self, archive, old, new):
        """Changes a file of a journal: the last one, or one that was moved away."""
        with open(self.file + archive, "rb+") as file:
            text = file.read().replace(old, new, 1)
            file.seek(0)
            file.truncate()
            file.write(text)

    def test_what_an_audit_finds(self):
        """One verdict in one place, whoever finds the line: the opening, or who reads the files. And why, in one form."""
        with Paths(DELIVERY, store=self.file, sync=False) as paths:
            paths.enter("build").leave()
            paths.rotate()
            paths.enter("broken").leave()
            paths.enter("build").leave()
        file = os.path.realpath(self.file)
        for archive, old, new, line, why in (
            (".1", b"finish 0: finished", b"finish 7: finished", 3, "`1 finish 7: finished`, where `stale` is owed"),
            (".1", b"started 0", b"started 1", 2, "`1 start build: started 1`, where `started 0` is owed"),
            (".1", b"start build", b"start steal", 2, "`1 start steal: started 0` isn't a line of a journal"),
            ("", b"start broken: started 1", b"start broken: started 2", 2, "`1 start broken: started 2`, where `started 1` is owed"),
            ("", b"finish 1: finished", b"finish 0: finished", 3, "`1 finish 0: finished`, where `stale` is owed"),
        ):
            with open(self.file + archive, "rb") as kept:
                text = kept.read()
            self.breaks(archive, old, new)
            self.is_the_same("audit")
            told, said, status = ended(["audit", "--store", self.file])
            self.assertEqual((told, status), ("wrong line {} of {}\n".format(line - 2, file + archive), 5))
            self.assertEqual(said.replace("`+", "`"), "wanzoche: {} in line {}: {}\n".format(file + archive, line, why))
            with self.assertRaises(CorruptStore) as raised:
                Reader(self.file).look(lambda text: None)
            self.assertEqual("wanzoche: {}\n".format(raised.exception), said)
            with open(self.file + archive, "wb") as kept:
                kept.write(text)
            self.is_the_same("audit")

    def test_an_audit_without_a_verdict(self):
        """Lines are gone, or the head is."""
        Paths(DELIVERY, store=self.file, sync=False).close()
        self.breaks("", b"journal", b"jurnal")
        self.is_the_same("audit")
        self.assertEqual(ended(["audit", "--store", self.file])[::2], ("", 1))
        os.remove(self.file)
        self.is_the_same("audit")

    def test_files_that_are_no_store(self):
        for beside, journal in ((b"x" * 5000, b""), (b"", b"x\n"), (None, b"journal 2 room 5\n")):
            with open(self.file, "wb") as file:
                file.write(journal)
            if beside is not None:
                with open(self.file + ".shared", "wb") as file:
                    file.write(beside)
            self.is_the_same("status")
            self.is_the_same("exec", "--declaration", self.declaration, "build", "--", "true")
            if beside is not None:
                os.remove(self.file + ".shared")

    def test_declarations_that_are_none(self):
        for text in ("resource", "resource a cell operation b path c end end", "resource a cell\noperation b\npath b ; (b\nend\n", "", "x" * 70000):
            with open(self.declaration, "w") as file:
                file.write(text)
            self.is_the_same("exec", "--declaration", self.declaration, "b", "--", "true")
            self.is_the_same("operations", "--declaration", self.declaration)


@unittest.skipUnless(IS_ANOTHER, "WANZOCHE_COMMAND names no other command")
class Handing(InFolder, unittest.TestCase):
    """What is handed on to the package."""

    def with_python(self, text):
        """A variable that names a program in Python's place: what stands behind its code is written, or what this text does is done."""
        path = os.path.join(self.folder, "python")
        with open(path, "w") as file:
            file.write("#!/bin/sh\n" + text)
        os.chmod(path, 0o755)
        return {"env": {"WANZOCHE_PYTHON": path}}

    def test_which_words_are_handed_on(self):
        told = self.with_python("shift 2; printf '%s|' \"$@\"; exit 3\n")
        url = ["--store", "postgresql://user@host/base", "--name", "door"]
        for words, what in (
            (["exec", *url, "--timeout", "3", "write", "--", "sh", "-c", "a b"], "a store in PostgreSQL|125"),
            (["status", "--store=postgres://host", "--name", "x"], "a store in PostgreSQL|1"),
            (["view", "--store", self.file], "`view`|1"),
        ):
            self.assertEqual(ended(words, **told), ("|".join([what, *words, ""]), "", 3))

    def test_it_is_the_package_that_gets_them(self):
        """And not a module of this name in the folder in which it runs."""
        with open(os.path.join(self.folder, "wanzoche.py"), "w") as file:
            file.write("raise SystemExit('this is another one')\n")
        environment = {"env": {"WANZOCHE_PYTHON": sys.executable, "PYTHONPATH": os.path.dirname(os.path.dirname(_command.__file__))}, "cwd": self.folder}
        words = ["status", "--store", "postgresql:///none?host={}".format(self.folder)]
        found = ended(words, **environment)
        self.assertEqual(found, of_package(words))
        self.assertEqual((found[0], found[2]), ("", 1))

    def test_where_the_package_is_not_there(self):
        nothing = {"env": {"WANZOCHE_PYTHON": sys.executable, "PYTHONPATH": self.folder, "PYTHONNOUSERSITE": "1"}}
        without = "^wanzoche: {} wants the Python package of Wanzoche, which \\S+ does not have: .*\n$"
        with open(os.path.join(self.folder, "wanzoche.py"), "w") as file:
            file.write("raise ImportError('it is not installed')\n")
        for words, what, wanted in ((["view", "--store", self.file], "`view`", 1), (["exec", "--store", "postgres://x", "a", "b"], "a store in PostgreSQL", 125)):
            told, why, status = ended(words, cwd=self.folder, **nothing)
            self.assertEqual((told, status), ("", wanted))
            self.assertRegex(why, without.format(what))
            told, why, status = ended(words, env={"WANZOCHE_PYTHON": "/none/python"})
            self.assertEqual((told, status), ("", wanted))
            self.assertEqual(why, "wanzoche: {} wants the Python package of Wanzoche, and /none/python can't be run: No such file or directory\n".format(what))


if __name__ == "__main__":
    unittest.main()
