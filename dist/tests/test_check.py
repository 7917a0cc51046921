"""`dist/make_dist --check` finds assembly that isn't what the proved crate yields. Needs the toolchain, and the program that the gate built.

From the top of the repository: python3 -m unittest discover dist/tests
"""

import os
import re
import subprocess
import tempfile
import unittest

DIST = os.path.dirname(os.path.dirname(os.path.abspath(__file__)))


class Check(unittest.TestCase):
    @classmethod
    def setUpClass(cls):
        with open(os.path.join(DIST, "x86_64", "pathsys.s"), encoding="utf-8") as file:
            cls.text = file.read()
        _, said = cls.checked(cls.text)
        if "nothing is compared" in said:
            raise unittest.SkipTest(said)

    @staticmethod
    def checked(text):
        """What --check says of this text in the place of the program's assembly: its status and its words."""
        with tempfile.TemporaryDirectory() as folder:
            os.mkdir(os.path.join(folder, "x86_64"))
            if text is not None:
                with open(os.path.join(folder, "x86_64", "pathsys.s"), "w", encoding="utf-8") as file:
                    file.write(text)
            words = [os.path.join(DIST, "make_dist"), "--check", "pathsys", "--processor", "x86_64", "--to", folder]
            ran = subprocess.run(words, stdout=subprocess.PIPE, stderr=subprocess.STDOUT, text=True)
            return ran.returncode, ran.stdout

    def assert_refused(self, text, why):
        status, said = self.checked(text)
        self.assertEqual(status, 1, said)
        self.assertIn(why, said)

    def changed(self, pattern, replacement):
        """The text with the first match of a pattern replaced."""
        text, count = re.subn(pattern, replacement, self.text, count=1, flags=re.MULTILINE | re.DOTALL)
        self.assertEqual(count, 1, f"nothing matches {pattern}")
        self.assertNotEqual(text, self.text)
        return text

    def test_the_committed_file_passes(self):
        status, said = self.checked(self.text)
        self.assertEqual(status, 0, said)
        self.assertIn("it is what the proved crate pathsys yields", said)

    def test_a_changed_instruction(self):
        self.assert_refused(self.changed(r"^\tje\t", "\tjne\t"), "isn't what the proved crate pathsys yields")

    def test_a_changed_number(self):
        self.assert_refused(self.changed(r"^\tmovl\t\$4096,", "\tmovl\t$4097,"), "isn't what the proved crate pathsys yields")

    def test_another_callee(self):
        self.assert_refused(self.changed(r"memcpy@PLT", "memmove@PLT"), "isn't what the proved crate pathsys yields")

    def test_a_file_of_an_older_tree(self):
        self.assert_refused(self.changed("Enforces path expressions", "Enforced path expressions"), "isn't what the proved crate pathsys yields")

    def test_a_missing_function(self):
        name = re.search(r"^\t\.type\t(path_\w+\.[\w.]+),@function$", self.text, re.MULTILINE)[1]
        pattern = rf"^{re.escape(name)}:\n.*?^\t\.size\t[^\n]*\n"
        self.assert_refused(self.changed(pattern, ""), "pathsys")

    def test_a_missing_file(self):
        self.assert_refused(None, "there is no ")

    def test_a_head_without_a_toolchain(self):
        self.assert_refused(self.changed(r"^# Toolchain: [^\n]*\n", ""), "doesn't name the toolchain")

    def test_another_toolchain_is_said_and_not_compared(self):
        status, said = self.checked(self.changed(r"^# Toolchain: ", "# Toolchain: another "))
        self.assertEqual(status, 0, said)
        self.assertIn("nothing is compared", said)


if __name__ == "__main__":
    unittest.main()
