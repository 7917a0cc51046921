"""`dist/system.c` keeps what it promises of memory. Needs a C compiler.

From the top of the repository: python3 -m unittest discover dist/tests
"""

import os
import subprocess
import tempfile
import unittest

DIST = os.path.dirname(os.path.dirname(os.path.abspath(__file__)))
HUGE_PAGES = "/sys/kernel/mm/transparent_hugepage/enabled"


class Memory(unittest.TestCase):
    def ran(self, flags, word):
        """What tests/memory.c says over dist/system.c, compiled with these flags: its status and its words."""
        with tempfile.TemporaryDirectory() as folder:
            program = os.path.join(folder, "memory")
            sources = [os.path.join(DIST, "tests", "memory.c"), os.path.join(DIST, "system.c")]
            strict = ["-std=gnu11", "-O1", "-Wall", "-Wextra", "-Werror"]
            subprocess.run([os.environ.get("CC", "cc"), *strict, *flags, *sources, "-o", program], check=True)
            ran = subprocess.run([program, word], stdout=subprocess.PIPE, text=True)
            return ran.returncode, ran.stdout

    def test_the_program_asks_for_huge_pages(self):
        word = "huge" if os.path.exists(HUGE_PAGES) else "none"
        self.assertEqual(self.ran([], word), (0, ""))

    def test_a_system_without_them_changes_nothing(self):
        self.assertEqual(self.ran(["-DFAILING", "-Wl,--wrap=madvise"], "none"), (0, ""))

    def test_the_library_does_not(self):
        self.assertEqual(self.ran(["-DLIBRARY"], "none"), (0, ""))


if __name__ == "__main__":
    unittest.main()
