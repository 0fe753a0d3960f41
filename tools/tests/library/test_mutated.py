"""Calls with octets that are changed at random, in eight threads and under valgrind.

DNSSEC_CHECK_MUTATED in the environment is how many calls a thread makes, where it isn't to be the few of an ordinary run.
"""
import os
import pathlib
import shutil
import subprocess
import tempfile
import unittest

from tool import TOOLS
from . import LIBRARY, MADE, SHARED

EXAMPLES = TOOLS.parent / "examples"
CASE = EXAMPLES / "bind-www-a"
QUESTIONS, SIGNED = EXAMPLES / "questions-with-keys" / "questions", EXAMPLES / "tsig-named-nosuch"
FILES = (CASE / "capture", EXAMPLES / "anchors", CASE / "statements", QUESTIONS, *(SIGNED / name for name in ("capture", "keys", "macs")))
CALLS = int(os.environ.get("DNSSEC_CHECK_MUTATED", "500"))
VALGRIND = ("valgrind", "--quiet", "--error-exitcode=99", "--leak-check=full", "--show-leak-kinds=all", "--errors-for-leak-kinds=all")
HELGRIND = ("valgrind", "--tool=helgrind", "--quiet", "--error-exitcode=99")


@unittest.skipUnless(SHARED.exists() and shutil.which("cc"), "needs the library that `make library` builds, and cc")
class Mutated(unittest.TestCase):
    def setUp(self):
        room = tempfile.TemporaryDirectory()
        self.addCleanup(room.cleanup)
        self.program = pathlib.Path(room.name) / "mutated"
        source = pathlib.Path(__file__).with_name("mutated.c")
        words = ["cc", "-O1", "-g", "-Wall", "-Wextra", "-Werror", f"-I{LIBRARY}", source, MADE / "libdnssec_check.a", "-o", self.program, "-pthread"]
        subprocess.run(words, check=True)

    def status(self, calls, threads, *front):
        done = subprocess.run([*front, self.program, *FILES, str(calls), str(threads)], check=False, capture_output=True)
        self.assertEqual(done.stderr, b"")
        return done.returncode

    def test_each_answer_is_one_that_the_header_names(self):
        self.assertEqual(self.status(CALLS, 8), 0)

    @unittest.skipUnless(shutil.which("valgrind"), "needs valgrind")
    def test_no_octet_is_read_or_kept_that_is_not_the_calls(self):
        self.assertEqual(self.status(24, 1, *VALGRIND), 0)

    @unittest.skipUnless(shutil.which("valgrind"), "needs valgrind")
    def test_threads_share_nothing(self):
        self.assertEqual(self.status(6, 4, *HELGRIND), 0)


if __name__ == "__main__":
    unittest.main()
