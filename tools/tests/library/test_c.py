"""The library from C: the example, the header, the symbols, and pointers that are NULL."""
import pathlib
import shutil
import subprocess
import tempfile
import unittest

from tool import TOOLS
from . import LIBRARY, MADE, SHARED

EXAMPLE = TOOLS.parent / "examples" / "bind-www-a"
ANCHORS = TOOLS.parent / "examples" / "anchors"
STRICT = ("-Wall", "-Wextra", "-Werror")
CALLS = (LIBRARY / "symbols").read_text().split()
IN_CXX = """#include <dnssec_check.h>
int main() {
    dnssec_check_case given{};
    return dnssec_check_version()[0] == 0
        || dnssec_check_timeline(&given, 3, 9, "a.", 1, DNSSEC_CHECK_WORDS, DNSSEC_CHECK_LINES, nullptr, 0, nullptr) != DNSSEC_CHECK_ROOM
        || dnssec_check_list_range(&given, 3, 9, DNSSEC_CHECK_OPEN, DNSSEC_CHECK_LINES, nullptr, 0, nullptr) != DNSSEC_CHECK_DONE;
}
"""


@unittest.skipUnless(SHARED.exists() and shutil.which("cc"), "needs the library that `make library` builds, and cc")
class InC(unittest.TestCase):
    def setUp(self):
        room = tempfile.TemporaryDirectory()
        self.addCleanup(room.cleanup)
        self.room = pathlib.Path(room.name)

    def compiled(self, source, *words, compiler="cc"):
        made = self.room / "made"
        subprocess.run([compiler, *STRICT, f"-I{LIBRARY}", source, "-o", made, *words], check=True)
        return made

    def run_example(self, program, name="www.bind.test."):
        words = [program, EXAMPLE / "capture", ANCHORS, EXAMPLE / "statements", "1795348800", name, "1"]
        done = subprocess.run(words, capture_output=True, check=False)
        return done.returncode, done.stdout, done.stderr

    def test_the_example_says_what_the_program_does(self):
        for words in ((MADE / "libdnssec_check.a",), (f"-L{MADE}", "-ldnssec_check", f"-Wl,-rpath,{MADE}")):
            program = self.compiled(LIBRARY / "example.c", *words)
            self.assertEqual(self.run_example(program), (0, (EXAMPLE / "check.stdout").read_bytes(), b""))
            self.assertEqual(self.run_example(program, "a..b."), (7, b"", b"refused 102\n"))

    def test_the_example_over_time_says_what_the_program_does(self):
        program = self.compiled(LIBRARY / "over_time.c", MADE / "libdnssec_check.a")
        files, said = [EXAMPLE / "capture", ANCHORS, EXAMPLE / "statements"], EXAMPLE.parent / "timeline-bind-www-a"
        for moments, told in (
            (("1790000000", "1806000000"), (0, (said / "timeline-kinds.stdout").read_bytes(), b"")),
            (("1806000000", "1790000000"), (7, b"", b"refused 821\n")),
        ):
            done = subprocess.run([program, *files, *moments, "www.bind.test.", "1"], capture_output=True, check=False)
            self.assertEqual((done.returncode, done.stdout, done.stderr), told)

    def test_the_header_is_one_of_cxx_too(self):
        source = self.room / "one.cc"
        source.write_text(IN_CXX)
        program = self.compiled(source, MADE / "libdnssec_check.a", compiler="c++")
        self.assertEqual(subprocess.run([program], check=False).returncode, 0)

    def test_it_shows_its_calls_and_nothing_else(self):
        for words in (("--dynamic", SHARED), (MADE / "libdnssec_check.a",)):
            told = subprocess.run(["nm", "--defined-only", "--extern-only", *words], check=True, capture_output=True, text=True)
            self.assertEqual(sorted(line.split()[-1] for line in told.stdout.splitlines() if len(line.split()) == 3), sorted(CALLS))

    def test_it_needs_memory_of_the_system_and_nothing_else(self):
        told = subprocess.run(["nm", "--dynamic", "--undefined-only", SHARED], check=True, capture_output=True, text=True)
        needed = {line.split()[-1].split("@")[0] for line in told.stdout.splitlines() if " U " in line}
        self.assertLessEqual(needed, {"malloc", "realloc", "free", "memcpy", "memmove", "memset", "memcmp", "bcmp", "strlen"})

    def test_pointers_that_are_null_are_told(self):
        program = self.compiled(pathlib.Path(__file__).with_name("nulls.c"), MADE / "libdnssec_check.a")
        self.assertEqual(subprocess.run([program], check=False).returncode, 0)

    def test_want_of_memory_is_told_wherever_it_is(self):
        wrapped = [f"-Wl,--wrap={name}" for name in ("malloc", "realloc", "free")]
        program = self.compiled(pathlib.Path(__file__).with_name("memory.c"), MADE / "libdnssec_check.a", *wrapped)
        words = [program, EXAMPLE / "capture", ANCHORS, EXAMPLE / "statements"]
        self.assertEqual(subprocess.run(words, check=False).returncode, 0)


if __name__ == "__main__":
    unittest.main()
