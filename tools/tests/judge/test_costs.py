"""Tests of what captures that are made to cost take of judge: processor time, memory, and runs of the program."""
import json
import shutil
import sys
import unittest

from tool import PROGRAM, TOOLS, run_program

from .helper import ANCHORS, JUDGE, NOON, Judging, capture_of, needs_dns, verdicts

sys.path.insert(0, str(TOOLS.parent / "bench"))
from shapes import SHAPES  # noqa: E402  pylint: disable=wrong-import-position

# Runs a command, and says what it and those that it ran took: seconds of a processor, and the most memory of any.
MEASURE = """import json, resource, subprocess, sys
done = subprocess.run(sys.argv[1:], capture_output=True, text=True)
taken = resource.getrusage(resource.RUSAGE_CHILDREN)
print(json.dumps([done.returncode, done.stdout, done.stderr, taken.ru_utime + taken.ru_stime, taken.ru_maxrss * 1024]))
"""


@needs_dns
@unittest.skipUnless(PROGRAM.exists(), "needs the program")
class Shapes(Judging):
    def judged(self, name, size):
        """The status, the verdict, what is told besides, and the seconds and octets that it took."""
        capture = self.room / "capture"
        capture.write_bytes(b"".join(SHAPES[name][0](size).files["capture"]))
        words = [*JUDGE, "--program", self.program, "--jobs", "1", "--at", "1500", "--anchors", ANCHORS, capture, "bind.test/A"]
        _, output, errors = run_program(sys.executable, "-c", MEASURE, *words)
        self.assertEqual(errors, "")
        status, lines, told, seconds, octets = json.loads(output)
        return status, verdicts(lines.splitlines()), told, seconds, octets, capture.stat().st_size

    def test_exponents_of_4096_bits_take_no_second(self):
        """Raised to, they take 13 seconds and more. A busy machine may take longer, and not each time."""
        for _ in range(3):
            status, lines, told, seconds, _, size = self.judged("exponents", 1)
            if seconds < 1:
                break
        self.assertEqual((status, lines, size), (5, ["bind.test. A: Bogus"], 19_540))
        self.assertIn("80 signatures aren't verified: the exponent of the RSA key has more than 64 bits\n", told)
        self.assertLess(seconds, 1)

    def test_signed_data_of_two_gigabytes_takes_no_64_megabytes(self):
        status, lines, told, _, octets, size = self.judged("long-data", 96)
        self.assertEqual((status, lines, told, size), (5, ["bind.test. A: Bogus"], "", 715_048))
        self.assertLess(octets, 64_000_000)

    def test_its_list_has_eight_times_its_octets_and_64_an_entry(self):
        capture = self.room / "capture"
        capture.write_bytes(b"".join(SHAPES["long-data"][0](96).files["capture"]))
        status, output, _ = run_program(self.program, "list", "--capture", capture, "--moment", "1500", "--compact")
        count = sum(line.startswith(b"todo ") for line in output.splitlines())
        self.assertEqual((status, count), (0, 18_432))
        self.assertLess(len(output), 8 * capture.stat().st_size + 64 * count)


@needs_dns
class Runs(Judging):
    def test_a_capture_takes_two_runs_of_the_program(self):
        """One that lists and one that answers, however many questions there are."""
        for number in range(4):
            shutil.copy(capture_of("bind-www-a"), self.room / f"{number}.cap")
        path = self.room / "runs"
        self.program = self.stand_in(f"echo $1 >> {path}")
        _, lines, errors = self.noon("--jobs", "2", self.room, "www.bind.test/A", "bind.test/SOA", "test/DS")
        self.assertEqual((errors, len(verdicts(lines))), ("", 12))
        self.assertEqual(sorted(path.read_text().split()), ["explain"] * 4 + ["list"] * 4)


if __name__ == "__main__":
    unittest.main()
