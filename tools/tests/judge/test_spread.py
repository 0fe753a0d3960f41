"""Tests of tools/judging where the program fails, or a process that judges is ended: one capture's fault is no other's."""
import os
import shutil
import unittest
from unittest import mock

from dnssec_check_tools.asking.questions import Question
from dnssec_check_tools.judging import spread
from dnssec_check_tools.judging.work import Common, Row

from .helper import Judging, capture_of, needs_dns

WWW = capture_of("bind-www-a")


@needs_dns
class Listing(Judging):
    """What fails where the signatures are listed."""

    def row(self, script):
        """The line of a capture where the program, before it does anything, runs these lines of a shell."""
        self.program = self.stand_in(script)
        status, lines, errors = self.noon(WWW, "www.bind.test/A")
        self.assertEqual((status, len(lines), errors), (1, 1, ""))
        return lines[0]

    def test_a_fault_is_told_by_its_line(self):
        line = self.row('[ "$1" = list ] && { echo fault 90 >&2; exit 1; }')
        self.assertEqual(line, "www.bind.test. A: fault 90: memory ran out; give it more, or a smaller capture")

    def test_what_ends_otherwise_is_told_by_how(self):
        rows = ('kill -KILL $$', "dnssec_check list was ended by SIGKILL"), ("exit 3", "dnssec_check list ended with status 3"), \
            ("echo no such library >&2; exit 127", "no such library")
        for script, told in rows:
            with self.subTest(script):
                self.assertEqual(self.row(f'[ "$1" = list ] && {{ {script}; }}'), f"www.bind.test. A: fault {told}")

    def test_other_captures_have_their_verdicts(self):
        """One so large has a limit of memory, but that isn't what fails."""
        for name in ("1.cap", "2.cap", "3.cap"):
            shutil.copy(WWW, self.room / name)
        with open(self.room / "2.cap", "ab") as file:
            file.write(WWW.read_bytes())
        size = (self.room / "2.cap").stat().st_size
        self.program = self.stand_in(f'[ "$1" = list ] && [ $size = {size} ] && {{ echo fault 91 >&2; exit 1; }}')
        status, lines, _ = self.noon("--tsv", self.room, "www.bind.test/A")
        self.assertEqual((status, [line.split("\t")[5] for line in lines[1:]]), (1, ["SecureAnswer", "fault", "SecureAnswer"]))


@needs_dns
class Processes(Judging):
    """Where a process that judges is ended, here by the program that it runs."""

    def setUp(self):
        super().setUp()
        (self.room / "captures").mkdir()
        for number in range(6):
            shutil.copy(WWW, self.room / "captures" / f"{number}.cap")
        with open(self.room / "captures" / "3.cap", "ab") as file:
            file.write(WWW.read_bytes())
        self.is_marked = f"[ $size = {2 * WWW.stat().st_size} ]"

    def rows(self, script):
        """The status and what each capture's row has, and that no folder is left."""
        (self.room / "temporary").mkdir()
        self.program = self.stand_in(script)
        with mock.patch.dict(os.environ, TMPDIR=str(self.room / "temporary")):
            status, lines, errors = self.noon("--tsv", "--jobs", "2", self.room / "captures", "www.bind.test/A")
        self.assertEqual((errors, list((self.room / "temporary").iterdir())), ("", []))
        return status, [line.split("\t")[5:7] for line in lines[1:]]

    def test_a_capture_by_which_two_are_ended_is_named(self):
        status, rows = self.rows(f"{self.is_marked} && kill -KILL $PPID")
        self.assertEqual((status, [word for word, _ in rows]), (1, ["SecureAnswer"] * 3 + ["fault"] + ["SecureAnswer"] * 2))
        self.assertEqual(rows[3][1], "said the process that judged it was ended by SIGKILL, the second that was lost by it")

    def test_a_capture_by_which_one_is_ended_is_judged_by_another(self):
        status, rows = self.rows(f"{self.is_marked} && mkdir {self.room}/once && kill -KILL $PPID")
        self.assertEqual((status, [word for word, _ in rows]), (0, ["SecureAnswer"] * 6))
        self.assertTrue((self.room / "once").exists())

    def test_what_python_meets_is_told_too(self):
        status, rows = self.rows(f"{self.is_marked} && [ $1 = explain ] && {{ echo no object; exit 5; }}")
        self.assertEqual((status, [word for word, _ in rows].count("fault"), rows[3][0]), (1, 1, "fault"))
        self.assertIn("JSONDecodeError", rows[3][1])


class Memory(unittest.TestCase):
    def test_memory_that_runs_out_is_the_fault_of_its_capture(self):
        """Also while it's read."""
        question = Question("a.", 1)
        common = Common({7: b""}, None, None, [7])
        for name, octets in (("judged", b""), ("octets_of", None)):
            with self.subTest(name), mock.patch.object(spread, name, side_effect=MemoryError):
                found = spread.answer(common, None, spread.Task(0, "-", octets, None, [question]))
                self.assertEqual(found.rows, [Row(7, question, 1, "fault", {"number": 90}, None)])


if __name__ == "__main__":
    unittest.main()
