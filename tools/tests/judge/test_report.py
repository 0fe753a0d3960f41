"""Tests of what judge ends with: the worst status of all rows, in whatever order they come."""
import io
import itertools
import re
import sys
import unittest
from unittest import mock

from dnssec_check_tools import judge
from dnssec_check_tools.asking.questions import Question
from dnssec_check_tools.judging.report import Report
from dnssec_check_tools.judging.work import Judged, Row

FROM_BEST = (0, 8, 3, 4, 5, 6, 7, 1)


def rows(*statuses):
    return Judged([Row(7, Question("a.", 1), status, "word", {}, None) for status in statuses], [])


def worst(*captures):
    """The status behind these captures, which are done in any order."""
    report = Report(lambda path, _: f"{path}\n", [str(number) for number, _ in enumerate(captures)], None)
    with mock.patch.object(sys, "stdout", io.TextIOWrapper(io.BytesIO())) as output:
        for number in reversed(range(len(captures))):
            report.take(number, captures[number])
        output.flush()
        return report.worst, output.buffer.getvalue().decode().split()


class Worst(unittest.TestCase):
    def test_of_each_two(self):
        """In one capture, and in two; each by itself too."""
        for first, second in itertools.product(FROM_BEST, repeat=2):
            wanted = max(first, second, key=FROM_BEST.index)
            with self.subTest(first=first, second=second):
                self.assertEqual(worst(rows(first, second)), (wanted, ["0"]))
                self.assertEqual(worst(rows(first), rows(), rows(second)), (wanted, ["0", "1", "2"]))

    def test_as_the_help_says(self):
        told = re.search(r"From the best to the worst:(.*?)\. 2,", judge.__doc__, re.DOTALL)[1]
        self.assertEqual(tuple(map(int, re.findall(r"(\d),\s", told))), FROM_BEST)

    def test_of_nothing(self):
        self.assertEqual(worst(), (0, []))


if __name__ == "__main__":
    unittest.main()
