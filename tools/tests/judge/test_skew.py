"""Tests of tools/judge --skew: by which clocks a verdict is another one."""
import unittest

from dnssec_check_tools.asking.moments import MOMENT_MOST
from dnssec_check_tools.asking.questions import Question
from dnssec_check_tools.judging import skew
from dnssec_check_tools.judging.work import Common, Judged, Row
from tool import DATA

from .helper import Judging, needs_dns

ANCHOR, PACKETS = DATA / "dig" / "test.ds", DATA / "dig" / "all.pcap"
SIGNED = 1795839881  # when the signatures of the packets begin


class Moments(unittest.TestCase):
    def test_those_that_are_asked_for_come_first(self):
        self.assertEqual(skew.around([100, 110], 10), [100, 110, 90, 120])
        self.assertEqual(skew.around([100], 0), [100])
        self.assertEqual(skew.around([5, MOMENT_MOST], 10), [5, MOMENT_MOST, 15, MOMENT_MOST - 10])

    def test_how_long_it_may_be(self):
        self.assertEqual([skew.skew_of(text) for text in ("1", "0010", "1000000000")], [1, 10, 10**9])
        for text in ("0", "-1", "1.5", "", "x", "1000000001", "9" * 5000, "\u0665"):
            self.assertRaises(ValueError, skew.skew_of, text)


@needs_dns
class Folded(unittest.TestCase):
    def test_each_verdict_that_differs_has_a_note(self):
        first, second = Question("a.", 1), Question("b.", 28)
        words = {(90, first): "Bogus", (100, first): "Secure", (110, first): "Secure", (120, first): "Secure",
                 (90, second): "Bogus", (100, second): "Bogus", (110, second): "Bogus", (120, second): "refused"}
        rows = [Row(moment, question, 0, word, {}, None) for (moment, question), word in words.items()]
        found = skew.folded(Judged(rows, ["x"]), Common({}, None, None, [100, 110], skew=10))
        self.assertEqual([(row.moment, row.question.name) for row in found.rows], [(100, "a."), (110, "a."), (100, "b."), (110, "b.")])
        self.assertEqual(found.notes, ["x", "a. A is Bogus by a clock that is 10 seconds late, at 1970-01-01T00:01:30Z",
                                       "b. AAAA is refused by a clock that is 10 seconds ahead, at 1970-01-01T00:02:00Z"])

    def test_without_it_nothing_changes(self):
        judged = Judged([Row(7, Question("a.", 1), 0, "Secure", {}, None)], [])
        self.assertIs(skew.folded(judged, Common({}, None, None, [7])), judged)


@needs_dns
class Words(Judging):
    def test_a_clock_that_goes_wrong(self):
        for moment, words, note in ((SIGNED + 100, ("--skew", "50"), ""),
                                    (SIGNED + 100, ("--skew", "10800"), "is Bogus by a clock that is 3 hours late"),
                                    (SIGNED - 7200, ("--skew", "10800"), "is SecureAnswer by a clock that is 3 hours ahead")):
            status, lines, errors = self.judge("--at", moment, *words, "--anchors", ANCHOR, PACKETS, "www.hole.test/A")
            self.assertEqual(status, 5 if moment < SIGNED else 0, lines)
            self.assertEqual(sum(line.startswith("www.hole.test. A: ") for line in lines), 1)
            self.assertEqual(errors.count("\n"), bool(note), errors)
            self.assertIn(f"{PACKETS}: www.hole.test. A {note}" if note else "", errors)

    def test_what_is_no_number_of_seconds(self):
        status, _, errors = self.judge("--skew", "1h", PACKETS, "a.test/A")
        self.assertEqual(status, 2)
        self.assertIn("argument --skew: invalid skew_of value: '1h'", errors)


if __name__ == "__main__":
    unittest.main()
