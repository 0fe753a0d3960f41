"""Tests of the table of numbers: what it says of each, and how that is told."""
import unittest

from dnssec_check_tools.judging.numbers import fault_text, numbers

WHERE = {"-", "file", "name", "type", "capture", "keys", "macs", "anchors", "statements", "answers", "questions"}


class Numbers(unittest.TestCase):
    def test_each_says_what_is_wrong_and_what_to_do(self):
        for row in numbers().values():
            self.assertIn(row.where, WHERE)
            for text in (row.what, row.remedy):
                self.assertRegex(text, r"^[A-Za-z_].*[.?]$")

    def test_a_fault_tells_its_file(self):
        paths = {"capture": "www.cap", "anchors": "root"}
        self.assertEqual(fault_text({"number": 401, "message": 2}, paths),
                         "401 message 2 of the capture www.cap: it is a query; dnssec_check-capture drops queries")
        self.assertTrue(fault_text({"number": 601, "line": 3}, paths).startswith("601 line 3 of the anchors root: the line isn't an anchor; write DS "))
        self.assertTrue(fault_text({"number": 811, "file": "capture"}, paths).startswith("811 the capture www.cap: the file can't be opened; "))
        self.assertEqual(fault_text({"said": "killed"}, paths), "killed")
