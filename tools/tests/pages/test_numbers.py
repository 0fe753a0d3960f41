"""Tests of the numbers of faults: the code, the manual page, the table of the tools and the pages of the crates have
the same, with the same exit statuses and texts."""
import re
import unittest

from dnssec_check_tools.judging.numbers import numbers
from tool import TOOLS
from . import guarantees, manual, sources

ROOT = TOOLS.parent
# How a page names a number.
NAMED = re.compile(r"\b(?:refused|fault) (\d+)|\b(\d{2,3}) (?:below|of docs/dnssec_check\.1)")


def of_the_program():
    """The rows of the page's table: the numbers, what they mean, and the exit status."""
    return guarantees.rows(guarantees.section(guarantees.pages()["dnsv_program"], "Numbers of the program"))


def texts_with_numbers():
    files = [*ROOT.glob("*.md"), *ROOT.glob("docs/**/*.md"), *ROOT.glob("docs/*.1"), *ROOT.glob("crates/*/GUARANTEES.md"),
             *ROOT.glob("examples/*.md"), ROOT / "crates" / "dnsv_rows" / "stdin"]
    return {str(file.relative_to(ROOT)): file.read_text() for file in files}


class Numbers(unittest.TestCase):
    maxDiff = None

    def setUp(self):
        self.statuses = {number: fault.status for number, fault in sources.numbers().items()}

    def test_the_code_has_numbers(self):
        self.assertGreater(len(self.statuses), 40)

    def test_the_manual_page_has_those_of_the_code(self):
        self.assertEqual({number: told.status for number, told in manual.numbers().items()}, self.statuses)

    def test_the_page_of_the_program_has_those_of_the_code(self):
        told = [(number, int(row[2])) for row in of_the_program() for number in guarantees.numbers_of(row[0])]
        self.assertEqual(sorted(told), sorted(self.statuses.items()))

    def test_the_page_of_the_program_has_a_meaning_for_each(self):
        for told, meaning, _ in of_the_program():
            several = guarantees.numbers_of(told)
            if len(several) > 1:
                self.assertEqual(len(meaning.split(": ")[-1].split(", ")), len(several), told)

    def test_the_table_of_the_tools_has_those_of_the_code(self):
        self.assertEqual(set(numbers()), set(self.statuses))
        for number, fault in sources.numbers().items():
            with self.subTest(number):
                self.assertIn(numbers()[number].where, fault.where)

    def test_the_table_of_the_tools_says_what_the_manual_page_says(self):
        for number, told in manual.numbers().items():
            with self.subTest(number):
                row = numbers()[number]
                self.assertEqual(f"{row.what} {row.remedy}", told.text)

    def test_what_refuses_a_call_has_one_of_the_numbers(self):
        for crate, page in guarantees.pages().items():
            for row in guarantees.rows(guarantees.section(page, "Calls")):
                told = {int(number) for number in re.findall(r"\b\d{2,3}\b", row[2])}
                self.assertLessEqual(told, set(self.statuses), f"{crate}: {row[0]}")

    def test_no_page_names_another_number(self):
        for name, text in texts_with_numbers().items():
            with self.subTest(name):
                told = {int(number) for found in NAMED.findall(text) for number in found if number}
                self.assertLessEqual(told, set(self.statuses))


if __name__ == "__main__":
    unittest.main()
