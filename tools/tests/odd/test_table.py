"""Tests of the table of kinds: the code, the manual page and bash's completions have the same."""
import re
import unittest

from dnssec_check_tools.odd.kinds import kinds
from tool import TOOLS

from .helper import CAPTURES

MANUAL = TOOLS.parent / "docs" / "dnssec_check-judge.1"
PAGE = TOOLS.parent / "docs" / "ODD.md"
ENTRY = re.compile(r"^\.It (\d+) ([\w-]+) Bq (.*)\n((?:[^.].*\n)*)", re.MULTILINE)


class Table(unittest.TestCase):
    def test_numbers_go_on_from_901(self):
        self.assertEqual([kind.number for kind in kinds().values()], list(range(901, 901 + len(kinds()))))

    def test_each_has_a_document_and_what_to_do(self):
        for kind in kinds().values():
            with self.subTest(kind.word):
                self.assertRegex(kind.document, r"^RFC \d{4}( [\dA-C.]+)?$")
                self.assertRegex(kind.what, r"^[A-Z].*\.$")
                self.assertRegex(kind.remedy, r"^[A-Z].*\.$")

    def test_the_code_finds_each_and_no_other(self):
        code = "".join(path.read_text() for path in sorted((TOOLS / "dnssec_check_tools" / "odd").glob("*.py")))
        found = set(re.findall(r'(?:Odd|of_key|of_ds|of_nsec3)\(\s*"([\w-]+)"', code))
        self.assertEqual(found, set(kinds()))

    def test_the_manual_page_has_them(self):
        page = MANUAL.read_text().split("\n.Sh WHAT IS ODD\n")[1].split("\n.Sh ")[0] + "\n"
        told = [(int(number), word, document, " ".join(text.split())) for number, word, document, text in ENTRY.findall(page)]
        self.assertEqual(told, [(kind.number, kind.word, kind.document, f"{kind.what} {kind.remedy}") for kind in kinds().values()])

    def test_the_page_has_an_example_of_each(self):
        told = re.findall(r"^### (\d+) `([\w-]+)`", PAGE.read_text(), re.MULTILINE)
        self.assertEqual(told, [(str(kind.number), kind.word) for kind in kinds().values()])

    def test_completions_offer_them(self):
        text = (TOOLS / "completion" / "dnssec_check").read_text().split("--fail-on)\n")[1].split(";;")[0]
        self.assertEqual(text.replace("echo", "").split(), list(kinds()))

    def test_each_has_a_capture_that_shows_it_and_one_that_does_not(self):
        names = {path.stem for path in CAPTURES.glob("*.cap")}
        self.assertLessEqual({name for word in kinds() for name in (word, f"not-{word}")}, names)
        self.assertEqual({name for name in names if name.removeprefix("not-").removesuffix("-large") not in kinds()}, set())


if __name__ == "__main__":
    unittest.main()
