"""Tests that what is odd of the examples stands on the page, with why it stays."""
import functools
import json
import re
import unittest

from dnssec_check_tools.explaining.explanation import Explanation
from dnssec_check_tools.judging.evidence import Evidence
from dnssec_check_tools.odd.found import Oddities, Wish, words_of
from dnssec_check_tools.odd.kinds import kinds
from tool import TOOLS

EXAMPLES = TOOLS.parent / "examples"
PAGE = TOOLS.parent / "docs" / "ODD.md"


def found():
    """The kinds of each example that has its explanation and its capture."""
    for path in sorted(EXAMPLES.glob("*/explain.json")):
        capture, (line, *more) = path.parent / "capture", path.read_text().splitlines()
        if capture.exists() and not more:
            told = Explanation(json.loads(line))
            yield path.parent.name, words_of(Oddities(Wish()).of(functools.partial(Evidence, capture.read_bytes()), told))


class Examples(unittest.TestCase):
    def setUp(self):
        self.section = PAGE.read_text().split("\n## The examples of the repository\n")[1]

    def test_the_page_has_their_kinds_and_no_others(self):
        rows = re.findall(r"^\| (`.*?) \| ", self.section, re.MULTILINE)
        told = {word for row in rows for word in re.findall(r"`([\w-]+)`", row)}
        self.assertEqual(told, {word for _, words in found() for word in words})
        self.assertLessEqual(told, set(kinds()))

    def test_those_that_have_none_have_none(self):
        clean = {name for name, words in found() if not words}
        named = re.findall(r"`([\w-]+)`", self.section.split("asked as")[1].split(" have none.")[0].split(";")[1])
        self.assertEqual((len(named), set(named) - clean), (4, set()))


if __name__ == "__main__":
    unittest.main()
