"""Tests that the pages stay short enough to be read."""
import unittest

from tool import TOOLS

ROOT = TOOLS.parent
WORDS_MOST = 900  # of the page that everybody begins with
OCTETS_MOST = 40_000


class Sizes(unittest.TestCase):
    def test_the_readme(self):
        self.assertLessEqual(len((ROOT / "README.md").read_text().split()), WORDS_MOST)

    def test_the_pages_of_docs(self):
        for page in sorted((ROOT / "docs").rglob("*.md")):
            with self.subTest(page.name):
                self.assertLessEqual(page.stat().st_size, OCTETS_MOST)


if __name__ == "__main__":
    unittest.main()
