"""Tests of the pictures that README.md shows: they have the colours and the words that the tools draw today."""
import html
import re
import shutil
import unittest

from judge.helper import needs_dns
from tool import TOOLS, load

ROOT = TOOLS.parent
FOLDER = ROOT / "docs" / "pictures"
PICTURES = load("pictures")
ENDINGS = (PICTURES.LIGHT, PICTURES.DARK)
SHOWN = re.compile(r"(?:src|srcset)=\"([^\"]+)\"")
TEXT = re.compile(r"<text [^>]*>([^<]*)</text>")
OCTETS_MOST = 100_000


def texts_of(svg):
    """What stands in a picture, in the order of its text."""
    return sorted(html.unescape(text).replace("\u00a0", " ").strip() for text in TEXT.findall(svg))


class Pictures(unittest.TestCase):
    def test_the_readme_shows_each_for_light_and_for_dark(self):
        shown = SHOWN.findall((ROOT / "README.md").read_text())
        there = {str(path.relative_to(ROOT)) for path in FOLDER.iterdir()}
        self.assertEqual(set(shown), there)
        self.assertEqual(len(there), 2 * len(ENDINGS))

    def test_they_are_small(self):
        for path in FOLDER.iterdir():
            with self.subTest(path.name):
                self.assertLess(path.stat().st_size, OCTETS_MOST)

    def test_the_chains_have_the_colours_of_the_page(self):
        for ending in ENDINGS:
            with self.subTest(ending):
                self.assertIn(PICTURES.style(ending), (FOLDER / f"broken-chain{ending}.svg").read_text())
        self.assertNotEqual(*map(PICTURES.style, ENDINGS))
        self.assertNotIn("var(", "".join(map(PICTURES.style, ENDINGS)))

    def test_the_pictures_of_the_page_are_as_wide_as_it_says(self):
        for ending in ENDINGS:
            head = (FOLDER / f"page{ending}.png").read_bytes()[:24]
            self.assertEqual((head[:8], head[12:16]), (b"\x89PNG\r\n\x1a\n", b"IHDR"))
            size = tuple(int.from_bytes(head[place : place + 4], "big") for place in (16, 20))
            self.assertEqual(size, (PICTURES.WIDTH, PICTURES.HEIGHT))


@needs_dns
@unittest.skipUnless(shutil.which("dot"), "needs dot of Graphviz")
class Drawn(unittest.TestCase):
    def test_the_chains_say_what_is_drawn_today(self):
        for ending in ENDINGS:
            with self.subTest(ending):
                file = FOLDER / f"broken-chain{ending}.svg"
                self.assertEqual(texts_of(file.read_text()), texts_of(PICTURES.chain(ending)))


if __name__ == "__main__":
    unittest.main()
