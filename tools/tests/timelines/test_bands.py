"""Tests of the bands of timelines, and of the page that has them."""
import os
import re
import unittest
from html.parser import HTMLParser

from dnssec_check_tools.timelines.bands import KINDS, LETTER_LEAST, WIDTH, Stay, band_of
from judge.helper import needs, needs_dns

from .helper import Timelines, timelines

DAY = 86400
STAYS = [Stay(0, 9, "Bogus"), Stay(10, 10 + 30 * DAY, "SecureAnswer"), Stay(11 + 30 * DAY, 90 * DAY, "Pending")]


class Bands(unittest.TestCase):
    def test_pieces_are_as_long_as_they_last_and_are_all_seen(self):
        band = band_of("a. A", STAYS, {})
        first, second, third = band.pieces
        self.assertAlmostEqual(third.left + third.width, WIDTH, 1)
        self.assertAlmostEqual(third.width / second.width, 2, 1)
        self.assertTrue(0 < first.width < LETTER_LEAST < second.width)
        self.assertEqual([piece.letter for piece in band.pieces], ["", "S", "P"])
        self.assertEqual([piece.kind for piece in band.pieces], ["bogus", "secure", "pending"])

    def test_each_verdict_has_a_letter_of_its_own(self):
        letters = [letter for _, letter in KINDS.values()]
        self.assertEqual(len(set(letters)), len(letters))

    def test_thousands_of_pieces_have_room(self):
        stays = [Stay(each, each, "Bogus" if each % 2 else "SecureAnswer") for each in range(8193)]
        pieces = band_of("a. A", stays, {}).pieces
        self.assertAlmostEqual(sum(piece.width for piece in pieces), WIDTH, -1)
        self.assertGreater(min(piece.width for piece in pieces), 0)

    def test_marks_stand_where_their_moments_are(self):
        band = band_of("a. A", STAYS, {"now": 10 + 15 * DAY, "file written": 5, "later": 91 * DAY})
        self.assertEqual([mark.text for mark in band.marks], ["now", "file written"])
        now, written = band.marks
        self.assertAlmostEqual(now.left, band.pieces[1].left + band.pieces[1].width / 2, 1)
        self.assertEqual((now.anchor, written.anchor), ("middle", "start"))

    def test_the_label_says_all(self):
        self.assertEqual(band_of("a. A", STAYS[:2], {}).label, "a. A: Bogus from 1970-01-01T00:00:00Z to 1970-01-01T00:00:09Z; "
                         "SecureAnswer from 1970-01-01T00:00:10Z to 1970-01-31T00:00:10Z")


class Reader(HTMLParser):
    """What a page has: its elements, and the cells of its tables."""

    def __init__(self):
        super().__init__()
        self.tags, self.rows, self.ids = [], [], []

    def handle_starttag(self, tag, attrs):
        self.tags.append((tag, dict(attrs)))
        self.ids += [value for name, value in attrs if name == "id"]
        if tag == "tr":
            self.rows.append([])
        if tag in ("td", "th"):
            self.rows[-1].append("")

    def handle_data(self, data):
        if self.rows and self.rows[-1]:
            self.rows[-1][-1] += data


@needs_dns
@needs("jinja2", "jinja2")
class Page(Timelines):
    def page(self, name, *words):
        path = self.room / "page.html"
        status, lines, errors = self.example(name, "--html", path, *words)
        self.assertEqual(errors, "")
        reader = Reader()
        reader.feed(path.read_text())
        return path.read_text(), reader

    def test_a_band_and_a_table_say_the_same(self):
        text, reader = self.page("two-captures", "--at", "2026-11-28")
        pieces = [attributes for tag, attributes in reader.tags if tag == "rect" and attributes["class"] == "piece"]
        self.assertEqual([piece["fill"] for piece in pieces], ["url(#bogus)", "url(#secure)", "url(#bogus)"])
        rows = [[cell.split() for cell in row] for row in reader.rows[1:]]
        self.assertEqual([row[0][0] for row in rows], ["2026-11-25T00:00:00Z", "2026-11-26T23:00:00Z", "2026-12-09T00:00:01Z"])
        self.assertEqual([row[2] for row in rows], [["Bogus"], ["SecureAnswer"], ["Bogus"]])
        self.assertEqual(rows[1][1], ["2026-12-09T00:00:00Z(now", "within)"])
        self.assertIn("NEXT test. DNSKEY and shop.test. DS:", " ".join(rows[1][3]))
        band, = (attributes for tag, attributes in reader.tags if tag == "svg" and attributes.get("class") == "band")
        self.assertEqual(band["role"], "img")
        self.assertIn("SecureAnswer from 2026-11-26T23:00:00Z to 2026-12-09T00:00:00Z", band["aria-label"])
        self.assertTrue(text.endswith("</html>\n"))

    def test_it_loads_nothing_and_ids_are_unique(self):
        text, reader = self.page("worse-by-a-beginning")
        self.assertEqual(len(reader.ids), len(set(reader.ids)))
        for pattern in re.findall(r'url\(#(\w+)\)', text):
            self.assertIn(pattern, reader.ids)
        self.assertEqual(re.findall(r'(?:src|href)="(?!#)', text), [])

    def test_the_file_is_marked_where_it_was_written(self):
        found, = (each for each in timelines() if each.folder.name == "timeline-two-captures")
        copy = self.room / "copy.cap"
        copy.write_bytes(found.files["capture"].read_bytes())
        words = ["--anchors", found.files["anchors"], "--from", "1795564800", "--to", "1800057600", "--at", "2026-11-28", copy,
                 "www.shop.test/TYPE1", "--html", self.room / "page.html"]
        for written, count in ((1796000000, 1), (1700000000, 0)):
            os.utime(copy, (written, written))
            self.judge(*words)
            text = (self.room / "page.html").read_text()
            self.assertEqual((text.count(">file written<"), text.count(">now<")), (count, 1))

    def test_what_is_refused_has_its_line(self):
        text, _ = self.page("refused-throughout")
        self.assertIn("a.p. A refused 702: the name is an alias", text)


if __name__ == "__main__":
    unittest.main()
