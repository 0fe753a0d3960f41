"""Tests of the picture of a chain, and of the page that it stands in."""
import html.parser
import itertools
import shutil
import sys
import unittest
from unittest import mock

from dnssec_check_tools.asking.faults import Failure
from dnssec_check_tools.explaining import chain, drawn, page, picture, sentences
from judge.helper import needs, needs_dns
from .helper import FORMS, lines_of, told_by, told_of

needs_dot = unittest.skipUnless(shutil.which("dot"), "needs dot of Graphviz")
# Names as the program writes them, whose octets mean something to HTML, to SVG or to Graphviz.
BAD_NAMES = (r"<script>alert(1)</script>.", r"a&lt;b&amp;.", r"\"onload=x\".", r"]]>.", r"<!--.", r"a\\n\\N\\G.", r"%s{}|.",
             r"\000\255.", "-" * 63 + "." + "w" * 63 + ".")


def states_of(told):
    """How each box and each edge stands, by their texts."""
    made = drawn.chain_of(told)
    boxes = {" ".join(box.lines): box.state for box in made.boxes.values()}
    edges = {(" ".join(made.boxes[each.tail].lines), " ".join(made.boxes[each.head].lines)): (each.state, each.text)
             for each in made.edges.values()}
    return boxes, edges


@needs_dns
class Drawn(unittest.TestCase):
    def test_every_form_of_the_schema_is_drawn(self):
        for form in FORMS:
            for line in lines_of(form):
                with self.subTest(line):
                    made = drawn.chain_of(told_by(line))
                    self.assertTrue(all(each.tail in made.boxes and each.head in made.boxes for each in made.edges.values()))

    def test_every_reason_shows_something_that_fails_or_is_missing(self):
        for form in FORMS:
            if form["properties"]["line"]["const"] != "reason":
                continue
            line = next(lines_of(form))
            bare = drawn.chain_of(told_by(line))
            states = {box.state for key, box in bare.boxes.items() if key != drawn.QUESTION}
            states |= {each.state for each in bare.edges.values()}
            self.assertTrue(states & {chain.FAILS, chain.MISSING}, line)

    def test_a_rollover_without_the_parent(self):
        boxes, edges = states_of(told_of("roll-gone"))
        ds, key = "shop.example.test. DS record 1 key 43646 SHA-256", "key 43646 ECDSAP256SHA256"
        self.assertEqual((boxes[ds], boxes[key]), (chain.FAILS, chain.MISSING))
        self.assertEqual(edges[ds, key], (chain.MISSING, "no such key"))
        self.assertEqual(edges["anchor 1 example.test. SHA-256", "key 15877 ECDSAP256SHA256"], (chain.HOLDS, ""))
        self.assertEqual(edges["key 2053 ECDSAP256SHA256", ds], (chain.HOLDS, ""))
        self.assertEqual(edges["key 45316 ECDSAP256SHA256 ZONE", "www.shop.example.test. A"], (chain.FOLLOWS, ""))
        self.assertEqual(boxes["www.shop.example.test. A Bogus"], chain.FAILS)

    def test_expired_signatures_have_their_window(self):
        _, edges = states_of(told_of("expired-www-a"))
        key = "key 53641 ED25519 ZONE SEP"
        self.assertEqual(edges[key, "expired.test. DNSKEY"], (chain.FAILS, "expired 2026-10-01"))
        self.assertEqual(edges[key, "www.expired.test. A"], (chain.FAILS, "expired 2026-10-01"))

    def test_what_a_denial_lacks_stands_as_empty_boxes(self):
        boxes, _ = states_of(told_of("denial3-of-another"))
        self.assertEqual({text for text, state in boxes.items() if state == chain.MISSING}, {
            "no NSEC3 other-name.ldns.test. next closer name", "no NSEC3 other-name.ldns.test.", "no proof"})

    def test_what_nobody_asked_for_is_marked(self):
        lines = [{"line": "reason", "word": "dnskey-missing", "ede": 9, "zone": "a."},
                 {"line": "reason", "word": "ds-unproved", "ede": 12, "name": "b.a.", "zone": "a."},
                 {"line": "reason", "word": "answer-missing", "ede": 12, "name": "b.a.", "type": 1}]
        texts = ["no DNSKEY", "no proof that it is unsigned b.a.", "no answer"]
        for replies, behind in ((None, ""), ((), " nobody asked")):
            for line, text in zip(lines, texts):
                boxes, _ = states_of(told_by(line, replies=replies))
                self.assertIn(f"{text.removesuffix(' b.a.')}{behind}{' b.a.' * text.endswith(' b.a.')}", boxes)

    def test_words_of_the_program_are_said_in_plain_english(self):
        words = {line["word"] for form in FORMS for line in [next(lines_of(form))] if "word" in line}
        self.assertLessEqual(set(chain.SHORT), words)
        for form in FORMS:
            for line in itertools.islice(lines_of(form), 1):
                _, edges = states_of(told_by(line))
                self.assertFalse({text for _, text in edges.values()} & set(chain.SHORT) - {"bad"}, line)

    def test_the_text_for_graphviz_quotes_what_strangers_wrote(self):
        self.assertEqual(picture.quoted(['a"b', "\\000&lt;", "{|}"]), r'"a\"b\n\\000&amp;lt;\n{|}"')
        self.assertEqual(picture.broken("a.test. A"), ["a.test. A"])
        self.assertEqual("".join(picture.broken("w" * 63 + ".test.")), "w" * 63 + ".test.")
        self.assertTrue(all(len(piece) <= picture.WIDE for piece in picture.broken("abc." * 63)))


class Read(html.parser.HTMLParser):
    """The elements of a page with their attributes, and its text."""

    def __init__(self, text):
        super().__init__()
        self.tags, self.names, self.words = set(), set(), []
        self.feed(text)
        self.close()

    def handle_starttag(self, tag, attrs):
        self.tags.add(tag)
        self.names |= {name for name, _ in attrs}

    handle_startendtag = handle_starttag

    def handle_data(self, data):
        self.words.append(data)


@needs_dns
@needs("jinja2", "jinja2")
@needs_dot
class Pages(unittest.TestCase):
    def page(self, told, *records, capture="a.cap"):
        entry = page.Entry(told.value["name"] + " A", sentences.verdict(told), capture, told.now, told)
        return page.page_of([entry], [(capture, records)])

    def test_it_has_the_sentences_the_records_and_the_picture(self):
        read = Read(self.page(told_of("roll-gone"), "message 1 record 1 (answer) RRset 1: example.test. 60 IN A 192.0.2.1"))
        words = "".join(read.words)
        for part in ("www.shop.example.test. A: Bogus", "the DS names key 43646; the zone has 29000 and 45316", "[EDE 9]",
                     "message 1 record 1", "Helvetica" if "style" not in read.tags else "key 43646"):
            self.assertIn(part, words)
        self.assertIn("svg", read.tags)

    def test_its_title_is_the_first_question_and_its_capture(self):
        told = told_of("roll-gone")
        entry = page.Entry("www.shop.example.test. A", "Bogus", "a.cap", told.now, told)
        for count, title in ((1, "www.shop.example.test. A of a.cap: "), (3, "www.shop.example.test. A of a.cap and 2 more: ")):
            self.assertIn(f"<title>{title}Verdicts of DNSSEC</title>", page.page_of([entry] * count, []))
        self.assertIn("<title>Verdicts of DNSSEC</title>", page.page_of([], []))

    def test_from_twenty_questions_on_there_are_contents(self):
        told = told_by(verdict="SecureAnswer")
        entries = [page.Entry(f"n{number}. A", "SecureAnswer", "a.cap", told.now, None) for number in range(20)]
        self.assertNotIn("<nav", page.page_of(entries[1:], []))
        text = page.page_of(entries, [])
        self.assertEqual(text.count('<li><a href="#v'), 20)
        self.assertIn('<li><a href="#v20">n19. A: SecureAnswer</a></li>', text)
        self.assertIn('<h2 id="v20">n19. A: SecureAnswer</h2>', text)

    def test_pictures_are_laid_out_at_once_and_stay_in_their_order(self):
        entries = [page.Entry(name, "Bogus", "a.cap", told_of(name).now, told_of(name)) for name in ("roll-gone", "expired-www-a")]
        entries.insert(1, page.Entry("refused", "refused 401", "a.cap", entries[0].moment, None))
        with mock.patch.object(picture.subprocess, "run", wraps=picture.subprocess.run) as runs:
            first, none, second = page.verdicts_of(entries)
        self.assertEqual((runs.call_count, none.chain), (1, None))
        self.assertIn("key 43646", first.chain.picture_markup)
        self.assertIn("expired 2026&#45;10&#45;01", second.chain.picture_markup)

    def test_it_loads_nothing(self):
        text = self.page(told_of("roll-gone"))
        self.assertIn("default-src &#x27;none&#x27;", text)
        read = Read(text)
        self.assertLessEqual(read.names & {"src", "href", "xlink:href", "data", "action", "background", "onload"}, set())
        self.assertNotRegex(text, r"url\(|@import")

    def test_what_strangers_wrote_is_text(self):
        plain = Read(self.page(told_of("roll-gone"), "record"))
        for name in BAD_NAMES:
            line = {"line": "reason", "word": "cover-missing", "ede": 12, "kind": "nsec", "zone": name, "role": "wildcard",
                    "name": name}
            told = told_by(line, {"line": "reason", "word": "no-anchor", "ede": 5, "zone": name})
            told.value["name"] = name
            read = Read(self.page(told, f"record {name}", capture=f"{name}.cap"))
            with self.subTest(name):
                self.assertEqual(read.tags - plain.tags, set())
                self.assertEqual(read.names - plain.names - {"stroke-dasharray"}, set())
                words = "".join(read.words)
                self.assertIn(f"{name}: no trust anchor is at or above it", words)
                self.assertIn(f"record {name}", words)
                self.assertIn(name, words.split("From the trust anchor down")[0].replace("\n", "").split(".cap, at")[1])

    def test_without_jinja2_it_says_what_it_needs(self):
        with mock.patch.dict(sys.modules, jinja2=None), self.assertRaisesRegex(Failure, "--html needs the Python package jinja2"):
            self.page(told_by())

    def test_captures_whose_names_are_no_text(self):
        read = Read(self.page(told_by(), capture="octet\udcff\x1b.cap"))
        self.assertIn("octet\\xff\\x1b.cap", "".join(read.words))


if __name__ == "__main__":
    unittest.main()
