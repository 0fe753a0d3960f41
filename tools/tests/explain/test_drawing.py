"""Tests of what a picture shows as dnsviz does: anchors, entry points, key sizes, what holds; of copies, and how wide it is."""
import re
import resource
import shutil
import time
import unittest
from unittest import mock

from dnssec_check_tools.explaining import chain, drawn, keys, page, picture, sentences
from dnssec_check_tools.explaining.explanation import Explanation
from dnssec_check_tools.judging.evidence import Evidence, keys_of
from judge.helper import capture_of, needs, needs_dns
from .helper import FORMS, NOON, lines_of, told_by, told_of

needs_dot = unittest.skipUnless(shutil.which("dot"), "needs dot of Graphviz")
TRUSTED = {"line": "trusted", "zone": "a.", "rrset": 1, "signature": 1, "tag": 5, "algorithm": 8, "anchor": 1, "digest_type": 2}
SIGNED = {"line": "signed", "owner": "b.a.", "type": 1, "rrset": 2, "signature": 1, "tag": 6, "algorithm": 8, "signer": "a.", "keys": 1}
KNOWN = {("a.", 5, 8): keys.Key(257, 2048), ("a.", 6, 8): keys.Key(256, None)}
EXPIRED = {"line": "reason", "word": "expired", "ede": 7, "owner": "c.a.", "type": 1, "signature": 1, "tag": 6, "algorithm": 8, "signer": "a.", "by": 99}


def with_keys(*lines, **named):
    told = told_by(*lines, **named)
    return Explanation(told.value, None, KNOWN)


def seconds_of_children():
    used = resource.getrusage(resource.RUSAGE_CHILDREN)
    return used.ru_utime + used.ru_stime


def boxes_of(told):
    return {" ".join(box.all_lines()): box for box in drawn.chain_of(told).boxes.values()}


class Keys(unittest.TestCase):
    def test_how_long_a_key_is(self):
        modulus = b"\x9f" + bytes(254) + b"\x01"
        rows = ((8, b"\x03\x01\x00\x01" + modulus, 2048), (5, b"\x00\x00\x03\x01\x00\x01" + modulus, 2048), (10, b"\x01\x03" + b"\x01" * 128, 1017),
                (8, b"", None), (8, b"\x03\x01", None), (13, b"x" * 64, 256), (14, b"", 384), (15, b"", 256), (16, b"", 456), (253, b"x" * 9, None))
        for algorithm, field, bits in rows:
            self.assertEqual(keys.bits_of(algorithm, field), bits, (algorithm, field))

    def test_the_keys_of_a_capture(self):
        found = keys_of(Evidence(capture_of("bind-www-a").read_bytes()))
        others = {(".", 24834, 8): 2048, ("bind.test.", 11133, 8): 1024, ("bind.test.", 58600, 8): 2048, ("test.", 1127, 13): 256,
                  ("test.", 52835, 13): 256}
        entries = {(".", 36374, 8): (2048, 1), ("test.", 56592, 13): (256, 3), ("bind.test.", 28346, 8): (2048, 5)}
        wanted = {each: keys.Key(256, bits) for each, bits in others.items()}
        wanted.update((each, keys.Key(257, bits, 3, frozenset([rrset]))) for each, (bits, rrset) in entries.items())
        self.assertEqual(found, wanted)
        self.assertEqual(keys_of(Evidence(b"\x00\x01x")), {})


@needs_dns
class Boxes(unittest.TestCase):
    def test_anchors_entry_points_and_sizes(self):
        boxes = boxes_of(with_keys(TRUSTED, SIGNED, verdict="SecureAnswer", name="b.a.", rrset=2, signature=1))
        self.assertEqual({text: (box.state, box.mark) for text, box in boxes.items()}, {
            "anchor 1 a. SHA-256": (chain.HOLDS, chain.ANCHOR), "key 5 RSASHA256, 2048 bits ZONE SEP": (chain.HOLDS, chain.ENTRY),
            "a. DNSKEY": (chain.HOLDS, ""), "key 6 RSASHA256 ZONE": (chain.HOLDS, ""), "b.a. A": (chain.HOLDS, ""),
            "b.a. A SecureAnswer": (chain.HOLDS, "")})

    def test_how_they_are_drawn(self):
        text = picture.dot_of(drawn.chain_of(with_keys(TRUSTED)))
        self.assertRegex(text, r'label="anchor 1\\na\.\\nSHA-256" class="holds anchor"  peripheries=2\]')
        self.assertIn('bits\\nZONE SEP" class="holds entry"', text)
        self.assertEqual(text.count("peripheries"), 1)

    def test_copies_of_an_rrset_are_one_box(self):
        copies = [dict(EXPIRED, rrset=number) for number in (2, 3, 4)]
        boxes = boxes_of(with_keys(TRUSTED, *copies))
        self.assertEqual([text for text in boxes if "c.a." in text], ["c.a. A 3 copies"])
        made = drawn.chain_of(with_keys(TRUSTED, *copies))
        self.assertEqual([each.text for each in made.edges.values() if each.state == chain.FAILS and each.text], ["expired 2026-11-22T11:58:21Z"])

    def test_copies_of_a_ds_and_of_what_leads_to_it_are_one_chain(self):
        lines = []
        for number in (0, 10):
            lines += [dict(TRUSTED, rrset=number + 1), dict(SIGNED, owner="b.a.", type=43, rrset=number + 2, keys=number + 1),
                      {"line": "reason", "word": "key-missing", "ede": 9, "zone": "b.a.", "rrset": number + 2, "record": 1, "tag": 9,
                       "algorithm": 8, "digest_type": 2}]
        texts = list(boxes_of(with_keys(*lines)))
        self.assertEqual([text for text in texts if "copies" in text], ["a. DNSKEY 2 copies", "b.a. DS record 1 key 9 SHA-256 2 copies"])
        self.assertEqual(sum("DS record" in text or "DNSKEY" in text for text in texts), 2)

    def test_what_stands_otherwise_is_no_copy(self):
        others = (dict(EXPIRED, rrset=3, by=86400), dict(EXPIRED, rrset=3, tag=7), dict(EXPIRED, rrset=3, type=28), dict(EXPIRED, rrset=3, signer="d.a."),
                  {"line": "reason", "word": "unsigned", "ede": 10, "owner": "c.a.", "type": 1, "rrset": 3})
        for other in others:
            texts = boxes_of(with_keys(TRUSTED, dict(EXPIRED, rrset=2), other))
            self.assertFalse([text for text in texts if "copies" in text], other)

    def test_a_chain_that_breaks_above_leads_down(self):
        """From the key over the DS record that it signs to the key below, also where the signature is what fails."""
        lines = [dict(EXPIRED, owner="b.a.", type=43, rrset=2), {"line": "reason", "word": "key-missing", "ede": 9, "zone": "b.a.", "rrset": 2,
                                                                "record": 1, "tag": 9, "algorithm": 8, "digest_type": 2}]
        made = drawn.chain_of(with_keys(*lines))
        self.assertEqual((made.boxes["ds", 2, 1].zone, ("rrset", 2) in made.boxes), ("a.", False))
        self.assertIn((("key", "a.", 6, 8, False), ("ds", 2, 1)), {(each.tail, each.head) for each in made.edges.values()})

    def test_relations_are_said_in_plain_english(self):
        """No word of the program stands beside an edge."""
        words = set()
        for form in FORMS:
            words |= set(form["properties"].get("relation", {}).get("enum", ()))
        self.assertEqual(words, set(chain.RELATIONS))
        parts = [line for form in FORMS if form["properties"]["line"]["const"] == "part" for line in lines_of(form)]
        for line in parts:
            edges = drawn.chain_of(told_by(dict(SIGNED, rrset=7), line, verdict="SecureNoName")).edges.values()
            self.assertFalse([each for each in edges if set(each.text.splitlines()) & words], line)

    def test_the_first_break(self):
        self.assertEqual(drawn.chain_of(told_of("roll-gone")).broken, ("ds", 2, 1))
        self.assertIsNone(drawn.chain_of(with_keys(TRUSTED)).broken)


@needs_dns
@needs("jinja2", "jinja2")
@needs_dot
class Screens(unittest.TestCase):
    def page(self, told):
        return page.page_of([page.Entry("a. A", sentences.verdict(told), "a.cap", told.now, told)], [("a.cap", ["record"])])

    def test_where_the_break_is(self):
        found, = picture.pictures_of([drawn.chain_of(told_of("roll-gone"))])
        middle = float(re.search(r'<text [^>]*?x="([\d.]+)"[^>]*>shop.example.test. DS<', found.svg)[1])
        self.assertEqual(found.width, float(re.search(r'width="([\d.]+)pt"', found.svg)[1]))
        self.assertAlmostEqual(found.broken_at, middle / found.width)
        text = self.page(told_of("roll-gone"))
        self.assertIn(f'<i class="break" style="left: {round(100 * middle / found.width)}%"></i>', text)
        self.assertNotIn('class="break"', self.page(with_keys(TRUSTED, verdict="SecureAnswer")))

    def test_a_picture_is_as_wide_as_its_text_asks_for(self):
        """Never wider; on a narrow screen down to three quarters, and then begun at the break."""
        text = self.page(told_of("roll-gone"))
        found, = picture.pictures_of([drawn.chain_of(told_of("roll-gone"))])
        self.assertIn(f'<div class="drawn" style="--width: {found.width}pt">', text)
        self.assertIn("width: clamp(0.75 * var(--width), 100%, var(--width));", text)
        self.assertNotIn("min-width", text)
        self.assertRegex(text, r"\.break \{[^}]*animation: begins")
        self.assertIn("scroll-snap-type: x mandatory", text)

    def test_in_print_all_is_open_and_wrapped(self):
        text = self.page(told_of("roll-gone"))
        self.assertEqual(re.findall(r"</summary></details>\n<div class=\"opened\">", text), ["</summary></details>\n<div class=\"opened\">"] * 2)
        self.assertIn("@media screen { details:not([open]) + .opened { display: none; } }", text)
        print_rules = text.split("@media print {")[1].split("</style>")[0]
        for rule in ("white-space: pre-wrap", "max-height: 45vh", "break-inside: avoid", ".picture { overflow: visible;"):
            self.assertIn(rule, print_rules)

    def test_colours_are_told_by_class(self):
        text = self.page(with_keys(TRUSTED, verdict="SecureAnswer"))
        for rule in ("svg .holds polygon, svg .holds path { stroke: var(--holds); }", "svg .node.entry polygon, svg .node.entry path { fill: var(--entry); }"):
            self.assertIn(rule, text)
        self.assertRegex(text, r'<g +class="node holds entry"')
        self.assertRegex(text, r'<g +class="edge holds"')
        self.assertEqual(len(re.findall("prefers-color-scheme: dark", text)), 1)

    def test_three_hundred_questions_take_little_time(self):
        """Two seconds of a processor on the machine where it was measured; begun for each picture, Graphviz takes seven."""
        names = ("roll-gone", "expired-www-a", "denial3-of-another", "roll-early")
        told = [told_of(name) for name in names]
        entries = [page.Entry(f"n{number}. A", "Bogus", "a.cap", NOON, told[number % 4]) for number in range(300)]
        begun = time.process_time() + seconds_of_children()
        text = page.page_of(entries, [])
        self.assertLess(time.process_time() + seconds_of_children() - begun, 5)
        self.assertEqual(text.count("<svg "), 300)

    def test_very_many_pictures_are_laid_out_side_by_side(self):
        chains = [drawn.chain_of(told_by(name=f"n{number}.", verdict="SecureAnswer")) for number in range(103)]
        with mock.patch.object(picture, "processors", lambda: 2), mock.patch.object(picture.subprocess, "run", wraps=picture.subprocess.run) as runs:
            found = picture.pictures_of(chains)
        self.assertEqual(runs.call_count, 2)
        self.assertTrue(all(f">n{number}. A<" in each.svg for number, each in enumerate(found)))
        self.assertEqual(picture.pictures_of([]), [])


if __name__ == "__main__":
    unittest.main()
