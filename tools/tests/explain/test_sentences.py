"""Tests of the sentences of explanations: every word of the schema has one, and the samples have those that they should."""
import json
import unittest

from dnssec_check_tools.explaining import drawn, reasons, sentences
from dnssec_check_tools.explaining.explanation import Explanation
from judge.helper import EXAMPLES, needs_dns
from .helper import FORMS, NOON, DAY, lines_of, told_by, told_of

try:
    import jsonschema
except ImportError:
    jsonschema = None


HASH = "anga5g3h0nlcirm9cjmhh1qjg0qsdehh"  # ldns-nsec3-hash -a 1 -t 5 -s abcd other-name.ldns.test.


def texts(told):
    return [str(each) for each in sentences.why(told)]


@needs_dns
class Words(unittest.TestCase):
    def test_every_word_of_the_schema_has_a_sentence(self):
        for form in FORMS:
            for line in lines_of(form):
                with self.subTest(line):
                    said = sentences.sentence(told_by(line), line)
                    self.assertTrue(said.mark and said.about and said.text)
                    self.assertTrue(str(said).isprintable() and "None" not in str(said) and "{" not in str(said))

    def test_no_two_words_have_one_sentence(self):
        told, said = {}, set()
        for form in FORMS:
            line = next(lines_of(form))
            words = line["line"], line.get("word")
            text = str(sentences.sentence(told_by(line), line))
            self.assertEqual(told.setdefault(text, words), words, text)
            said.add(words)
        self.assertEqual({word for line, word in said if line == "reason"},
                         {*reasons.OF_SIGNATURES, *reasons.OF_VOUCHERS, *reasons.OF_OTHERS})
        self.assertEqual({line for line, _ in said}, set(sentences.LINES))

    def test_names_of_strangers_stay_as_they_are(self):
        line = {"line": "reason", "word": "no-anchor", "ede": 5, "zone": r'a\"b<i>&%s{}\000.'}
        self.assertEqual(str(sentences.sentence(told_by(line), line)),
                         r'FAIL a\"b<i>&%s{}\000.: no trust anchor is at or above it [EDE 5]')


@needs_dns
class Examples(unittest.TestCase):
    def test_each_has_its_sentences_and_a_picture(self):
        for path in sorted(EXAMPLES.glob("*/explain.json")):
            for number, line in enumerate(path.read_text().splitlines(), 1):
                value = json.loads(line)
                if "why" in value:  # else it is refused
                    with self.subTest(path.parent.name, line=number):
                        self.check(Explanation(value))

    def check(self, told):
        self.assertEqual(sentences.holds_until(told) is not None, told.value["status"] in (0, 3))
        for line in told.lines:
            self.assertTrue(str(sentences.sentence(told, line)).isprintable())
        if told.value["status"] in (0, 3):
            self.assertEqual(bool(texts(told)), told.value["status"] == 3)
        boxes = drawn.chain_of(told).boxes
        self.assertIn(drawn.QUESTION, boxes)
        self.assertGreaterEqual(len(boxes), 2)


@needs_dns
class Verdicts(unittest.TestCase):
    def verdict(self, word, *lines, **others):
        return sentences.verdict(told_by(*lines, verdict=word, **others))

    def test_secure_ones_say_until_when(self):
        holds = {"line": "holds", "from": NOON - DAY, "to": NOON + 30 * DAY}
        for word in ("SecureAnswer", "SecureNoName", "SecureNoData"):
            self.assertEqual(self.verdict(word, holds), f"{word}, until 2026-12-22 (30 days)")
        self.assertEqual(self.verdict("Insecure", holds, cut="b.example."),
                         "Insecure from b.example. on, until 2026-12-22 (30 days)")
        near = {"line": "holds", "from": NOON - DAY, "to": NOON + 5400}
        self.assertEqual(self.verdict("SecureAnswer", near), "SecureAnswer, until 2026-11-22T13:30:00Z (90 minutes)")

    def test_others(self):
        self.assertEqual(self.verdict("Bogus"), "Bogus")
        self.assertEqual(self.verdict("Pending", todo=[{}]), "Pending on 1 signature that could not be verified here")
        self.assertEqual(self.verdict("Pending", todo=[{}, {}]), "Pending on 2 signatures that could not be verified here")

    def test_of_what_is_secure_nothing_more_is_said(self):
        line = {"line": "trusted", "zone": ".", "rrset": 1, "signature": 1, "tag": 1, "algorithm": 13, "anchor": 1}
        self.assertEqual(texts(told_by(line, verdict="SecureAnswer")), [])


@needs_dns
class Samples(unittest.TestCase):
    def test_a_rollover_without_the_parent(self):
        self.assertEqual(texts(told_of("roll-gone")), [
            "FAIL shop.example.test. DNSKEY: the DS names key 43646; the zone has 29000 and 45316 [EDE 9]",
            "HAS shop.example.test. DNSKEY: key 45316 (ECDSAP256SHA256, ZONE) signs the keys; "
            "neither an anchor nor a DS matches it",
            "HAS shop.example.test. DNSKEY: key 29000 (ECDSAP256SHA256, ZONE SEP) signs the keys; "
            "neither an anchor nor a DS matches it",
            "THEN www.shop.example.test. A: signed by key 45316 of shop.example.test., which isn't trusted",
            "HOLDS shop.example.test. DS: signed by example.test.; the chain holds down to here, beginning with "
            "anchor 1 (example.test.)"])

    def test_an_anchor_that_is_another_key_of_the_same_tag(self):
        reason = {"line": "reason", "word": "key-missing", "ede": 9, "zone": "b.", "anchor": 1, "tag": 9, "algorithm": 13}
        key = {"line": "key", "zone": "b.", "rrset": 1, "record": 1, "tag": 9, "algorithm": 13, "flags": 257, "signature": 1}
        self.assertEqual(texts(told_by(reason, key))[0], "FAIL b. DNSKEY: anchor 1 names key 9; the zone's key 9 is another [EDE 9]")

    def test_a_rollover_too_early(self):
        first, *_ = texts(told_of("roll-early"))
        self.assertEqual(first, "FAIL shop.example.test. DNSKEY: the DS names key 42592 (ECDSAP256SHA256), which doesn't "
                                "sign the keys; 30850 and 44813 do [EDE 10]")

    def test_a_key_that_does_not_sign_where_none_does(self):
        """Signatures there are, by the word's own meaning."""
        reason = {"line": "reason", "word": "not-self-signed", "ede": 10, "zone": "b.", "rrset": 1, "tag": 9, "algorithm": 13}
        self.assertEqual(texts(told_by(reason))[0], "FAIL b. DNSKEY: the DS names key 9 (ECDSAP256SHA256), which doesn't sign the "
                                                    "keys; none does by a good signature [EDE 10]")

    def test_expired_signatures(self):
        first, second, *_ = texts(told_of("expired-www-a"))
        self.assertEqual(first, "FAIL expired.test. DNSKEY: the signature by key 53641 expired on 2026-10-01 (52 days ago) "
                                "[EDE 7]")
        self.assertEqual(second, "FAIL www.expired.test. A: the signature by key 53641 of expired.test. expired on "
                                 "2026-10-01 (52 days ago) [EDE 7]")

    def test_a_denial_with_a_record_left_out(self):
        self.assertEqual(texts(told_of("denial3-of-another")), [
            "FAIL other-name.ldns.test.: no NSEC3 of ldns.test. (iterations 5, salt abcd) proves that it isn't there "
            f"(next closer name): its hash is {HASH} [EDE 12]",
            f"FAIL other-name.ldns.test.: no NSEC3 of ldns.test. (iterations 5, salt abcd) is at it: its hash is {HASH} [EDE 12]",
            "FAIL other-name.ldns.test. A: what ldns.test. says doesn't prove that there is none [EDE 12]",
            "HOLDS ldns.test. DNSKEY: the chain holds down to here, beginning with anchor 1 (.)"])

    def test_a_name_that_may_be_unsigned(self):
        case = {"line": "case", "case": 1, "cut": "b.example.", "zone": "example."}
        unusable = {"line": "unusable", "why": "digest-type", "owner": "b.example.", "rrset": 3, "record": 1, "tag": 9,
                    "algorithm": 13, "digest_type": 3}
        self.assertEqual(texts(told_by(case, unusable, verdict="Insecure", cut="b.example.")), [
            "WHY b.example.: it is delegated without DS, says example.",
            "WHY b.example. DS: it names key 9 (ECDSAP256SHA256) by GOST R 34.11-94; the digest type isn't supported"])

    def test_equal_sentences_are_said_once(self):
        reason = {"line": "reason", "word": "key-missing", "ede": 9, "zone": "b.", "rrset": 5, "record": 1, "tag": 9,
                  "algorithm": 13, "digest_type": 2}
        self.assertEqual(texts(told_by(reason, {**reason, "rrset": 7})),
                         ["FAIL b. DNSKEY: the DS names key 9; the zone has no such key [EDE 9]"])

    def test_a_chain_holds_from_the_anchor_that_it_begins_with(self):
        """Two chains, as an alias has them that leads elsewhere: the one from anchor 1 to a., the other from anchor 2 to d.c."""
        trusted = {"line": "trusted", "signature": 1, "tag": 9, "algorithm": 13, "digest_type": 2}
        signed = {"line": "signed", "signature": 1, "tag": 9, "algorithm": 13}
        links = [{**trusted, "zone": "a.", "rrset": 1, "anchor": 1},
                 {**signed, "owner": "x.a.", "type": 5, "rrset": 2, "signer": "a.", "keys": 1},
                 {**trusted, "zone": "c.", "rrset": 3, "anchor": 2},
                 {**signed, "owner": "d.c.", "type": 43, "rrset": 4, "signer": "c.", "keys": 3},
                 {**trusted, "zone": "d.c.", "rrset": 5, "ds_rrset": 4, "ds_record": 1}]
        holds = "the chain holds down to here, beginning with anchor {} ({})"
        ends = ((1, "a. DNSKEY", holds.format(1, "a.")), (2, "x.a. CNAME", f"signed by a.; {holds.format(1, 'a.')}"),
                (3, "c. DNSKEY", holds.format(2, "c.")), (4, "d.c. DS", f"signed by c.; {holds.format(2, 'c.')}"),
                (5, "d.c. DNSKEY", holds.format(2, "c.")))
        for count, about, text in ends:
            said, = sentences.how_far(told_by(*links[:count]))
            self.assertEqual((said.about, said.text), (about, text))
        said, = sentences.how_far(told_by(links[0], links[4]))
        self.assertEqual(said.text, "the chain holds down to here")

    def test_a_key_that_is_no_zone_key_by_its_flags_or_its_protocol(self):
        """Of the protocol nothing is said, so no more is said than that it is none."""
        reason = {"line": "reason", "word": "not-zone-key", "ede": 11, "owner": "a.b.", "type": 1, "rrset": 2, "signature": 1,
                  "tag": 9, "algorithm": 13, "signer": "b."}
        self.assertEqual(texts(told_by(reason)), ["FAIL a.b. A: the signature by key 9 of b. is by a key that is no zone key [EDE 11]"])

    def test_a_signature_whose_key_has_another_algorithm(self):
        reason = {"line": "reason", "word": "key-missing", "ede": 9, "owner": "a.b.", "type": 1, "rrset": 2, "signature": 1,
                  "tag": 9, "algorithm": 13, "signer": "b."}
        keys = [{"line": "key", "zone": "b.", "rrset": 1, "record": place, "tag": tag, "algorithm": algorithm, "flags": 256}
                for place, (tag, algorithm) in enumerate(((9, 15), (9, 8), (7, 13)), 1)]
        front = "FAIL a.b. A: the signature by key 9 of b. needs key 9 (ECDSAP256SHA256); the zone"
        for there, text in ((keys, "'s is of RSASHA256 and ED25519"), (keys[2:], " has 7"), ([], " has no such key")):
            self.assertEqual(texts(told_by(reason, *there))[0], f"{front}{text} [EDE 9]")

    def test_the_reasons(self):
        self.assertEqual([said.ede for said in sentences.reasons(told_of("expired-www-a"))], [7, 7])
        self.assertEqual(sentences.reasons(told_by()), [])

    @unittest.skipIf(jsonschema is None, "needs python3-jsonschema")
    def test_the_samples_have_the_schema(self):
        from .helper import SCHEMA, DATA
        for path in sorted((DATA / "explain").glob("*.json")):
            jsonschema.Draft7Validator(SCHEMA).validate(json.loads(path.read_text()))


if __name__ == "__main__":
    unittest.main()
