"""Tests of what is said and drawn of a zone's keys: which sign the keys, and which are no zone keys."""
import unittest

from dnssec_check_tools.explaining import chain, drawn, keys, sentences
from dnssec_check_tools.explaining.explanation import Explanation
from judge.helper import needs_dns
from .helper import told_by

NAMED = {"tag": 9, "algorithm": 13}
KEY = {"line": "key", "zone": "b.", "rrset": 1, "record": 1, **NAMED, "flags": 257}
OF_KEYS = {"line": "reason", "ede": 0, "owner": "b.", "type": 48, "rrset": 1, "signature": 1, **NAMED, "signer": "b.",
           "inception": 1, "expiration": 2, "by": 9}
USELESS, UNKNOWN = "signs the keys by a signature that doesn't count", "has no good signature over the keys"


def known(flags=257, protocol=3, signed=()):
    """The key as the capture has it."""
    return {("b.", 9, 13): keys.Key(flags, 256, protocol, frozenset(signed))}


def of_keys(*words, **others):
    """Reasons of the signature that the key has over the keys."""
    return [{**OF_KEYS, **others, "word": word} for word in words]


@needs_dns
class Signing(unittest.TestCase):
    def text(self, *lines, there=None, key=None):
        told = Explanation(told_by(*lines, key or KEY).value, None, there)
        said = [each.text for each in sentences.why(told) if each.mark == "HAS"]
        return said[-1].removeprefix("key 9 (ECDSAP256SHA256, ZONE SEP) ").removesuffix("; neither an anchor nor a DS matches it")

    def test_a_signature_that_is_told_not_to_be_good(self):
        rows = ((["expired"], "signs the keys by a signature that has expired"), (["not-yet"], "signs the keys by a signature that begins later"),
                (["bad"], "signs the keys by a signature that is bad"), (["unanswered"], "signs the keys by a signature that could not be verified"),
                (["labels"], USELESS), (["labels", "expired"], "signs the keys by a signature that has expired"), ([], UNKNOWN))
        for words, text in rows:
            self.assertEqual(self.text(*of_keys(*words)), text, words)
        self.assertEqual(self.text(key={**KEY, "signature": 2}), "signs the keys")

    def test_what_is_told_of_another_signature(self):
        others = ({"owner": "a.b."}, {"type": 1}, {"rrset": 2}, {"tag": 8}, {"algorithm": 8}, {"signer": "c."})
        for other in others:
            self.assertEqual(self.text(*of_keys("expired", **other)), UNKNOWN, other)

    def test_what_the_capture_has(self):
        for signed, text in (((1,), USELESS), ((2,), "doesn't sign the keys"), ((), "doesn't sign the keys")):
            self.assertEqual(self.text(there=known(signed=signed)), text, signed)
        self.assertEqual(self.text(*of_keys("bad"), there=known(signed=[1])), "signs the keys by a signature that is bad")

    def test_a_reason_that_it_has_none(self):
        reason = {"line": "reason", "word": "not-self-signed", "ede": 10, "zone": "b.", "rrset": 1, **NAMED}
        for other, text in (({}, "doesn't sign the keys"), ({"rrset": 2}, UNKNOWN), ({"tag": 8}, UNKNOWN), ({"zone": "c."}, UNKNOWN)):
            self.assertEqual(self.text({**reason, **other}), text, other)

    def test_a_signature_of_another_key_of_the_same_tag(self):
        for other, text in (({}, "doesn't sign the keys"), ({"rrset": 2}, USELESS), ({"algorithm": 8}, USELESS), ({"zone": "c."}, USELESS)):
            twin = {**KEY, "record": 2, "signature": 1, **other}
            self.assertEqual(self.text(twin, there=known(signed=[1])), text, other)


@needs_dns
class Zones(unittest.TestCase):
    """What a key lacks to be a zone key."""

    FLAGS, PROTOCOL = "its flags lack ZONE", "its protocol isn't 3"
    # The key's flags, whether a reason says that it's no zone key, what the capture has, and what it lacks.
    ROWS = ((257, False, None, None), (256, False, known(256), None), (1, False, None, FLAGS), (0, True, None, FLAGS),
            (257, True, None, PROTOCOL), (257, False, known(protocol=2), "its protocol is 2, and not 3"),
            (257, True, known(protocol=0), "its protocol is 0, and not 3"), (1, True, known(1, 3), FLAGS))

    def told(self, flags, is_told, there):
        lines = of_keys(*["not-zone-key"] * is_told, owner="a.b.", type=1, rrset=2)
        return Explanation(told_by({**KEY, "flags": flags}, *lines).value, None, there)

    def test_what_is_said(self):
        for *row, lack in self.ROWS:
            said = [str(each) for each in sentences.why(self.told(*row))]
            self.assertEqual([each.split("it is no zone key: ")[1] for each in said if "it is no zone key" in each], [lack] * bool(lack), row)
            if row[1]:
                self.assertEqual(said[0], f"FAIL a.b. A: the signature by key 9 of b. is by a key that is no zone key: {lack}")

    def test_what_is_drawn(self):
        for *row, lack in self.ROWS:
            box = next(box for box in drawn.chain_of(self.told(*row)).boxes.values() if box.key[0] == "key")
            self.assertEqual("no zone key" in box.lines, lack is not None, row)
            self.assertEqual(box.mark == chain.ENTRY, bool(row[0] & keys.SEP) and lack is None, row)

    def test_a_key_that_is_not_there(self):
        for word, state in (("key-missing", chain.MISSING), ("bad", chain.PLAIN)):
            boxes = drawn.chain_of(told_by(*of_keys(word, owner="a.b.", type=1))).boxes
            self.assertEqual(boxes["key", "b.", 9, 13, False].state, state, word)


if __name__ == "__main__":
    unittest.main()
