"""Tests of what is said and drawn of real incidents: what was broken, in words that don't mislead whoever has to mend it."""
import unittest

from dnssec_check_tools.explaining import chain, drawn, sentences
from judge.helper import needs_dns
from .helper import incident_of

CUT = "proves that there is none, which a zone without DS needs [EDE 12]"
# What was broken, and sentences that have to stand among those of the incident, in this order.
SAID = {
    "leftover-ds-key-expired": (
        "FAIL shop.se. DNSKEY: the signature by key 20280 expired on 2026-11-25 (2 days ago) [EDE 7]",
        "HAS shop.se. DNSKEY: key 42258 (ECDSAP256SHA256, ZONE) signs the keys; neither an anchor nor a DS matches it",
        "HAS shop.se. DNSKEY: key 20280 (ECDSAP256SHA256, ZONE SEP) signs the keys by a signature that has expired; the DS "
        "matches it"),
    "leftover-ds-key-not-yet": (
        "FAIL shop.se. DNSKEY: the signature by key 20280 begins at 2026-11-27T21:27:05Z (in 5 hours) [EDE 8]",
        "HAS shop.se. DNSKEY: key 20280 (ECDSAP256SHA256, ZONE SEP) signs the keys by a signature that begins later; the DS "
        "matches it"),
    "leftover-ds-typo": (
        "FAIL shop.se. DNSKEY: the DS names key 20280 (ECDSAP256SHA256); its SHA-256 digest isn't that of the zone's key [EDE 9]",
        "HAS shop.se. DNSKEY: key 20280 (ECDSAP256SHA256, ZONE SEP) signs the keys; neither an anchor nor a DS matches it"),
    "two-keys-of-one-tag": (
        "FAIL shop.ru. DNSKEY: the DS names key 31436 (ECDSAP256SHA256), which doesn't sign the keys; another key 31436 does "
        "[EDE 10]",
        "HAS shop.ru. DNSKEY: key 31436 (ECDSAP256SHA256, ZONE SEP) signs the keys; neither an anchor nor a DS matches it",
        "HAS shop.ru. DNSKEY: key 31436 (ECDSAP256SHA256, ZONE SEP) doesn't sign the keys; the DS matches it"),
    "copy-rolled-without-ds": (
        "FAIL shop.test. DNSKEY of message 6: no trust anchor and no DS of the zone names one of these keys (18589 and 35841); "
        "the DS names 11845, which isn't among them [EDE 9]",
        "HAS shop.test. DNSKEY of message 5: key 11845 (ECDSAP256SHA256, ZONE SEP) has no good signature over the keys; the DS "
        "matches it",
        "HAS shop.test. DNSKEY of message 6: key 35841 (ECDSAP256SHA256, ZONE SEP) signs the keys; neither an anchor nor a DS "
        "matches it",
        "HOLDS shop.test. DS: signed by test.; the chain holds down to here, beginning with anchor 1 (.)"),
    "copy-fresh-keys-bad": (
        "FAIL shop.test. DNSKEY of message 6: the signature by key 26644 is bad [EDE 6]",
        "FAIL www.shop.test. A: the signature by key 4165 of shop.test. is good, but no trusted DNSKEY RRset of shop.test. has "
        "the key [EDE 9]",
        "HAS shop.test. DNSKEY of message 5: key 26644 (ECDSAP256SHA256, ZONE SEP) signs the keys; the DS matches it",
        "HAS shop.test. DNSKEY of message 6: key 26644 (ECDSAP256SHA256, ZONE SEP) signs the keys by a signature that is bad; "
        "the DS matches it",
        "HOLDS shop.test. DNSKEY of message 5: the chain holds down to here, beginning with anchor 1 (.)"),
    "copy-fresh-ds-bad": (
        "FAIL shop.test. DS of message 5: the signature by key 51393 of test. is bad [EDE 6]",
        "HOLDS shop.test. DS of message 4: signed by test.; the chain holds down to here, beginning with anchor 1 (.)"),
    "island-proof-expired": (
        "FAIL island.shop.test. NSEC: the signature by key 42437 of shop.test. expired on 2026-11-26T14:39:47Z (24 hours ago) "
        "[EDE 7]",
        f"FAIL island.shop.test. DS: so nothing that shop.test. says {CUT}"),
    "cut-opt-out-cover-out": (
        "FAIL uns.oo.test.: no NSEC3 of oo.test. (iterations 1, salt beef) is at it, or leaves open by Opt-Out whether it is "
        "unsigned (delegation): its hash is a4fg3gbg0jel1mesdlbrh92sdf4hnnp9 [EDE 12]",
        "FAIL uns.oo.test. DS: nobody asked for it, or its answer was lost or truncated; nothing that oo.test. says "
        f"{CUT}"),
    "cut-opt-out-encloser-out": (
        "FAIL uns.oo.test.: no NSEC3 of oo.test. (iterations 1, salt beef) shows that oo.test., right above it, is there: its "
        "hash is jbcrd0c80cjoecuv4fj9q8qbrtfj9235 [EDE 12]",),
    "denial-delegation": (
        "FAIL sub.shop.test.: it has DS by the NSEC of shop.test. [EDE 12]",
        "FAIL sub.shop.test. DS: nobody asked for it, or its answer was lost or truncated; nothing that shop.test. says "
        f"{CUT}"),
    "denial-wildcard-record-out": (
        "FAIL *.wild.n3.test.: no NSEC3 of n3.test. (iterations 2, salt abcd) is at it, or proves that it isn't there "
        "(wildcard): its hash is fbu2m1aougpa34a0b5psq0los0f0vkva [EDE 12]",),
    "stripped-below-shop": (
        "FAIL shop.test. DNSKEY: it has no signature beside it [EDE 10]",
        "WHY shop.test. DNSKEY: from here on nothing has a signature: was it asked with DO, and does all that lies between pass "
        "that on?",
        "HAS shop.test. DNSKEY: key 40115 (ECDSAP256SHA256, ZONE SEP) has no good signature over the keys; the DS matches it",
        "HOLDS shop.test. DS: signed by test.; the chain holds down to here, beginning with anchor 1 (.)"),
}
# Boxes and edges of the picture, each with how it stands.
KEY, DOES_NOT_SIGN = "ECDSAP256SHA256 ZONE SEP", (chain.MISSING, "doesn't sign the keys")
DRAWN = {
    "two-keys-of-one-tag": {
        (f"key 31436 {KEY}", "shop.ru. DNSKEY"): [(chain.HOLDS, ""), DOES_NOT_SIGN],
        ("shop.ru. DS record 1", f"key 31436 {KEY}"): [(chain.HOLDS, "")]},
    "copy-rolled-without-ds": {
        ("no DS or anchor that fits", f"key 35841 {KEY}"): [(chain.MISSING, "")],
        (f"key 35841 {KEY}", "shop.test. DNSKEY message 6"): [(chain.HOLDS, "")],
        ("shop.test. DS record 1", f"key 11845 {KEY}"): [(chain.HOLDS, "")],
        "shop.test. DNSKEY message 6": [chain.FAILS], "shop.test. DNSKEY message 5": [chain.PLAIN]},
    "copy-fresh-keys-bad": {
        (f"key 26644 {KEY}", "shop.test. DNSKEY message 6"): [(chain.FAILS, "bad")],
        (f"key 26644 {KEY}", "shop.test. DNSKEY message 5"): [(chain.HOLDS, "")]},
    "island-proof-expired": {
        "no proof that it is unsigned island.shop.test.": [chain.MISSING],
        ("key 42437 ECDSAP256SHA256", "island.shop.test. NSEC"): [(chain.FAILS, "expired 2026-11-26T14:39:47Z")],
        ("island.shop.test. NSEC", "www.island.shop.test. A Bogus"): [(chain.FAILS, "")]},
    "cut-opt-out-encloser-out": {
        "no NSEC3 oo.test. closest encloser": [chain.MISSING],
        "no proof that it is unsigned nobody asked uns.oo.test.": [chain.MISSING]},
    "cut-opt-out-cover-out": {"no NSEC3 uns.oo.test. delegation": [chain.MISSING]},
    "stripped-below-shop": {"shop.test. DNSKEY unsigned": [chain.FAILS], "www.sub.shop.test. A unsigned": [chain.FAILS]},
}


def stands(told):
    """How boxes stand by their texts, and edges by those of both ends."""
    made, found = drawn.chain_of(told), {}
    texts = {key: " ".join(box.lines) for key, box in made.boxes.items()}
    for key, box in made.boxes.items():
        found.setdefault(texts[key], []).append(box.state)
    for edge in made.edges.values():
        found.setdefault((texts[edge.tail], texts[edge.head]), []).append((edge.state, edge.text))
    return found


@needs_dns
class Incidents(unittest.TestCase):
    maxDiff = None

    def test_what_is_said(self):
        for name, wanted in SAID.items():
            with self.subTest(name):
                said = [str(each) for each in sentences.why(incident_of(name, replies=()))]
                self.assertEqual([each for each in said if each in wanted], list(wanted), said)

    def test_the_first_sentence_is_the_break(self):
        """But of what nobody asked for, which stands behind all else."""
        for name, wanted in SAID.items():
            self.assertEqual(str(sentences.why(incident_of(name))[0]), wanted[0], name)

    def test_what_is_drawn(self):
        for name, wanted in DRAWN.items():
            found = stands(incident_of(name, replies=()))
            for about, states in wanted.items():
                with self.subTest(name, about=about):
                    self.assertEqual(sorted(found.get(about, ())), sorted(states))


if __name__ == "__main__":
    unittest.main()
