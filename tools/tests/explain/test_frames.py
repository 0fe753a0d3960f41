"""Tests of what stands where in a picture: the frames of zones, and what is under what."""
import unittest

from dnssec_check_tools.explaining import chain, drawn, frames
from judge.helper import needs_dns
from .helper import incident_of, told_by

TRUSTED = {"line": "trusted", "zone": ".", "rrset": 1, "signature": 1, "tag": 5, "algorithm": 8, "anchor": 1, "digest_type": 2}
A, DS, DNSKEY = 1, 43, 48


def unsigned(owner, kind, rrset):
    return {"line": "reason", "word": "unsigned", "ede": 10, "owner": owner, "type": kind, "rrset": rrset}


def key_missing(zone):
    return {"line": "reason", "word": "dnskey-missing", "ede": 9, "zone": zone}


def under_of(told):
    """What stands under what, by the lines of the boxes."""
    made = drawn.chain_of(told)
    texts = {key: " ".join(box.lines) for key, box in made.boxes.items()}
    return {(texts[each.tail], texts[each.head]) for each in made.edges.values() if each.state == chain.UNDER}


@needs_dns
class Frames(unittest.TestCase):
    def test_which_zone_is_above(self):
        zones = [".", "a.", "b.a.", "xb.a."]
        rows = (("c.b.a.", "b.a."), ("b.a.", "b.a."), ("yb.a.", "a."), ("b.", "."), (".", "."))
        self.assertEqual([frames.zone_above(name, zones) for name, _ in rows], [zone for _, zone in rows])
        self.assertIsNone(frames.zone_above("b.", ["a."]))

    def test_where_an_rrset_stands_that_nobody_signed(self):
        lines = [TRUSTED, key_missing("b.a."), unsigned("b.a.", DS, 2), unsigned("c.b.a.", A, 3), unsigned("d.", DNSKEY, 4), unsigned("b.a.", A, 5)]
        self.assertEqual(frames.signers_of(told_by(*lines)), {2: ".", 3: "b.a.", 4: "d.", 5: "b.a."})
        self.assertEqual(frames.signers_of(told_by(unsigned("a.", A, 3))), {})

    def test_what_breaks_stands_under_what_breaks_above_it(self):
        lines = [key_missing("a."), key_missing("b.a."), key_missing("c.b.a."), TRUSTED]
        boxes = {zone: drawn.chain_of(told_by(*lines)).boxes["dnskey-missing", zone] for zone in ("a.", "b.a.", "c.b.a.")}
        self.assertEqual({box.zone for box in boxes.values()}, set(boxes))
        edges = {(each.tail, each.head) for each in drawn.chain_of(told_by(*lines)).edges.values() if each.state == chain.UNDER}
        way = [("rrset", 1), *(("dnskey-missing", zone) for zone in boxes)]
        self.assertLessEqual({*zip(way, way[1:])}, edges)

    def test_breaks_of_one_zone_stand_beside_each_other(self):
        told = incident_of("cut-opt-out-encloser-out", replies=())
        links = [("oo.test. DNSKEY", each) for each in ("no NSEC3 oo.test. closest encloser", "no proof that it is unsigned nobody asked uns.oo.test.",
                                                        "www.uns.oo.test. A Bogus")]
        self.assertEqual(under_of(told), set(links))

    def test_the_keys_of_a_zone_stand_under_what_breaks_above_it(self):
        key = {"line": "key", "zone": "b.a.", "rrset": 3, "record": 1, "tag": 9, "algorithm": 13, "flags": 257}
        self.assertIn(("no DNSKEY", "key 9 ECDSAP256SHA256 ZONE SEP"), under_of(told_by(TRUSTED, key_missing("a."), key)))
        self.assertIn((". DNSKEY", "key 9 ECDSAP256SHA256 ZONE SEP"), under_of(told_by(TRUSTED, key)))

    def test_a_ds_that_nobody_signed_does_not_hold(self):
        boxes = {" ".join(box.lines): box for box in drawn.chain_of(incident_of("stripped-below-shop")).boxes.values()}
        box = boxes["sub.shop.test. DS record 1 unsigned"]
        self.assertEqual((box.zone, box.state), ("shop.test.", chain.FAILS))
        self.assertEqual(boxes["shop.test. DS record 1"].state, chain.HOLDS)


if __name__ == "__main__":
    unittest.main()
