"""Tests of the order of a zone's names, of names between them, and of their hashes."""
import random
import unittest

from dnssec_check_tools.asking.names import labels_of
from dnssec_check_tools.zones import chain
from dnssec_check_tools.zones.names import Hashing, above, behind_all_below, is_below, just_behind, order_of

# RFC 4034 6.1
ORDER = ("example.", "a.example.", "yljkjljk.a.example.", "Z.a.example.", "zABC.a.EXAMPLE.", "z.example.", "\\001.z.example.",
         "*.z.example.", "\\200.z.example.")
# RFC 5155 A
HASHES = {"example.": "0p9mhaveqvm6t7vbl5lop2u3t2rp3tom", "a.example.": "35mthgpgcu1qg68fab165klnsnk3dpvl",
          "ai.example.": "gjeqe526plbf1g8mklp59enfd789njgi", "ns1.example.": "2t7b4g4vsa5smi47k61mv5bv1a22bojr",
          "*.w.example.": "r53bq7cc2uvmubfu5ocmm6pers9tk9en", "x.y.w.example.": "2vptu5timamqttgl4luu9kg21e0aor3s"}


class Names(unittest.TestCase):
    def test_order(self):
        names = [labels_of(name) for name in ORDER]
        shuffled = random.Random(1).sample(names, len(names))
        self.assertEqual(sorted(shuffled, key=order_of), names)

    def test_above_and_below(self):
        name, apex = labels_of("a.b.example."), labels_of("example.")
        self.assertEqual(list(above(name, apex)), [labels_of("b.example."), apex])
        for other in ("example.", "other.", "c.d.e.", "."):
            self.assertEqual(list(above(labels_of(other), apex)), [])
        self.assertEqual([is_below(name, apex), is_below(apex, apex), is_below(apex, name), is_below(labels_of("xexample."), apex)],
                         [True, False, False, False])

    def test_names_behind_others(self):
        """Nothing of a zone that isn't below is between a name and what is just behind all below it."""
        for text in ("a.example.", "example.", "*.example.", "\\255.example."):
            name = labels_of(text)
            first, behind = just_behind(name), behind_all_below(name)
            below = [(b"\xff" * 63, *name), (b"\x00", b"\xff", *name)]
            self.assertEqual(sorted([behind, *below, first, name], key=order_of), [name, first, *sorted(below, key=order_of), behind])
        self.assertIsNone(just_behind((b"a" * 63, b"b" * 63, b"c" * 63, b"d" * 60)))
        self.assertIsNone(behind_all_below((b"a" * 63, b"example")))

    def test_hashes(self):
        hashing = Hashing(bytes.fromhex("aabbccdd"), 12)
        for name, text in HASHES.items():
            digest = hashing.digest(labels_of(name))
            self.assertEqual(chain.hex32(digest), text)
            self.assertEqual([chain.hash_of(text.encode()), chain.hash_of(text.upper().encode())], [digest, digest])
        self.assertEqual([chain.hash_of(label) for label in (b"www", b"w" * 32, b"", b"\xff" * 32)], [None] * 4)


if __name__ == "__main__":
    unittest.main()
