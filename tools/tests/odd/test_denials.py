"""Tests of what is odd of denials: the parameters of NSEC3, spans of Opt-Out, gaps of chains, and large answers."""
import base64
import unittest
from types import SimpleNamespace

from dnssec_check_tools.odd import answers, denials
from dnssec_check_tools.odd.records import nsec3_of
from dnssec_check_tools.odd.transfers import gaps_of
from dnssec_check_tools.zones.chain import ByHash, ByOrder
from dnssec_check_tools.zones.names import Hashing, order_of

from .helper import DS, NSEC3, ds, key, link, nsec3, rrset, scene, signature, texts, zone

OPT_OUT = 1
CHILD = ("sub", "a")
HASH = Hashing(b"", 0).digest((b"sub", b"a"))
FIRST, LAST = bytes(20), b"\xff" * 20


def moved(digest, by):
    return (int.from_bytes(digest, "big") + by).to_bytes(20, "big")


def label(digest):
    alphabet = bytes.maketrans(b"ABCDEFGHIJKLMNOPQRSTUVWXYZ234567", b"0123456789abcdefghijklmnopqrstuv")
    return base64.b32encode(digest).translate(alphabet).decode()


def record(owner, following, **parameters):
    return rrset(owner=(label(owner), "a"), kind=NSEC3, rdata=[nsec3(following, **parameters)], signatures=[signature()], number=9)


class Parameters(unittest.TestCase):
    def told(self, **parameters):
        held = scene(record(FIRST, LAST, **parameters))
        looks = (denials.nsec3_iterations, denials.nsec3_many_iterations, denials.nsec3_salt)
        return [odd.word for look in looks for odd in look(held, zone())]

    def test_iterations_and_salt(self):
        for count, words in ((0, []), (1, ["nsec3-iterations"]), (100, ["nsec3-iterations"]), (101, ["nsec3-many-iterations"])):
            self.assertEqual(self.told(iterations=count), words)
        self.assertEqual(self.told(salt=b"\xab"), ["nsec3-salt"])

    def test_records_of_other_zones(self):
        held = record(FIRST, LAST, iterations=9)
        held.signatures = [signature(signer="b.")]
        self.assertEqual(list(denials.nsec3_iterations(scene(held), zone())), [])

    def test_a_record_that_is_torn(self):
        whole = nsec3(LAST, salt=b"salt")
        self.assertEqual(nsec3_of(whole).salt, b"salt")
        for size in range(10 + 20):
            self.assertIsNone(nsec3_of(whole[:size]), size)


class OptOut(unittest.TestCase):
    def spans(self, owner, following, **parameters):
        found = link(kind=DS, owner=CHILD, rdata=[ds(1)])
        return bool(list(denials.opt_out_over_signed(scene(record(owner, following, **parameters)), found)))

    def test_a_hash_within(self):
        self.assertTrue(self.spans(FIRST, LAST, flags=OPT_OUT))
        self.assertFalse(self.spans(FIRST, LAST))
        self.assertFalse(self.spans(FIRST, LAST, flags=OPT_OUT, iterations=501))

    def test_its_borders(self):
        before, behind = moved(HASH, -1), moved(HASH, 1)
        self.assertTrue(self.spans(before, behind, flags=OPT_OUT))
        self.assertFalse(self.spans(HASH, behind, flags=OPT_OUT))
        self.assertFalse(self.spans(before, HASH, flags=OPT_OUT))

    def test_the_last_record_of_the_chain(self):
        """Whose next one is the first."""
        before, behind = moved(HASH, -1), moved(HASH, 1)
        self.assertTrue(self.spans(before, FIRST, flags=OPT_OUT))
        self.assertTrue(self.spans(LAST, behind, flags=OPT_OUT))
        self.assertFalse(self.spans(behind, before, flags=OPT_OUT))
        self.assertTrue(self.spans(FIRST, FIRST, flags=OPT_OUT))

    def test_what_is_no_hash(self):
        found = record(FIRST, LAST, flags=OPT_OUT)
        found.labels = (b"www", b"a")
        child = link(kind=DS, owner=CHILD, rdata=[ds(1)])
        self.assertEqual(list(denials.opt_out_over_signed(scene(found), child)), [])


def chain(make, *links):
    """A chain of a zone whose records are at these places and name these."""
    found = object.__new__(make)
    found.places, found.owners = [place for place, _ in links], [(b"%d" % number, b"a") for number, _ in enumerate(links)]
    found.read = {owner: SimpleNamespace(next=following) for owner, (_, following) in zip(found.owners, links)}
    return found


class Gaps(unittest.TestCase):
    def test_of_hashes(self):
        one, two, three = (bytes([number]) * 20 for number in (1, 2, 3))
        self.assertEqual(list(gaps_of(chain(ByHash, (one, two), (two, three), (three, one)))), [])
        self.assertEqual(len(list(gaps_of(chain(ByHash, (one, two), (three, one))))), 1)
        self.assertEqual(len(list(gaps_of(chain(ByHash, (one, three), (two, three), (three, one))))), 1)
        self.assertEqual(len(list(gaps_of(chain(ByHash, (one, two), (two, three), (three, two))))), 1)

    def test_of_names(self):
        names = [(b"a",), (b"b", b"a"), (b"c", b"a")]
        found = object.__new__(ByOrder)
        found.places, found.owners = list(map(order_of, names)), names
        found.following = dict(zip(names, [*names[1:], names[0]])).__getitem__
        self.assertEqual(list(gaps_of(found)), [])
        found.following = dict(zip(names, [names[2], names[2], names[0]])).__getitem__
        self.assertEqual(texts(gaps_of(found)), ["it names c.a. as the next, and the next record is at b.a."])


class Sizes(unittest.TestCase):
    def test_the_answer_with_the_keys(self):
        asked = bytes(5) + b"\1" + bytes(6) + b"\1a\0\0\x30\0\1"
        for size, kind, count in ((1232, 0x30, 0), (1233, 0x30, 1), (1233, 1, 0)):
            held = scene()
            held.records.messages = [asked.replace(b"\x30", bytes([kind])).ljust(size, b"\0")]
            self.assertEqual(len(list(answers.large_keys(held, zone(key())))), count)


if __name__ == "__main__":
    unittest.main()
