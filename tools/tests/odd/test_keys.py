"""Tests of keys, algorithms and the records that name keys, at the borders of what is odd."""
import hashlib
import unittest

from dnssec_check_tools.capturing.messages import key_tag
from dnssec_check_tools.odd import algorithms, handovers, keys

from .helper import DNSKEY, DS, ECDSA, KSK, REVOKED, RSA, ZSK, ds, key, link, rrset, rsa, scene, signature, texts, zone

CDS, CDNSKEY, GOST = 59, 60, 12


def by(*held, **more):
    """A signature of `a.` by a key that is held."""
    return [signature(tag=key_tag(each), algorithm=each[3], **more) for each in held]


def ds_of(held, digest_type=2):
    digest = {1: hashlib.sha1, 2: hashlib.sha256, 4: hashlib.sha384}[digest_type](b"\1a\0" + held).digest()
    return ds(key_tag(held), held[3], digest_type, digest)


class Algorithms(unittest.TestCase):
    def test_of_keys(self):
        for algorithm in range(1, 17):
            held = zone(key(algorithm=algorithm))
            found = [odd.word for look in (algorithms.sha1_key, algorithms.gost_key, algorithms.old_key) for odd in look(scene(), held)]
            wanted = {5: "sha1-key", 7: "sha1-key", 12: "gost-key", 1: "old-key", 3: "old-key", 6: "old-key", 10: "old-key"}
            self.assertEqual(found, [wanted[algorithm]] if algorithm in wanted else [], algorithm)

    def test_of_ds_records(self):
        for rows, words in (((ds(1, digest_type=1),), ["sha1-ds"]), ((ds(1, digest_type=1), ds(1)), []), ((ds(1, digest_type=3),), ["gost-ds"]),
                            ((ds(1, GOST), ds(2)), ["gost-ds"]), ((ds(1, 10),), ["old-ds"]), ((ds(1, digest_type=5),), [])):
            found = link(kind=DS, rdata=rows)
            looks = (algorithms.sha1_ds, algorithms.gost_ds, algorithms.old_ds)
            self.assertEqual([odd.word for look in looks for odd in look(scene(), found)], words)

    def test_other_records_are_no_ds(self):
        found = link(rdata=[ds(1, 10, 1)])
        for look in (algorithms.sha1_ds, algorithms.gost_ds, algorithms.old_ds):
            self.assertEqual(list(look(scene(), found)), [])

    def test_rsa(self):
        for exponent, bits, words in ((65537, 2048, []), (65537, 2047, ["rsa-short"]), (3, 2048, ["rsa-exponent"]), (5, 2048, []),
                                      ((1 << 32) - 1, 2048, []), (1 << 32, 2048, []), ((1 << 32) + 1, 4096, ["rsa-exponent"])):
            for is_long in (False, True):
                held = zone(key(algorithm=RSA, public=rsa(exponent, bits, is_long)))
                found = [odd.word for look in (algorithms.rsa_short, algorithms.rsa_exponent) for odd in look(scene(), held)]
                self.assertEqual(found, words, (exponent, bits))

    def test_what_is_no_rsa_key(self):
        for algorithm, public in ((ECDSA, rsa(3, 512)), (RSA, b""), (RSA, b"\3\1"), (RSA, b"\0\0"), (RSA, b"\xff" * 9)):
            held = zone(key(algorithm=algorithm, public=public))
            self.assertEqual([*algorithms.rsa_short(scene(), held), *algorithms.rsa_exponent(scene(), held)], [])


class Keys(unittest.TestCase):
    def test_ds_without_key(self):
        held, other = key(KSK), key(KSK, public=b"other")
        for digest_type in (1, 2, 4):
            self.assertEqual(list(keys.ds_without_key(scene(), zone(held, of_ds=[ds_of(held, digest_type)]))), [])
        found = list(keys.ds_without_key(scene(), zone(held, of_ds=[ds_of(held), ds_of(other)])))
        self.assertEqual(texts(found), [f"it names key {key_tag(other)} (ECDSAP256SHA256) by SHA-256, and none of the zone's keys is that"])
        self.assertEqual(len(list(keys.ds_without_key(scene(), zone(held, of_ds=[ds(key_tag(held))])))), 1)
        self.assertEqual(list(keys.ds_without_key(scene(), zone(held, of_ds=[ds(key_tag(held), digest_type=3)]))), [])
        self.assertEqual(list(keys.ds_without_key(scene(), zone(held))), [])

    def told(self, look, held, of_keys, of_others):
        """What is said where these keys sign the keys, and those all else."""
        found = zone(*held, signatures=by(*of_keys))
        rrsets = [found.keys, *([rrset(signatures=by(*of_others))] if of_others else [])]
        return list(look(scene(*rrsets), found))

    def test_standby_key(self):
        entry, zsk, other = key(KSK), key(), key(public=b"other")
        self.assertEqual(self.told(keys.standby_key, (entry, zsk), [entry], [zsk]), [])
        self.assertEqual(len(self.told(keys.standby_key, (entry, zsk, other), [entry], [zsk])), 1)
        self.assertEqual(self.told(keys.standby_key, (entry, zsk), [entry], []), [])
        self.assertEqual(len(self.told(keys.standby_key, (entry, key(KSK, public=b"next")), [entry], [])), 1)
        self.assertEqual(self.told(keys.standby_key, (entry, key(REVOKED)), [entry], [entry]), [])
        self.assertEqual(self.told(keys.standby_key, (entry, key(0)), [entry], [entry]), [])

    def test_revoked_key(self):
        self.assertEqual([len(list(keys.revoked_key(scene(), zone(key(flags))))) for flags in (KSK, REVOKED, 128)], [0, 1, 1])

    def test_sep_flag(self):
        entry, zsk = key(KSK), key()
        self.assertEqual(self.told(keys.sep_flag, (entry, zsk), [entry], [zsk]), [])
        self.assertEqual(self.told(keys.sep_flag, (entry,), [entry], [entry]), [])
        self.assertEqual(len(self.told(keys.sep_flag, (zsk,), [zsk], [zsk])), 1)
        self.assertEqual(len(self.told(keys.sep_flag, (entry, zsk), [entry], [entry, zsk])), 1)

    def test_same_tag(self):
        """Octets that are swapped two by two have one sum."""
        one, other = key(public=b"abcd"), key(public=b"cdab")
        self.assertEqual(key_tag(one), key_tag(other))
        self.assertEqual(texts(keys.same_tag(scene(), zone(one, other))), [f"2 keys have the tag {key_tag(one)}"])
        self.assertEqual(list(keys.same_tag(scene(), zone(one, one))), [])

    def test_algorithm_unsigned(self):
        entry, coming = key(KSK), key(algorithm=RSA)
        for held, count in (((entry,), 0), ((entry, coming), 1), ((entry, key(REVOKED, RSA)), 0), ((entry, key(0, RSA)), 0)):
            self.assertEqual(len(list(keys.algorithm_unsigned(scene(), link(zone(*held))))), count)
        by_ds = zone(entry, of_ds=[ds(1), ds(2, RSA)])
        self.assertEqual(list(keys.algorithm_unsigned(scene(), link(by_ds))), [])
        self.assertEqual(texts(keys.algorithm_unsigned(scene(), link(by_ds, kind=DNSKEY))),
                         ["it has no signature by RSASHA256, of which the zone has DS records"])


class Handovers(unittest.TestCase):
    def told(self, look, held, has, *records):
        return texts(look(scene(*records), zone(held, of_ds=has)))

    def test_against_the_keys(self):
        held, other = key(KSK), key(KSK, public=b"other")
        cds, cdnskey = rrset(kind=CDS, rdata=[ds_of(held)]), rrset(kind=CDNSKEY, rdata=[held])
        strange = rrset(kind=CDS, rdata=[ds_of(other)]), rrset(kind=CDNSKEY, rdata=[other])
        self.assertEqual(self.told(handovers.cds_and_keys, held, [], cds, cdnskey), [])
        self.assertEqual(len(self.told(handovers.cds_and_keys, held, [], *strange)), 2)
        self.assertEqual(self.told(handovers.cds_and_keys, held, [], rrset(kind=CDS, rdata=[ds(0, 0, 0, b"\0")])), [])
        self.assertEqual(len(self.told(handovers.cds_and_keys, held, [], cds, strange[1])), 2)

    def test_against_the_ds(self):
        held, other = key(KSK), key(KSK, public=b"other")
        cds = rrset(kind=CDS, rdata=[ds_of(held)])
        self.assertEqual(self.told(handovers.cds_and_ds, held, [ds_of(held)], cds), [])
        self.assertEqual(self.told(handovers.cds_and_ds, held, [ds_of(held)]), [])
        self.assertEqual(self.told(handovers.cds_and_ds, held, [ds_of(held)], rrset(kind=CDS, rdata=[ds(0, 0, 0, b"\0")])),
                         ["it asks for no DS, and the parent has 1 DS record"])
        for rows, count in (([held], 0), ([other], 1), ([held, other], 1)):
            self.assertEqual(len(self.told(handovers.cds_and_ds, held, [ds_of(held)], rrset(kind=CDNSKEY, rdata=rows))), count)
        name = f"the DS of key {key_tag(other)} (ECDSAP256SHA256) by SHA-256"
        self.assertEqual(self.told(handovers.cds_and_ds, held, [ds_of(held), ds_of(other)], cds), [f"the parent has {name} besides"])
        self.assertEqual(self.told(handovers.cds_and_ds, held, [ds_of(held)], rrset(kind=CDS, rdata=[ds_of(held), ds_of(other)])),
                         [f"the parent lacks {name}"])


if __name__ == "__main__":
    unittest.main()
