"""Tests of what makes the zones that are odd: its cases, the keys that no generator makes, and how others are heard."""
import base64
import pathlib
import tempfile
import unittest
from unittest import mock

from breaking.zones import Room
from dnssec_check_tools.capturing.messages import key_tag
from dnssec_check_tools.odd.algorithms import rsa_of
from dnssec_check_tools.odd.kinds import kinds
from dnssec_check_tools.odd.records import Key
from odd_captures import numbers, others
from odd_captures.answers import with_ttl
from odd_captures.cases import CASES
from odd_captures.signing import Made, records_in


class Making(unittest.TestCase):
    def setUp(self):
        room = tempfile.TemporaryDirectory()
        self.addCleanup(room.cleanup)
        self.room = Room(pathlib.Path(room.name))

    def rdata(self, name):
        flags, _, algorithm, public = self.room.text(f"{name}.key").split()[3:]
        return int(flags).to_bytes(2, "big") + bytes([3, int(algorithm)]) + base64.b64decode(public)

    def test_a_case_for_each_kind(self):
        names = [case.name.removesuffix("-large") for case in CASES]
        self.assertEqual(list(dict.fromkeys(names)), list(kinds()))
        self.assertEqual([case.name for case in CASES if case.is_transfer], ["chain-gap"])

    @mock.patch.object(numbers, "BITS", 1024)
    def test_keys_of_an_exponent(self):
        for exponent in (3, (1 << 32) + 15):
            name = numbers.rsa_key(self.room, "a.test", numbers.KSK, exponent)
            rdata = self.rdata(name)
            found = rsa_of(Key(257, rdata[3], key_tag(rdata), rdata[4:], rdata))
            self.assertEqual((found.exponent, found.bits, int(name[-5:])), (exponent, 1024, key_tag(rdata)))
            private = dict(line.split(": ") for line in self.room.text(f"{name}.private").splitlines())
            values = {field: int.from_bytes(base64.b64decode(private[field]), "big")
                      for field in ("Modulus", "PrivateExponent", "Prime1", "Prime2")}
            number = pow(pow(7, values["PrivateExponent"], values["Modulus"]), exponent, values["Modulus"])
            self.assertEqual((number, values["Prime1"] * values["Prime2"]), (7, values["Modulus"]))

    def test_keys_of_one_tag(self):
        one, other = map(self.rdata, numbers.curve_keys_of_one_tag(self.room, "a.test"))
        self.assertNotEqual(one, other)
        self.assertEqual(key_tag(one), key_tag(other))

    def test_lines(self):
        self.assertEqual(records_in("; a\n\na 1 IN A 192.0.2.1\n"), ["a 1 IN A 192.0.2.1"])
        self.assertEqual(with_ttl("a.\t300 IN A 192.0.2.1", "600"), "a. 600 IN A 192.0.2.1")
        self.assertEqual([Made("a.test", [], []).asked, Made("a.test", [], [], ("b.a.test", "DS")).asked],
                         [("www.a.test", "A"), ("b.a.test", "DS")])

    def test_what_others_say(self):
        told = {"a.": {"zone": {"errors": [{"code": "X"}], "warnings": [{"code": "Y", "servers": [1]}]}, "b": []}}
        self.assertEqual(list(others.codes(told)), ["X", "Y"])
        made = Made("a.test", [], [])
        self.assertEqual(others.plain(made, " www.a.test. has 12 of key 345 "), "www.ZONE. has N of key N")
        told = "KSKs: 1 active, 0 stand-by, 2 revoked\nMissing NSEC record for a.\nAll is well"
        self.assertEqual(others.OF_VERIFIED.findall(told), ["2 revoked", "Missing NSEC record for a."])


if __name__ == "__main__":
    unittest.main()
