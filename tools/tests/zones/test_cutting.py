"""Tests of how a transfer is cut into captures: each within the limits, and with the evidence that its questions need."""
import unittest
from unittest import mock

from dnssec_check_tools.capturing.frames import frames_of
from dnssec_check_tools.judging.evidence import Evidence
from dnssec_check_tools.wire import name_octets, record
from dnssec_check_tools.zones import cutting
from dnssec_check_tools.zones.audit import Audit
from dnssec_check_tools.zones.transfer import transfer_of

from . import signed
from .test_transfer import message

CHAIN = message(record(name_octets("."), 48, b"\x01\x01\x03\x0dkey"), kind=48, name=name_octets("."))


@unittest.skipUnless(signed.SIGNER, "needs ldnsutils")
class Parts(unittest.TestCase):
    def audit(self, options, chain=CHAIN, **limits):
        records, _ = signed.signed(signed.SMALL, options)
        with mock.patch.multiple(cutting, **{"RECORDS_MOST": 4096, **limits}):
            return Audit(transfer_of([chain, *signed.transfer(records)]))

    def test_what_fits_is_one_part(self):
        """An RRset is put together with its signatures, which the transfer has in several messages."""
        for options in (signed.NSEC, signed.NSEC3):
            audit = self.audit(options)
            part, = audit.parts
            self.assertEqual((frames_of(part.octets)[0][0], part.items), (CHAIN, audit.items))

    def test_parts_are_within_the_limits(self):
        for options in (signed.NSEC, signed.NSEC3):
            for limits in ({"RECORDS_MOST": 24}, {"MESSAGES_MOST": 4, "OCTETS_MOST": 1000}):
                with self.subTest(options=options, **limits):
                    audit = self.audit(options, **limits)
                    self.assertGreater(len(audit.parts), 2)
                    self.assertEqual([item for part in audit.parts for item in part.items], audit.items)
                    for part in audit.parts:
                        messages = frames_of(part.octets)[0]
                        self.assertLessEqual(cutting.count_of(messages), limits.get("RECORDS_MOST", 4096))
                        self.assertLessEqual(len(messages), limits.get("MESSAGES_MOST", 64))

    def test_a_part_has_the_chain_the_keys_and_the_evidence(self):
        audit = self.audit(signed.NSEC, RECORDS_MOST=24)
        for part in audit.parts:
            rrsets = Evidence(part.octets).rrsets
            there = {(each.owner, each.kind) for each in rrsets}
            wanted = {key for item in part.items for key in item.evidence} | {((b"example",), 48), ((), 48)}
            made = {(item.name, item.kind) for item in part.items if item.made}
            self.assertEqual(there, wanted | made)
            self.assertTrue(all(each.signatures for each in rrsets if (each.owner, each.kind) != ((), 48)))

    def test_a_torn_message_is_left_to_the_program(self):
        part, = self.audit(signed.NSEC, CHAIN[:-3]).parts
        self.assertEqual(frames_of(part.octets)[0][0], CHAIN[:-3])

    def test_one_that_has_no_room_has_its_part_nonetheless(self):
        """Which the program refuses, with the number of its limit."""
        audit = self.audit(signed.NSEC, RECORDS_MOST=2)
        self.assertEqual([len(part.items) for part in audit.parts], [1] * len(audit.items))


if __name__ == "__main__":
    unittest.main()
