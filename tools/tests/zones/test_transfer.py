"""Tests of what is taken for a zone's transfer, and of what is read of its records."""
import struct
import unittest

from dnssec_check_tools.asking.faults import Refusal
from dnssec_check_tools.capturing.messages import records_of
from dnssec_check_tools.wire import header, name_octets, pointer, record
from dnssec_check_tools.zones.transfer import told_apart, transfer_of

A, NS, SOA, AXFR, CLASS_IN, CHAOS = 1, 2, 6, 252, 1, 3
APEX, WWW, OTHER = map(name_octets, ("example.", "www.example.", "other."))
SOA_RDATA = name_octets("ns.example.") + name_octets("host.example.") + struct.pack("!5I", 1, 2, 3, 4, 5)
BEGIN = record(APEX, SOA, SOA_RDATA)
ADDRESS = record(WWW, A, b"\xc0\x00\x02\x01")
QUERY, TRUNCATED = 0x0000, 0x8600


def message(*records, kind=None, name=APEX, flags=0x8400):
    """With a question where a type is told; all records are answers."""
    asked = b"" if kind is None else name + struct.pack("!2H", kind, CLASS_IN)
    counts = (0 if kind is None else 1, len(records), 0, 0)
    return header(7, counts, flags) + asked + b"".join(records)


WHOLE = message(BEGIN, ADDRESS, BEGIN, kind=AXFR)
KEYS = message(record(APEX, 48, b"\x01\x01\x03\x0dkey"), kind=48)


class Told(unittest.TestCase):
    """Which messages are a transfer's."""

    def test_one_among_others(self):
        found = transfer_of([KEYS, WHOLE, KEYS])
        self.assertEqual((found.apex, found.others, found.is_whole), ((b"example",), [KEYS], True))

    def test_only_the_first_needs_a_question(self):
        front, back = message(BEGIN, kind=AXFR), message(ADDRESS, BEGIN)
        for second in (back, message(ADDRESS, BEGIN, kind=AXFR)):
            self.assertEqual(told_apart([front, KEYS, second]), ([front, second], [KEYS]))
        early = message(ADDRESS)
        self.assertEqual(told_apart([early, WHOLE]), ([WHOLE], [early]))

    def test_queries_repeats_and_what_is_truncated_are_none(self):
        query, cut = message(kind=AXFR, flags=QUERY), message(BEGIN, kind=AXFR, flags=TRUNCATED)
        self.assertEqual(told_apart([query, cut, WHOLE, b"", WHOLE[:11]]), ([WHOLE], []))
        self.assertEqual(transfer_of([KEYS, WHOLE, KEYS, WHOLE])[2:], ([KEYS], True))

    def test_an_end_that_is_missing(self):
        for messages in ([message(BEGIN, ADDRESS, kind=AXFR)], [message(BEGIN, kind=AXFR)]):
            self.assertFalse(transfer_of(messages).is_whole)

    def test_others_are_refused(self):
        foreign = record(OTHER, SOA, SOA_RDATA)
        for messages, told in (([], "no transfer"), ([KEYS], "no transfer"), ([message(ADDRESS, kind=AXFR)], "no SOA"),
                               ([WHOLE, message(foreign, foreign, kind=AXFR)], "several zones"), ([WHOLE[:-3]], "can't be read"),
                               ([message(record(WWW, NS, b"\x03ww"), BEGIN, kind=AXFR)], "a record of www.example. that can't be read")):
            with self.subTest(told), self.assertRaisesRegex(Refusal, told):
                transfer_of(messages)


class Records(unittest.TestCase):
    def test_by_owner_and_type(self):
        """The SOA record once; letters of owners in lower case; other classes not at all."""
        upper, foreign = record(name_octets("WWW.Example."), A, b"\xc0\x00\x02\x02"), record(APEX, 16, b"\x01x", group=CHAOS)
        found = transfer_of([message(BEGIN, ADDRESS, upper, foreign, BEGIN, kind=AXFR)]).rrsets
        self.assertEqual({key: each.rdata for key, each in found.items()}, {
            ((b"example",), SOA): [SOA_RDATA], ((b"www", b"example"), A): [b"\xc0\x00\x02\x01", b"\xc0\x00\x02\x02"]})

    def test_pointers_are_written_out(self):
        """Of owners and of names in RDATA: a record is written into other messages."""
        place = 12  # of the question's name
        short = [record(pointer(place), NS, b"\x02ns" + pointer(place)), record(b"\x03www" + pointer(place), A, b"\xc0\x00\x02\x01")]
        found = transfer_of([message(record(pointer(place), SOA, SOA_RDATA), *short, BEGIN, kind=AXFR)]).rrsets
        self.assertEqual(found[(b"example",), NS].records, [record(APEX, NS, name_octets("ns.example."))])
        self.assertEqual(found[(b"www", b"example"), A].records, [ADDRESS])

    def test_signatures_are_with_what_they_cover(self):
        rdata = struct.pack("!HBBIIIH", A, 13, 2, 3600, 2, 1, 99) + APEX + b"signature"
        found = transfer_of([message(BEGIN, record(WWW, 46, rdata), ADDRESS, BEGIN, kind=AXFR)]).rrsets
        self.assertEqual(found[(b"www", b"example"), A].signatures, [record(WWW, 46, rdata)])
        self.assertEqual(found[(b"www", b"example"), A].size(), 2)
        self.assertEqual(len(list(records_of(WHOLE))), 3)


if __name__ == "__main__":
    unittest.main()
