"""Tests of tools/capture on frame streams of dnstap; data/dnstap has how they were made."""
import sys
import unittest
from unittest import mock

from dnssec_check_tools.capturing import dnstap
from dnssec_check_tools.capturing.dnstap import entries_of_dnstap, is_dnstap
from dnssec_check_tools.capturing.entries import Message, Omission, Refusal
from dnssec_check_tools.capturing.packets import Datagram, Segment
from judge.helper import needs
from tool import DATA, run

TAPS = DATA / "dnstap"


def entries_of(octets):
    return list(entries_of_dnstap(octets, "x"))


@needs("google.protobuf", "protobuf")
class Taps(unittest.TestCase):
    def test_it_gives_what_the_packets_have(self):
        taps = [TAPS / "parent.tap", TAPS / "child.tap"]
        status, output, errors = run("capture", *taps)
        self.assertEqual((status, output), run("capture", TAPS / "all.pcap")[:2])
        self.assertEqual(output, run("capture", "--dnstap", taps[0], "--dnstap", taps[1])[1])
        self.assertIn("dropped 4 queries\n", errors)

    def test_the_connection_is_told(self):
        for name, last, server in (("parent", Datagram, "127.0.77.2"), ("child", Segment, "127.0.77.3")):
            entries = entries_of((TAPS / f"{name}.tap").read_bytes())
            self.assertEqual([each.connection[0] for each in entries], [Datagram, Datagram, last, last])
            self.assertTrue(all((server, 53) in each.connection[1] for each in entries))
            self.assertEqual([each.place for each in entries], [f"frame {number} of x" for number in range(1, 5)])

    def test_a_stream_that_is_torn(self):
        octets = (TAPS / "parent.tap").read_bytes()
        whole = entries_of(octets)
        for end in range(len(octets) - 12, len(octets)):
            self.assertEqual(entries_of(octets[:end])[:4], whole)
        for end in range(60, len(octets), 7):
            entries = entries_of(octets[:end])
            self.assertTrue(all(isinstance(each, Message) for each in entries[:-1]))
            self.assertIn(entries[-1], [Omission("the end of x", "the frame stream is torn"), *whole])

    def test_what_is_behind_the_end_is_not_read(self):
        octets = (TAPS / "parent.tap").read_bytes()
        self.assertEqual(entries_of(octets + b"\x00\x00\x00\x01\xff"), entries_of(octets))

    def test_a_frame_that_is_no_dnstap_is_told(self):
        octets = (TAPS / "parent.tap").read_bytes()
        for frame in (b"\xff", b"\x0c", b"\x72\x01\x14"):  # the last ones end a group that didn't begin
            entry, *_ = entries_of(octets[:42] + b"\x00\x00\x00" + bytes([len(frame)]) + frame + octets[42:])
            self.assertEqual(entry, Omission("frame 1 of x", "it is no dnstap"))

    def test_what_is_no_frame_stream_of_dnstap(self):
        octets = (TAPS / "parent.tap").read_bytes()
        for other in (b"", octets[1:], octets.replace(b"dnstap.Dnstap", b"other.Others"), octets[:11] + b"\x03" + octets[12:]):
            self.assertFalse(is_dnstap(other))
            with self.assertRaisesRegex(Refusal, "x: no frame stream of dnstap"):
                entries_of(other)

    def test_addresses(self):
        self.assertEqual(dnstap.address_text(bytes(15) + b"\x01"), "::1")
        self.assertEqual(dnstap.address_text(b"\x01\x02"), "0102")


class Lacking(unittest.TestCase):
    def test_without_the_library_it_says_what_it_needs(self):
        dnstap.reader.cache_clear()
        with mock.patch.dict(sys.modules, {"google.protobuf": None}):
            status, output, errors = run("capture", TAPS / "parent.tap")
        self.assertEqual((status, output), (1, b""))
        self.assertIn("refused: dnstap needs the Python package protobuf, which ", errors)


if __name__ == "__main__":
    unittest.main()
