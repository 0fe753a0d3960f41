"""Tests of tools/judge on files of which a capture is made: packets, text and JSON, packed or not."""
import gzip
import importlib.util
import struct
import tracemalloc
import unittest
from unittest import mock

from dnssec_check_tools.asking import captures
from dnssec_check_tools.capturing.frames import framed, frames_of
from dnssec_check_tools.capturing.packed import zstd_library
from dnssec_check_tools.capturing.sources import other_kind_of
from tool import DATA, run

from .helper import EXAMPLES, Judging, needs_dns

DIG, ATLAS, PACKETS = DATA / "dig", DATA / "atlas", DATA / "packets"


def has_protobuf():
    try:
        return importlib.util.find_spec("google.protobuf") is not None
    except ModuleNotFoundError:
        return False


@needs_dns
class Kinds(unittest.TestCase):
    def test_each_kind_gives_what_the_capture_tool_makes(self):
        others = [DIG / "kdig.txt", DIG / "drill.txt"] + ([DATA / "dnstap" / "child.tap"] if has_protobuf() else [])
        for path in (DIG / "dig.txt", DIG / "all.pcap", ATLAS / "results.json", DATA / "dnsviz" / "probe.json", *others):
            with mock.patch.object(captures, "tell") as told:
                self.assertEqual(captures.octets_of(str(path)), run("capture", path)[1], path.name)
            self.assertEqual(told.called, path.suffix == ".txt")

    @mock.patch.object(captures, "PORTS", {5300})
    def test_packets_of_either_form_packed_or_not(self):
        for name in ("links.pcapng", "loopback.pcap", *(["loopback.pcap.zst"] if zstd_library() else [])):
            made = captures.octets_of(str(PACKETS / name))
            self.assertEqual((made, len(made) > 500), (run("capture", "--port", "5300", PACKETS / name)[1], True), name)

    def test_what_is_packed(self):
        octets = (DIG / "all.pcap").read_bytes()
        self.assertEqual(other_kind_of(gzip.compress(octets)), "packed")
        self.assertEqual(captures.capture_of(gzip.compress(octets), "packed", "x"), captures.capture_of(octets, "pcap", "x"))
        capture = (EXAMPLES / "bind-www-a" / "capture").read_bytes()
        self.assertEqual(captures.capture_of(gzip.compress(capture), "packed", "x"), capture)

    def test_a_capture_is_none_of_another_kind_whole_or_torn(self):
        octets = (EXAMPLES / "bind-www-a" / "capture").read_bytes()
        for end in (*range(60), len(octets) - 1, len(octets)):
            self.assertIsNone(other_kind_of(octets[:end]))
        for text in (b"", b"\xff", b"ab", b"octets\n", b"0000"):
            self.assertIsNone(other_kind_of(text))
        magic = bytes.fromhex("d4c3b2a1")
        self.assertIsNone(other_kind_of(framed([bytes(0x1f8b)])))
        self.assertIsNone(other_kind_of(magic[:2] + magic[2:] + bytes(0xd4c3 - 2)))
        self.assertEqual(other_kind_of(magic + bytes(0xd4c3)), "pcap")

    def test_lists_in_hex(self):
        text = "# notes\n; more\n\n " + frames_of((EXAMPLES / "bind-www-a" / "capture").read_bytes())[0][0].hex(":")
        self.assertEqual(other_kind_of(text.encode()), "hex")

    def test_what_makes_no_capture(self):
        query = "00 01 01 00 00 01" + " 00" * 6 + " 00 00 01 00 01"
        for octets, kind, said in ((b'{"queries": 1}', "dnsviz", "x: no output of dnsviz probe"), (b"\xd4\xc3\xb2\xa1", "pcap", "no answer is in it"),
                                   (query.encode(), "hex", "no answer is in it"), (b"\x1f\x8b\x08", "packed", "")):
            with self.assertRaisesRegex(captures.Unmade, said):
                captures.capture_of(octets, kind, "x")

    def test_what_is_too_long(self):
        with mock.patch.object(captures, "OTHER_MOST", 100), self.assertRaisesRegex(captures.Unmade, "has more than 100 octets"):
            captures.octets_of(str(DIG / "all.pcap"))

    def test_what_is_too_long_once_it_is_unpacked(self):
        """A file of 10 kB may be one of 10 MB, which is refused as soon as it's that long."""
        octets = (DIG / "all.pcap").read_bytes()
        for most in (len(octets) - 1, 1000):
            with mock.patch.object(captures, "OTHER_MOST", most), \
                    self.assertRaisesRegex(captures.Unmade, f"x: unpacked it is longer than {most} octets"):
                captures.capture_of(gzip.compress(octets), "packed", "x")
        with mock.patch.object(captures, "OTHER_MOST", len(octets)):
            self.assertTrue(captures.capture_of(gzip.compress(octets), "packed", "x"))
        packed = gzip.compress(b"00" * 12 + b"\n" * 50_000_000)
        self.assertLess(len(packed), 60_000)
        self.assertLess(peak_of(packed, "packed"), 40_000_000)


START = bytes(4) + struct.pack(">I", 34) + b"\0\0\0\2\0\0\0\1" + struct.pack(">I", 22) + b"protobuf:dnstap.Dnstap"
PCAP = struct.pack("<IHHiIII", 0xA1B2C3D4, 2, 4, 0, 0, 65535, 101)
IP = b"\x45\0\0\x1c\0\0\0\0\x40{}\0\0" + bytes(8)
HEADER = b";; ->>HEADER<<- opcode: QUERY, status: NOERROR, id: 1\n"


def times(piece, octets=300_000):
    return piece * (octets // len(piece))


def packet(octets):
    return bytes(8) + struct.pack("<II", len(octets), len(octets)) + octets


def segments():
    """Of one octet each, with a gap behind each."""
    front = IP.replace(b"{}", b"\6") + struct.pack(">HH", 53, 54)
    return b"".join(packet(front + struct.pack(">II", 3 * number, 0) + b"\x50" + bytes(7) + b"a") for number in range(5000))


# What is made to be much for what it weighs, by the kind that it's known for.
HOSTILE = {
    "lines of an octet in hex": ("hex", b"00" * 12 + b"\n" + times(b"00\n")),
    "empty lines of hex": ("hex", b"00" * 12 + times(b"\n")),
    "answers of dig without a record": ("dig", times(HEADER)),
    "empty lines of dig": ("dig", HEADER + times(b"\n")),
    "results of RIPE Atlas without an answer": ("atlas", b'[{"prb_id":1}' + times(b",{}") + b"]"),
    "a probe of dnsviz without questions": ("dnsviz", b'{"a":{"queries":[' + times(b"{},") + b"{}]}}"),
    "datagrams without octets": ("pcap", PCAP + times(packet(IP.replace(b"{}", b"\x11") + struct.pack(">HHHH", 53, 53, 8, 0)))),
    "packets without octets": ("pcap", PCAP + times(packet(b""))),
    "segments with gaps": ("pcap", PCAP + segments()),
    "frames that are no dnstap": ("dnstap", START + times(b"\0\0\0\1a")),
    "a packed stream of messages of an octet": ("packed", gzip.compress(times(b"\0\1a"))),
}


def peak_of(octets, kind):
    """How many octets of memory are taken, where no capture is made."""
    tracemalloc.start()
    try:
        captures.capture_of(octets, kind, "x")
    except captures.Unmade:
        return tracemalloc.get_traced_memory()[1]
    finally:
        tracemalloc.stop()
    raise AssertionError("a capture is made")


@needs_dns
class Hostile(unittest.TestCase):
    def test_what_is_read_is_within_reason(self):
        """Some thirty times what the file has, which is 40 of them for the largest JSON."""
        for name, (kind, octets) in HOSTILE.items():
            with self.subTest(name):
                self.assertEqual(other_kind_of(octets), kind)
                peak_of(octets[:2000], kind)  # by which all is imported
                self.assertLess(peak_of(octets, kind) / 300_000, 40)

    def test_no_file_has_more_than_twice_what_a_capture_may_have(self):
        """So all of one in hex is read, and what is read takes at most some 300 MB."""
        self.assertEqual(captures.OTHER_MOST, 2 * captures.SIZE_MOST)


@needs_dns
class Words(Judging):
    def test_packets_are_judged(self):
        """From the standard input too."""
        path = DIG / "all.pcap"
        for words, given in (((path,), b""), ((path, "--jobs", "1"), b""), (("-",), path.read_bytes())):
            status, lines, errors = self.judge(*words, "--at", "1795839900", "--anchors", DIG / "test.ds", "www.hole.test/A", given=given)
            self.assertEqual((status, errors), (0, ""), lines)
            self.assertTrue(lines[0].startswith("www.hole.test. A: SecureAnswer, until "))

    def test_what_makes_no_capture_is_refused_and_the_others_are_judged(self):
        path = self.room / "x.json"
        path.write_text("{}")
        status, lines, errors = self.judge("--tsv", "--at", "1795839900", "--anchors", DIG / "test.ds", path, DIG / "all.pcap",
                                           "www.hole.test/A")
        self.assertEqual((status, errors, len(lines)), (7, "", 3))
        self.assertIn("\t7\trefused\tsaid no answer is in it; dnssec_check-capture says what else is\t", lines[1])
        self.assertIn("\t0\tSecureAnswer\t", lines[2])
        status, output, _ = self.judge("--records", path)
        self.assertEqual((status, output), (7, []))

    def test_records_of_what_dig_printed(self):
        status, lines, errors = self.judge("--records", DIG / "dig.txt")
        self.assertEqual((status, errors.count("written anew from text")), (0, 1))
        self.assertIn("message 1 record 1 (answer) RRset 1: test. 300 IN DNSKEY 256 3 13 ", lines[1])


if __name__ == "__main__":
    unittest.main()
