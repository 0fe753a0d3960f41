"""Tests of tools/capture on packets that tcpdump, tshark, editcap and mergecap wrote; data/packets/README tells how."""
import os
import pathlib
import re
import shutil
import subprocess
import tempfile
import unittest
from unittest import mock

from tool import DATA, TOOLS, run, run_program

from .build import CLIENT, SERVER, ethernet, framed, ipv4, pcap, tcp, udp
from .cases import ONE, QUERY, THREE, TWO

PACKETS = DATA / "packets"
GAP, CUT = "aren't in the packet capture", "it was cut when it was captured"


def messages_of(name):
    """Those that tshark found, a line each."""
    return [bytes.fromhex(line) for line in (PACKETS / name).read_text().splitlines()]


LOOPBACK, COOKED = messages_of("loopback.hex"), messages_of("cooked.hex")
STREAM = (PACKETS / "fragments.stream").read_bytes()
FIRST, LAST = STREAM[:207], STREAM[-179:]
# A file, the port, what is kept of it, and what is told besides the queries.
FILES = (
    ("loopback.pcap", 5300, framed(*LOOPBACK), []),
    ("cooked.pcapng", 5300, framed(*COOKED), []),
    ("nanoseconds.pcap", 5300, framed(LOOPBACK[0]), []),
    ("links.pcapng", 5300, framed(*LOOPBACK, *COOKED), ["packet 39 of FILE: its link type 9 isn't known", "packet 40"]),
    ("lost.pcap", 5300, framed(*LOOPBACK[:2], *LOOPBACK[3:]), [GAP]),
    ("cut.pcapng", 5300, framed(LOOPBACK[4]), [CUT] * 4 + [GAP] * 2),
    ("fragments.pcap", 53, FIRST + LAST, ["packet 4 of FILE: a fragment of IP; --tshark joins", "packet 9 of FILE: a",
                                          "packets of FILE: 6 of later fragments of IP (--tshark)"]),
    ("vxlan.pcap", 53, FIRST, ["packets of FILE: 16 of VXLAN (--tshark), 2 of ARP, 1 of ICMPv6"]),
)


class Files(unittest.TestCase):
    def check(self, kind, path, port, wanted, told):
        status, output, errors = run("capture", kind, path, "--port", port)
        self.assertEqual((status, output), (0, wanted), errors)
        lines = [line for line in errors.splitlines() if not re.search(r": dropped \d+ quer", line) and "capture: note:" not in line]
        self.assertEqual(len(lines), len(told) + 1, errors)
        for line, text in zip(lines, told):
            self.assertIn(text.replace("FILE", str(path)), line)


class Own(Files):
    def test_each_file_gives_what_tshark_finds_in_it(self):
        for name, port, wanted, told in FILES:
            with self.subTest(name):
                self.check("--pcap", PACKETS / name, port, wanted, told)

    def test_a_file_that_tcpdump_did_not_finish(self):
        file = (PACKETS / "loopback.pcap").read_bytes()
        with tempfile.TemporaryDirectory() as room:
            torn = pathlib.Path(room) / "torn"
            torn.write_bytes(file[:-100])
            told = [f"what is behind packet 24 of {torn}: the file ends within packet 25"]
            self.check("--pcap", torn, 5300, framed(*LOOPBACK), told)


@unittest.skipUnless(shutil.which("tshark"), "needs tshark")
class ByTshark(Files):
    def test_files_that_both_ways_read_give_the_same(self):
        for name in ("loopback.pcap", "cooked.pcapng", "nanoseconds.pcap", "links.pcapng"):
            with self.subTest(name):
                wanted = run("capture", "--pcap", PACKETS / name, "--port", 5300)[1]
                self.check("--tshark", PACKETS / name, 5300, wanted, [])

    def test_fragments_are_joined(self):
        self.check("--tshark", PACKETS / "fragments.pcap", 53, STREAM, ["repeats packet 7"])

    def test_a_pipe_may_be_named_by_its_number(self):
        given = pcap([ethernet(ipv4(udp(ONE)))])
        reader, writer = os.pipe()
        self.addCleanup(os.close, reader)
        os.set_inheritable(reader, True)
        with open(writer, "wb") as file:
            file.write(given)
        self.assertEqual(run("capture", "--tshark", f"/dev/fd/{reader}")[:2], (0, framed(ONE)))
        done = run_program(TOOLS / "capture", "--tshark", "/dev/stdin", given=given)
        self.assertEqual(done[:2], (0, framed(ONE)), done[2])

    def test_what_is_encapsulated_is_found(self):
        self.check("--tshark", PACKETS / "vxlan.pcap", 53, FIRST + LAST, ["packet 14 of FILE: repeats packet 8"])
        inner = ipv4(udp(ONE))
        size = (2 + len(inner)).to_bytes(2, "big")
        frames = {"MPLS": bytes(12) + b"\x88\x47\x00\x01\x01\x40" + inner,
                  "PPPoE": bytes(12) + b"\x88\x64\x11\x00\x00\x01" + size + b"\x00\x21" + inner,
                  "GRE": ethernet(ipv4((47, SERVER, CLIENT, b"\x00\x00\x08\x00" + inner)))}
        for name, frame in frames.items():
            with self.subTest(name):
                status, output, errors = run("capture", "--tshark", "-", given=pcap([frame]))
                self.assertEqual((status, output), (0, framed(ONE)), errors)

    def test_what_icmp_quotes_is_no_answer(self):
        unreachable = ethernet(ipv4((1, CLIENT, SERVER, b"\x03\x03" + bytes(6) + ipv4(udp(TWO)))))
        done = run("capture", "--tshark", "-", given=pcap([unreachable, ethernet(ipv4(udp(ONE)))]))
        self.assertEqual(done[:2], (0, framed(ONE)), done[2])

    def test_segments_are_joined_and_parted(self):
        octets = framed(QUERY, ONE, THREE, TWO)
        segments = tcp(b"", 1000, syn=True), tcp(octets[:50], 1001), tcp(octets[70:], 1071), tcp(octets[50:70], 1051)
        given = pcap([ethernet(ipv4(each)) for each in segments])
        self.assertEqual(run("capture", "--tshark", "-", given=given)[1], framed(ONE, THREE, TWO))
        self.assertEqual(run("capture", "--pcap", "-", given=given)[1], framed(ONE, THREE, TWO))

    def test_what_is_not_there_whole_is_told(self):
        self.check("--tshark", PACKETS / "lost.pcap", 5300, framed(*LOOPBACK[:2]), ["the TCP stream at packet 20"])
        status, _, errors = run("capture", "--tshark", PACKETS / "cut.pcapng", "--port", 5300)
        self.assertEqual((status, errors.count(CUT)), (1, 4))
        given = (PACKETS / "loopback.pcap").read_bytes()[:-100]
        status, output, errors = run("capture", "--tshark", "-", "--port", 5300, given=given)
        self.assertEqual((status, output), (0, framed(*LOOPBACK)))
        self.assertIn("dropped the end of -: tshark: ", errors)

    def test_the_macs_of_requests(self):
        with tempfile.TemporaryDirectory() as room:
            macs = pathlib.Path(room) / "macs"
            done = run("capture", "--tshark", DATA / "signed.pcap", "--port", 5391, "--macs", macs)
            self.assertEqual((done[0], macs.read_text()), (0, (DATA / "signed.macs").read_text()), done[2])

    def test_what_tshark_can_not_read_is_refused(self):
        for path in (DATA / "no-such-file", DATA / "todo"):
            status, output, errors = run("capture", "--tshark", path)
            self.assertEqual((status, output, errors.count("\n")), (1, b"", 1), errors)
            self.assertIn(f"refused: {path}: tshark: ", errors)

    def test_what_a_terminal_would_obey_is_escaped(self):
        errors = run("capture", "--tshark", DATA / "no\x1b[2J")[2]
        self.assertTrue(errors.removesuffix("\n").isprintable(), errors)
        self.assertEqual(errors.count("no\\x1b[2J"), 2, errors)

    def test_other_ports_are_told(self):
        status, _, errors = run("capture", "--tshark", PACKETS / "loopback.pcap")
        self.assertEqual(status, 1)
        self.assertIn(f"dropped {PACKETS / 'loopback.pcap'}: tshark finds no message of DNS at 53 (--port)", errors)


class WithoutTshark(unittest.TestCase):
    def test_tshark_that_is_not_there_is_named(self):
        with mock.patch.dict(os.environ, PATH="/nowhere"):
            done = run("capture", "--tshark", PACKETS / "loopback.pcap")
        self.assertEqual(done, (1, b"", "capture: refused: tshark isn't installed (Debian: tshark)\n"))

    def test_what_is_no_output_of_tshark_is_refused(self):
        texts = b"", b"[", b"7", b"[7]", b'[{"_source": 7}]', b'[{"_source": {"layers": 7}}]', b"[" * 100000, \
            b'[{"_source": {"layers": {"frame": "x"}}}]', b'[{"_source": {"layers": {"udp": {"udp.srcport": "a"}}}}]'
        for text in texts:
            done = subprocess.CompletedProcess([], 0, text, b"")
            with mock.patch("subprocess.run", return_value=done), self.subTest(text[:60]):
                status, output, errors = run("capture", "--tshark", "file")
                self.assertEqual((status, output, errors.count("\n")), (1, b"", 1))
                self.assertIn("refused: file: tshark: what it prints is no JSON of packets", errors)
