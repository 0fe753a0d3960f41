"""Tests of tools/capture: what is taken of streams and of lists in hex, and its command line."""
import gzip
import pathlib
import tempfile
import unittest
from unittest import mock

from dnssec_check_tools.capturing.packed import zstd_library
from test_command import interrupted, with_closed_pipe
from tool import DATA, TOOLS, run, run_program

from . import build
from .build import ethernet, framed, ipv4, message, pcap, udp
from .cases import ONE, QUERY, THREE, TWO, Case


class Selection(Case):
    def test_answers_are_kept_as_they_are(self):
        self.takes(framed(ONE, TWO, THREE), [ONE, TWO, THREE])

    def test_queries_are_dropped(self):
        self.takes(framed(QUERY, ONE, QUERY), [ONE], "dropped 2 queries")
        self.takes(framed(QUERY, ONE), [ONE], "dropped 1 query")

    def test_responses_that_answer_no_question_are_dropped(self):
        for opcode in range(1, 16):
            for flags in (0x8000, 0x8400, 0x8600):
                told = f"message 1 of -: a response of opcode {opcode}, which answers no question: www.example. A"
                self.takes(framed(message(flags=flags | opcode << 11), ONE), [ONE], told)

    def test_truncated_answers_are_dropped(self):
        self.takes(framed(message(flags=0x8600), ONE), [ONE], "message 1 of -: truncated: www.example. A")

    def test_repeats_are_dropped_whatever_their_identifier(self):
        told = "message 3 of -: repeats message 1 of -: one. A"
        self.takes(framed(ONE, TWO, b"\xff\xff" + ONE[2:]), [ONE, TWO], told)
        self.takes(framed(ONE, message(1, "ONE.")), [ONE, message(1, "ONE.")])
        self.takes(framed(ONE, message(1, "one.", flags=0x8500)), [ONE, message(1, "one.", flags=0x8500)])

    def test_a_truncated_answer_is_no_earlier_message(self):
        short = message(1, "one.", flags=0x8600)
        self.takes(framed(short, short, ONE), [ONE], "truncated", "truncated")

    def test_what_is_too_short_is_dropped(self):
        self.takes(framed(b"\x00\x01\x80", ONE), [ONE], "message 1 of -: too short for a message")

    def test_what_is_too_long_is_dropped(self):
        longest = message(more=bytes(65535 - len(message())))
        lines = "\n".join(each.hex() for each in (longest + b"\x00", QUERY[:12] + bytes(65524), longest, ONE))
        told = "line 1 of -: too long for a message", "line 2 of -: too long for a message"
        self.takes(lines.encode(), [longest, ONE], *told, kind="--hex")

    def test_a_message_without_a_question_is_told_too(self):
        for octets in (message(flags=0x8600)[:12], message(flags=0x8600)[:15]):
            self.takes(framed(octets, ONE), [ONE], "truncated: no question")

    def test_names_are_told_as_the_program_writes_them(self):
        odd = message(flags=0x8600)[:12] + b"\x05a.\\ \xff\x00\x00\x01\x00\x01"
        self.takes(framed(odd, ONE), [ONE], "truncated: a\\.\\\\\\032\\255. A")

    def test_64_messages_are_kept_and_the_next_is_refused_by_name(self):
        many = [message(number, f"n{number}.") for number in range(64)]
        self.takes(framed(*many, many[5], QUERY), many, "repeats message 6", "1 query")
        self.refuses(framed(*many, ONE), "message 65 of - is message 65", "identifier 0001, one. A")
        self.refuses(framed(QUERY, *many, ONE), "message 66 of - is message 65", "one. A")

    def test_no_answer_is_refused(self):
        self.refuses(b"", "no answer was left\n")
        self.refuses(framed(QUERY), "1 query", "no answer was left")

    def test_files_come_in_the_order_of_the_command_line(self):
        with tempfile.TemporaryDirectory() as room:
            stream, lines, result = (pathlib.Path(room) / name for name in ("stream", "lines", "result"))
            stream.write_bytes(framed(ONE))
            lines.write_text(TWO.hex())
            self.assertEqual(run("capture", "--hex", lines, "--stream", stream)[1], framed(TWO, ONE))
            self.assertEqual(run("capture", "--stream", stream, "--hex", lines)[1], framed(ONE, TWO))
            self.assertEqual(run("capture", "--stream", stream, "--output", result)[:2], (0, b""))
            self.assertEqual(result.read_bytes(), framed(ONE))

    def test_nothing_is_written_where_something_is_refused(self):
        with tempfile.TemporaryDirectory() as room:
            result = pathlib.Path(room) / "result"
            self.assertEqual(run("capture", "--stream", "-", "--output", result, given=framed(ONE) + b"\x00")[0], 1)
            self.assertFalse(result.exists())


class Streams(Case):
    def test_a_stream_that_ends_within_a_message_is_refused(self):
        for end in range(1, len(framed(TWO))):
            self.refuses(framed(ONE) + framed(TWO)[:end], f"within the message at octet {len(framed(ONE))}")

    def test_a_message_of_length_0_is_refused(self):
        self.refuses(framed(ONE) + b"\x00\x00" + framed(TWO), f"length 0 at octet {len(framed(ONE))}")


class Hex(Case):
    def test_a_message_a_line(self):
        text = f"# a note\n; another\n\n {ONE.hex()}\n{TWO.hex().upper()}\r\n{THREE.hex(':')}\n{QUERY.hex(' ')}"
        self.takes(text.encode(), [ONE, TWO, THREE], "dropped 1 query", kind="--hex")

    def test_a_line_that_is_not_hex_is_refused(self):
        for line in ("0", "0g", "é", ONE.hex() + ".", "0 1"):
            self.refuses(f"{ONE.hex()}\n{line}\n".encode(), "line 2 of -: no message in hex", kind="--hex")


class CommandLine(Case):
    def test_help(self):
        status, output, _ = run("capture", "--help")
        self.assertEqual(status, 0)
        for word in (b"--stream", b"--pcap", b"--hex", b"--port", b"--output", b"--tshark", b"--dnsviz", b"--split",
                     b"65th", b"exit status"):
            self.assertIn(word, output)

    def test_a_wrong_command_line(self):
        for words in ([], ["--pca", "x"], ["--hex"], ["--hex", "-", "-"], ["--", "-", "-"], ["-x"]):
            self.assertEqual(run("capture", *words)[:2], (2, b""))

    def test_a_port_is_a_number_from_1_to_65535(self):
        for text in ("0", "65536", "-1", "a", "", "5_3", "\u0663", " 53"):
            self.assertEqual(run("capture", "--hex", "-", f"--port={text}", given=ONE.hex().encode())[:2], (2, b""))
        for text in ("1", "65535"):
            self.assertEqual(run("capture", "--hex", "-", "--port", text, given=ONE.hex().encode())[0], 0)

    def test_the_program_itself(self):
        done = run_program(TOOLS / "capture", "--stream", "-", given=framed(QUERY, ONE))
        self.assertEqual(done[:2], (0, framed(ONE)))
        self.assertIn("capture: dropped 1 query\n", done[2])
        self.assertEqual(run_program(TOOLS / "capture", "--stream", "-")[0], 1)

    def test_a_write_that_fails(self):
        with open("/dev/full", "wb") as full:
            status, errors = run_program(TOOLS / "capture", "--stream", "-", given=framed(ONE), output=full)[::2]
        self.assertEqual((status, errors.count("refused:"), errors.count("Traceback")), (1, 1, 0))
        self.assertEqual(run("capture", "--stream", "-", "--output", "/dev/full", given=framed(ONE))[0], 1)

    def test_an_empty_name_is_that_of_no_file(self):
        for option in ("--output", "--macs", "--split", "--stream"):
            status, _, errors = run("capture", "--stream", "-", option, "", given=framed(QUERY, message()))
            self.assertEqual((status, errors.count("refused: [Errno 2]")), (1, 1), errors)
        self.assertEqual(run("capture", "--stream", "-", "--split", "", "--macs", "", given=framed(ONE))[:2], (2, b""))

    def test_a_pipe_that_is_closed(self):
        with tempfile.TemporaryDirectory() as room:
            path, result = DATA / "dnsviz" / "probe.json", pathlib.Path(room) / "result"
            status, errors = with_closed_pipe("stdout", TOOLS / "capture", path)
            self.assertEqual((status, errors.count("refused:"), errors.count("\n")), (1, 1, 2))
            self.assertEqual(with_closed_pipe("stderr", TOOLS / "capture", path, "--output", result), (0, ""))
            self.assertTrue(result.exists())

    def test_an_interrupt(self):
        for words in ([], ["--pcap"], ["--hex"]):
            self.assertEqual(interrupted(TOOLS / "capture", *words), (130, b"", "capture: interrupted\n"))

    def test_a_file_that_is_not_there(self):
        for words in (["--stream"], ["--pcap"], ["--hex"], ["--dnsviz"], []):
            status, output, errors = run("capture", *words, DATA / "no-such-file")
            self.assertEqual((status, output, errors.count("\n")), (1, b"", 1))
            self.assertIn("no-such-file", errors)
        self.assertEqual(run("capture", DATA)[::2], (1, f"capture: refused: [Errno 21] Is a directory: '{DATA}'\n"))


class Names(Case):
    """What files may be named for what."""

    def setUp(self):
        room = tempfile.TemporaryDirectory()
        self.addCleanup(room.cleanup)
        self.room = pathlib.Path(room.name)
        self.input = self.room / "input"
        self.input.write_bytes(framed(ONE))

    def test_a_file_that_is_named_alone_is_of_the_kind_that_its_octets_tell(self):
        front = build.section() + build.interface(1)
        packet = ethernet(ipv4(udp(ONE)))
        given = [pcap([packet], order=order, magic=magic) for order in "<>" for magic in (0xA1B2C3D4, 0xA1B23C4D)]
        given += [front + build.enhanced(0, packet), ONE.hex().encode(), b"# \xe9\n" + ONE.hex(":").encode(),
                  framed(ONE), gzip.compress(pcap([packet])), gzip.compress(framed(ONE))]
        self.input.write_bytes(framed(THREE))
        self.assertEqual(run("capture", self.input)[:2], (0, framed(THREE)))
        for octets in given:
            self.input.write_bytes(octets)
            self.assertEqual(run("capture", self.input)[:2], (0, framed(ONE)))
            self.assertEqual(run("capture", "-", given=octets)[:2], (0, framed(ONE)))

    def test_files_named_alone_stand_in_the_order_of_the_command_line(self):
        other = self.room / "other"
        other.write_text(TWO.hex())
        for words in ([self.input, "--hex", other], ["--stream", self.input, other], [self.input, f"--hex={other}"],
                      [self.input, "--port", "53", other], ["--port", "53", "--", self.input, other]):
            self.assertEqual(run("capture", *words)[:2], (0, framed(ONE, TWO)))
        self.assertEqual(run("capture", other, "--stream", self.input)[:2], (0, framed(TWO, ONE)))

    def test_what_is_read_is_not_written(self):
        link, hard = self.room / "link", self.room / "hard"
        link.symlink_to(self.input)
        hard.hardlink_to(self.input)
        for path in (self.input, link, hard, f"{self.room}/./input"):
            for option in ("--output", "--macs"):
                status, output, errors = run("capture", "--stream", self.input, option, path)
                self.assertEqual((status, output, self.input.read_bytes()), (2, b"", framed(ONE)))
                self.assertIn(f"{path} is read, and would be written", errors)
        self.assertEqual(run("capture", self.input, "--output", self.room / "new")[0], 0)

    def test_a_file_is_not_written_twice(self):
        path = self.room / "new"
        for other in (path, f"{self.room}/./new"):
            status, output, _ = run("capture", self.input, "--output", path, "--macs", other)
            self.assertEqual((status, output, path.exists()), (2, b"", False))


class Packed(Case):
    def test_what_gzip_packed_is_unpacked(self):
        file = pcap([ethernet(ipv4(udp(each))) for each in (ONE, TWO)])
        self.takes(gzip.compress(file), [ONE, TWO], kind="--pcap")
        self.takes(gzip.compress(file[:60]) + gzip.compress(file[60:]), [ONE, TWO], kind="--pcap")
        self.takes(gzip.compress(ONE.hex().encode()), [ONE], kind="--hex")
        for count in (1, 1024, 10240):
            self.takes(gzip.compress(file[:60]) + bytes(count) + gzip.compress(file[60:]) + bytes(count), [ONE, TWO],
                       kind="--pcap")

    def test_what_is_packed_and_torn_gives_what_is_there(self):
        file = pcap([ethernet(ipv4(udp(each))) for each in (ONE, TWO)])
        stored = gzip.compress(file, 0)
        told = "the end of -: it is packed, and torn"
        self.takes(stored[:-20], [ONE], "what is behind packet 1 of -", told, kind="--pcap")
        self.takes(stored[:-4], [ONE, TWO], told, kind="--pcap")

    def test_what_is_packed_and_spoilt_is_refused(self):
        packed = bytearray(gzip.compress(pcap([ethernet(ipv4(udp(ONE)))])))
        packed[-6] ^= 1
        self.refuses(bytes(packed), "-: it can't be unpacked", kind="--pcap")
        self.refuses(packed[:10] + b"\x07" * 20, "-: it can't be unpacked", kind="--pcap")

    def test_more_than_the_program_reads_is_not_unpacked(self):
        with mock.patch("dnssec_check_tools.capturing.packed.UNPACKED_MOST", 1000):
            self.refuses(gzip.compress(bytes(1001)), "-: unpacked it is longer than 1000 octets", kind="--pcap")

    def test_zstd_is_named_where_python_has_no_library_for_it(self):
        octets = (DATA / "packets" / "loopback.pcap.zst").read_bytes()
        with mock.patch("importlib.import_module", side_effect=ImportError):
            self.refuses(octets, "-: zstd: use zstdcat", kind="--pcap")

    @unittest.skipUnless(zstd_library(), "needs Python 3.14 or the package zstandard")
    def test_what_zstd_packed_is_unpacked(self):
        octets = (DATA / "packets" / "loopback.pcap.zst").read_bytes()
        wanted = run("capture", "--port", "5300", DATA / "packets" / "loopback.pcap")[1]
        self.assertEqual(run("capture", "--port", "5300", "-", given=octets)[:2], (0, wanted))
        self.assertEqual(run("capture", "--port", "5300", "-", given=octets + octets)[:2], (0, wanted))
        status, output, errors = run("capture", "--port", "5300", "-", given=octets[:-20])
        self.assertIn("the end of -: it is packed, and torn", errors)
        self.refuses(octets[:4] + b"\xff" * 200, "-: it can't be unpacked", kind="--pcap")
