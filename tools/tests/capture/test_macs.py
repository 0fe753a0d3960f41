"""Tests of tools/capture --macs: which MAC stands in the line of an answer."""
import pathlib
import re
import tempfile
import unittest

from tool import DATA, PROGRAM, run, run_program

from . import build
from .build import CLIENT, SERVER, ethernet, framed, ipv4, message, pcap, signed, tcp, udp

QUERY_FLAGS = 0x0100
MAC, OTHER_MAC, ANSWER_MAC = (bytes([octet]) * 32 for octet in b"\x0a\x0b\x0c")
ANSWER = signed(ANSWER_MAC)


def query(mac=MAC, **parts):
    return signed(mac, flags=QUERY_FLAGS, **parts)


def dropped_in(errors):
    """How many messages were dropped: queries are counted in one line."""
    queries = re.search(r": dropped (\d+) quer", errors)
    return errors.count("dropped") + (int(queries[1]) - 1 if queries else 0)


class Room(unittest.TestCase):
    """A folder for what the tool writes."""

    def setUp(self):
        room = tempfile.TemporaryDirectory()
        self.addCleanup(room.cleanup)
        self.capture, self.macs = (pathlib.Path(room.name) / name for name in ("capture", "macs"))

    def run_capture(self, *words, given=b""):
        status, output, errors = run("capture", *words, "--output", self.capture, "--macs", self.macs, given=given)
        self.assertEqual(output, b"")
        return status, errors


class Real(Room):
    """What dig asked BIND with `dig -k`, as tcpdump and socat kept it; dig told the MACs of its requests (+qr)."""

    moment = 1795450288

    def check(self, *words):
        """What the program ends with and says first of the capture, with the key that dig and BIND share."""
        anchors = self.capture.with_name("anchors")
        anchors.write_text("")
        words = ("check", "--capture", self.capture, "--anchors", anchors, "--name", "www.example.test.", "--type", "1",
                 "--keys", DATA / "signed.keys", "--macs", self.macs, *words)
        status, output, errors = run_program(PROGRAM, *words)
        return status, (output.decode() + errors).splitlines()[0]

    def test_the_macs_are_those_that_dig_told(self):
        packets = "--pcap", DATA / "signed.pcap", "--port", "5391"
        streams = "--stream", DATA / "signed.client", "--stream", DATA / "signed.server"
        for words, told in ((packets, "signed.macs"), (streams, "signed.stream.macs")):
            status, errors = self.run_capture(*words)
            self.assertEqual((status, self.macs.read_text()), (0, (DATA / told).read_text()), errors)

    @unittest.skipUnless(PROGRAM.exists(), "needs the built program")
    def test_the_program_opens_the_answers_by_them(self):
        self.run_capture("--pcap", DATA / "signed.pcap", "--port", "5391")
        at_moment = "--moment", self.moment
        self.assertEqual(self.check(*at_moment), (6, "Indeterminate www.example.test. 1"))
        self.assertEqual(self.check("--moment", self.moment + 3600), (7, "refused 314 message 1"))
        lines = self.macs.read_text().splitlines(keepends=True)
        self.macs.write_text("".join([lines[0], lines[2], lines[1], *lines[3:]]))
        self.assertEqual(self.check(*at_moment), (7, "refused 313 message 2"))


class Case(Room):
    def gives(self, messages, *lines, dropped=0):
        """Of a stream of these the answers are kept, so many of them dropped, and the lines are these."""
        self.gives_of("--stream", framed(*messages), lines, dropped + sum(not each[2] & 0x80 for each in messages))

    def gives_of_packets(self, packets, *lines, dropped):
        self.gives_of("--pcap", pcap([ethernet(ipv4(each)) for each in packets]), lines, dropped)

    def gives_of(self, kind, given, lines, dropped):
        status, errors = self.run_capture(kind, "-", given=given)
        self.assertEqual((status, dropped_in(errors)), (0, dropped), errors)
        self.assertEqual(self.macs.read_text(), "".join(line + "\n" for line in lines))


class Requests(Case):
    def test_a_request_that_was_not_signed_has_no_mac(self):
        self.gives([message(flags=QUERY_FLAGS), message()], "-")
        self.gives([message(flags=QUERY_FLAGS), ANSWER], "-")

    def test_each_answer_has_the_mac_of_its_request(self):
        requests = query(), query(OTHER_MAC, identifier=2), message(3, flags=QUERY_FLAGS)
        answers = message(3), signed(ANSWER_MAC, 2), ANSWER
        self.gives([*requests, *answers], "-", OTHER_MAC.hex(), MAC.hex())

    def test_the_questions_have_to_be_the_same(self):
        requests = query(name="one."), query(OTHER_MAC, name="two.")
        self.gives([*requests, signed(ANSWER_MAC, name="two."), signed(ANSWER_MAC, name="one.")],
                   OTHER_MAC.hex(), MAC.hex())
        self.gives([query(name="WWW.example."), ANSWER], MAC.hex())
        of_type_28 = ANSWER.replace(b"\x00\x00\x01\x00\x01", b"\x00\x00\x1c\x00\x01", 1)
        self.gives([query(), signed(ANSWER_MAC, name="one."), of_type_28, ANSWER], MAC.hex(), dropped=2)

    def test_the_last_request_before_the_answer_counts(self):
        self.gives([query(), query(OTHER_MAC), ANSWER], OTHER_MAC.hex())
        self.gives([query(), ANSWER, query(OTHER_MAC)], MAC.hex())
        self.gives([query(), ANSWER, query(OTHER_MAC), signed(MAC)], MAC.hex(), OTHER_MAC.hex())

    def test_an_answer_without_its_request_is_dropped(self):
        status, errors = self.run_capture("--hex", "-", given=ANSWER.hex().encode())
        self.assertEqual((status, self.capture.exists(), self.macs.exists()), (1, False, False))
        self.assertIn("line 1 of -: its request isn't among the messages before it: www.example. A", errors)
        self.gives([ANSWER, query(), signed(MAC)], MAC.hex(), dropped=1)

    def test_a_forwarder_may_change_the_identifier(self):
        self.gives([query(identifier=7), signed(ANSWER_MAC, 9, original=7)], MAC.hex())
        self.gives([query(identifier=9, original=7), signed(ANSWER_MAC, 9)], MAC.hex())
        self.gives([query(identifier=9, original=7), signed(ANSWER_MAC, 7)], MAC.hex())

    def test_types_are_compared_as_numbers(self):
        def of_type(octets, kind):
            return octets.replace(b"\x00\x01\x00\x01", bytes([0, kind, 0, 1]), 1)

        requests = of_type(query(), 65), of_type(query(OTHER_MAC), 97)
        self.gives([*requests, of_type(ANSWER, 65), of_type(ANSWER, 97)], MAC.hex(), OTHER_MAC.hex())
        self.gives([of_type(query(), 65), of_type(query(name="WWW.EXAMPLE."), 65), of_type(ANSWER, 65)], MAC.hex())

    def test_the_last_request_counts_whatever_identifier_its_record_tells(self):
        for original in (1, 7, 9):
            requests = query(), query(OTHER_MAC, original=original)
            for answer in (ANSWER, signed(ANSWER_MAC, original=5), message()):
                self.gives([*requests, answer], OTHER_MAC.hex())
        self.gives([query(identifier=7), query(OTHER_MAC, identifier=5, original=7), signed(ANSWER_MAC, 9, original=7)],
                   OTHER_MAC.hex())

    def test_the_last_of_the_requests_that_only_records_tell_counts(self):
        requests = query(identifier=5, original=9), query(OTHER_MAC, identifier=7)
        self.gives([*requests, signed(ANSWER_MAC, 9, original=7)], OTHER_MAC.hex())
        self.gives([*reversed(requests), signed(ANSWER_MAC, 9, original=7)], MAC.hex())

    def test_either_identifier_of_the_one_may_be_either_of_the_other(self):
        self.gives([query(identifier=7, original=5), signed(ANSWER_MAC, 9, original=7)], MAC.hex())
        self.gives([query(identifier=5, original=9), signed(ANSWER_MAC, 9, original=7)], MAC.hex())
        self.gives([query(identifier=7, original=8), query(identifier=9, original=3), signed(ANSWER_MAC, 5, original=4),
                    signed(ANSWER_MAC, 3, original=4)], MAC.hex(), dropped=1)

    def test_the_identifier_of_the_message_goes_before_that_of_its_record(self):
        for original in (7, 9):
            requests = query(identifier=9), query(OTHER_MAC, identifier=5, original=original)
            self.gives([*requests, signed(ANSWER_MAC, 9, original=original)], MAC.hex())

    def test_what_stands_before_the_record_is_passed_over(self):
        more = build.record(41, b"\x00\x0a\x00\x02\xff\xff") + build.record(16, bytes(70), b"\xc0\x0c")
        request = bytearray(message(flags=QUERY_FLAGS, more=more + build.tsig(MAC, 1), additional=3))
        self.gives([request, ANSWER], MAC.hex())
        request[7:12:2] = b"\x01\x01\x01"
        self.gives([request, ANSWER], MAC.hex())

    def test_the_algorithm_may_have_another_name(self):
        more = build.tsig(MAC, 1, "gss-tsig.")
        self.gives([message(flags=QUERY_FLAGS, more=more, additional=1), ANSWER], MAC.hex())

    def test_a_record_that_is_not_the_last_or_not_whole_has_no_mac(self):
        behind = message(flags=QUERY_FLAGS, more=build.tsig(MAC, 1) + build.record(41, b""), additional=2)
        self.gives([behind, ANSWER], "-")
        of_type_249 = query().replace(b"\x00\xfa\x00\xff", b"\x00\xf9\x00\xff")
        self.gives([of_type_249, ANSWER], "-")
        for end in range(1, len(build.tsig(MAC, 1)) - 4):
            self.gives([message(flags=QUERY_FLAGS, more=build.tsig(MAC, 1)[:end], additional=1), ANSWER], "-")

    def test_a_mac_of_another_size_is_refused(self):
        for size in (1, 16, 31, 33, 64):
            status, errors = self.run_capture("--stream", "-", given=framed(query(bytes(size)), ANSWER))
            self.assertEqual((status, self.capture.exists(), self.macs.exists()), (1, False, False))
            self.assertIn(f"message 2 of -: the MAC of its request has {size} octets", errors)
        truncated = signed(ANSWER_MAC, flags=0x8600)
        self.gives([query(bytes(64)), truncated, query(), ANSWER], MAC.hex(), dropped=1)


class Connections(Case):
    def test_datagrams_answer_those_of_the_same_addresses_and_ports(self):
        other = CLIENT[0], 40001
        far = b"\x7f\x00\x00\x03", SERVER[1]
        requests = [udp(query(), CLIENT, SERVER), udp(query(OTHER_MAC), other, SERVER)]
        answers = [udp(ANSWER, SERVER, other), udp(signed(MAC), SERVER, CLIENT), udp(signed(OTHER_MAC), far, CLIENT)]
        self.gives_of_packets(requests + answers, OTHER_MAC.hex(), MAC.hex(), dropped=3)

    def test_streams_answer_those_of_the_same_connection(self):
        begins = [tcp(b"", 500, CLIENT, SERVER, True), tcp(b"", 1000, SERVER, CLIENT, True)]
        request, answer = framed(query(OTHER_MAC)), framed(ANSWER)
        packets = [udp(query(), CLIENT, SERVER), tcp(request[:9], 501, CLIENT, SERVER),
                   tcp(request[9:], 510, CLIENT, SERVER), tcp(answer, 1001), udp(signed(MAC))]
        self.gives_of_packets(begins + packets, OTHER_MAC.hex(), MAC.hex(), dropped=2)

    def test_what_stands_behind_gaps_is_in_the_order_of_its_packets(self):
        first, last = framed(query()), framed(query(OTHER_MAC))
        asked = [tcp(first, 501, CLIENT, SERVER), tcp(last, 501 + len(first), CLIENT, SERVER)]
        answers = [tcp(framed(ANSWER), 1001), tcp(framed(signed(MAC)), 1001 + len(framed(ANSWER)))]
        to, back = (tcp(b"", 500, CLIENT, SERVER, True), 0), (tcp(b"", 1000, syn=True), 0)
        gap_to, gap_back = (tcp(b"", 400, CLIENT, SERVER, True), 1), (tcp(b"", 900, syn=True), 1)
        for begins in ((), (to,), (back,), (to, back), (gap_to, back), (to, gap_back), (gap_to, gap_back)):
            packets = [packet for packet, _ in begins] + [asked[0], answers[0], asked[1], answers[1]]
            self.gives_of_packets(packets, MAC.hex(), OTHER_MAC.hex(), dropped=2 + sum(gap for _, gap in begins))
        earlier = tcp(framed(message(9)), 1001 - len(framed(message(9))))
        self.gives_of_packets([earlier, asked[0], answers[0]], MAC.hex(), dropped=2)

    def test_a_list_in_hex_is_one_connection(self):
        lines = "\n".join(each.hex() for each in (query(), ANSWER))
        self.gives_of("--hex", lines.encode(), [MAC.hex()], 1)


class CommandLine(Room):
    def test_the_macs_may_go_to_the_standard_output(self):
        words = "capture", "--stream", "-", "--macs", "-"
        status, output, _ = run(*words, "--output", self.capture, given=framed(query(), ANSWER))
        self.assertEqual((status, output), (0, MAC.hex().encode() + b"\n"))
        self.assertEqual(run(*words, given=framed(query(), ANSWER))[:2], (2, b""))

    def test_a_file_that_cannot_be_written(self):
        words = "capture", "--stream", "-", "--macs", "/dev/full"
        self.assertEqual(run(*words, given=framed(query(), ANSWER))[0], 1)

    def test_help(self):
        output = run("capture", "--help")[1]
        for word in (b"--macs", b"MAC of the request", b"RFC 8945"):
            self.assertIn(word, output)
