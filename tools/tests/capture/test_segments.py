"""Tests of tools/capture: how the segments of TCP become messages."""
import struct
import time
import unittest
from unittest import mock

from dnssec_check_tools.capturing import messages, streams
from dnssec_check_tools.capturing.entries import InPacket
from dnssec_check_tools.capturing.messages import end_of_name
from dnssec_check_tools.capturing.packets import Segment, segment_of
from dnssec_check_tools.capturing.streams import Streams

from .build import CLIENT, SERVER, framed, message, record, tcp, udp
from .cases import ONE, QUERY, THREE, TWO, PacketCase

FOUR, FIVE = message(4, "four."), message(5, "five.")


class Segments(PacketCase):
    """Streams from 53 to the client that begin at 1000 with their SYN."""

    START = 1001

    def stream(self, *pieces, first=1000):
        """Segments of the pieces, each behind the other, behind the SYN."""
        segments, sequence = [tcp(b"", first, syn=True)], first + 1
        for piece in pieces:
            segments.append(tcp(piece, sequence % 2**32))
            sequence += len(piece)
        return segments

    def test_messages_are_joined_and_parted(self):
        octets = framed(ONE, TWO, THREE)
        for cut in range(0, len(octets) + 1, 7):
            self.takes_of(self.stream(octets[:cut], octets[cut:]), [ONE, TWO, THREE])
        self.takes_of(self.stream(*(octets[place:place + 1] for place in range(len(octets)))), [ONE, TWO, THREE])

    def test_segments_that_come_again_are_taken_once(self):
        a, b, c = self.stream(framed(ONE), framed(TWO))
        self.takes_of([a, a, b, a, b, c, b, c, a], [ONE, TWO])

    def test_segments_that_overlap_are_joined(self):
        octets = framed(ONE, TWO)
        pieces = [tcp(octets[:30], self.START), tcp(octets[10:40], self.START + 10), tcp(octets[20:], self.START + 20)]
        self.takes_of([tcp(b"", 1000, syn=True), *pieces], [ONE, TWO])

    def test_segments_out_of_order_are_put_in_order(self):
        a, b, c, d = self.stream(framed(ONE)[:20], framed(ONE)[20:] + framed(TWO)[:9], framed(TWO)[9:])
        for order in ([a, c, b, d], [a, d, c, b], [a, b, d, c], [a, d, b, d, c]):
            self.takes_of(order, [ONE, TWO])

    def test_the_longer_of_two_segments_that_wait_counts(self):
        a, b, c = self.stream(framed(ONE), framed(TWO, THREE))
        short = tcp(framed(TWO, THREE)[:9], self.START + len(framed(ONE)))
        self.takes_of([a, c, short, b], [ONE, TWO, THREE])
        self.takes_of([a, short, c, b], [ONE, TWO, THREE])

    def test_octets_beside_a_syn(self):
        self.takes_of([tcp(framed(ONE)[:5], 1000, syn=True), tcp(framed(ONE)[5:], 1006)], [ONE])

    def test_numbers_of_octets_begin_anew_at_0(self):
        octets = framed(ONE, TWO)
        for first in (2**32 - 1, 2**32 - 2, 2**32 - 30):
            segments = self.stream(octets[:10], octets[10:50], octets[50:], first=first)
            self.takes_of(segments, [ONE, TWO])
            self.takes_of([segments[0], *reversed(segments[1:])], [ONE, TWO])

    def test_a_stream_may_end_within_a_message(self):
        a, b, c = self.stream(framed(ONE), framed(TWO)[:20])
        self.takes_of([a, b, c], [ONE], "127.0.0.2 port 53 to 127.0.0.1 port 40000: it ends within a message")

    def test_octets_that_are_missing_are_told(self):
        told = "octets before its end aren't in the packet capture"
        a, b, c, d = self.stream(framed(ONE), framed(TWO)[:20], framed(TWO)[20:])
        self.takes_of([a, b, d], [ONE], told)
        self.takes_of([a, b, tcp(b"", self.START + len(framed(ONE, TWO)), fin=True)], [ONE], told)
        self.takes_of([a, b, c, d, tcp(b"", self.START + len(framed(ONE, TWO)), fin=True)], [ONE, TWO])

    def test_behind_a_gap_what_begins_with_a_segment_and_is_whole_is_kept(self):
        told = "octets before its end aren't in the packet capture"
        pieces = framed(ONE), framed(TWO)[:20], framed(TWO)[20:], framed(FOUR)[:9], framed(FOUR)[9:], framed(FIVE, ONE)
        segments = self.stream(*pieces)
        without_the_first_half = segments[:2] + segments[3:]
        self.takes_of(without_the_first_half, [ONE, FOUR, FIVE], "packet 6 of -: repeats", told)
        self.takes_of(segments[:2] + segments[5:], [ONE, FIVE], "packet 4 of -: repeats", told)
        self.takes_of(segments[:2] + segments[3:6], [ONE, FOUR], told)

    def test_behind_a_gap_a_message_may_begin_with_a_segment_that_overlaps_another(self):
        octets = framed(TWO, FOUR)
        end = len(framed(TWO))
        for cut in (end + 1, end + 9, len(octets)):
            pieces = [tcp(octets[9:cut], self.START + 9), tcp(octets[end:], self.START + end), udp(ONE)]
            for order in (pieces, pieces[::-1]):
                kept = [FOUR, ONE] if order is pieces else [ONE, FOUR]
                self.takes_of([tcp(b"", 1000, syn=True), *order], kept, "octets before its end aren't")
                self.takes_of(order, kept, "its beginning isn't in the packet capture")

    def test_behind_a_gap_many_segments_may_begin_within_messages(self):
        octets = framed(*(message(number, f"n{number}.", more=bytes(19000)) for number in range(150)))
        pieces = [octets[place:place + 1448] for place in range(0, len(octets), 1448)]
        segments = self.stream(framed(ONE), *pieces, framed(TWO), framed(FOUR))
        self.takes_of(segments[:2] + segments[3:], [ONE, TWO, FOUR], "octets before its end aren't")
        self.takes_of(segments[3:], [TWO, FOUR], "its beginning isn't in the packet capture")

    def test_what_is_read_in_vain_behind_gaps_has_an_end(self):
        """Each segment begins what would be a message of some 5,900 records but for its end. Were all of them read, a file
        of 8 MB would take a minute."""
        begin = b"\xff\xff" + struct.pack("!6H", 0, 0x8400, 0, 5957, 0, 0)
        piece = begin + record(65280, b"") * 130 + record(65280, bytes(5 + len(begin)))[:-len(begin)]
        pieces, read = [piece] * 100 + [framed(FOUR)], []
        with mock.patch.object(messages, "end_of_name", lambda *where: read.append(where) or end_of_name(*where)):
            for most, found in ((40_000, []), (1 << 20, [FOUR])):
                read.clear()
                with mock.patch.object(streams, "RECORDS_MOST", most):
                    told = self.streams_of(pieces)
                self.assertEqual([each.octets for each in told[:-1]], found)
                self.assertEqual(told[-1].why, "its beginning isn't in the packet capture")
                self.assertLess(len(read), most + 6000)
        self.assertGreater(len(read), 300_000)

    @staticmethod
    def streams_of(pieces):
        """What is found in segments with these octets, of which the first isn't there."""
        found, sequence = Streams("x"), 7
        for number, piece in enumerate(pieces, 1):
            found.take(Segment("a port 53", "b port 5", sequence, False, False, False, piece), InPacket(number, "x"))
            sequence += len(piece)
        return found.rest()

    def test_what_only_looks_like_a_message_behind_a_gap_is_dropped(self):
        told = "octets before its end aren't in the packet capture"
        longer = (len(TWO) + 1).to_bytes(2, "big") + TWO
        without_questions = message()[:4] + b"\xff\xff\0\1" + bytes(4) + record(1, b"")
        for octets in (longer, framed(without_questions), framed(TWO + b"\0"), framed(TWO[:-1]), framed(bytes(12)),
                       framed(TWO)[:-1], b"\0", b"\0\0", framed(TWO[:5] + b"\2" + TWO[6:]),
                       framed(TWO[:7] + b"\1" + TWO[8:])):
            self.takes_of([*self.stream(framed(ONE)), tcp(octets, self.START + 500)], [ONE], told)

    def test_of_a_stream_without_its_beginning_whole_messages_are_kept(self):
        a, b, c = self.stream(framed(ONE), framed(TWO))
        self.takes_of([b, c, udp(THREE)], [ONE, TWO, THREE])
        self.takes_of([c, b, udp(THREE)], [ONE, TWO, THREE])
        self.takes_of([b, udp(THREE), c], [ONE, THREE, TWO])
        self.takes_of([tcp(b"", 77), a, b], [ONE])
        end = tcp(b"", self.START + len(framed(ONE, TWO)), fin=True)
        self.takes_of([b, c, end], [ONE, TWO])
        for behind in (end, tcp(framed(FOUR), self.START + len(framed(ONE, TWO)))):
            kept = [ONE] if behind is end else [ONE, FOUR]
            self.takes_of([b, behind], kept, "octets before its end aren't in the packet capture")
        torn = tcp(framed(ONE)[9:], self.START + 9)
        self.takes_of([torn, c, udp(THREE)], [TWO, THREE], "its beginning isn't in the packet capture")

    def test_a_message_of_length_0_ends_a_stream(self):
        self.takes_of(self.stream(framed(ONE) + b"\x00\x00" + framed(TWO)), [ONE], "a message of length 0")

    def test_a_new_connection_of_the_same_ports_is_a_stream_of_its_own(self):
        first, second = self.stream(framed(ONE), framed(TWO)[:9]), self.stream(framed(THREE), first=900)
        self.takes_of(first + second, [ONE, THREE], "it ends within a message")
        self.takes_of(self.stream(framed(ONE)) + second, [ONE, THREE])

    def test_a_new_connection_may_begin_with_the_number_of_the_last(self):
        first, second = self.stream(framed(ONE)), self.stream(framed(TWO))
        end = tcp(b"", self.START + len(framed(ONE)), fin=True)
        self.takes_of(first + [end] + second, [ONE, TWO])
        self.takes_of(first + [end, first[1]] + second, [ONE, TWO])

    def test_what_comes_behind_the_gap_of_a_closed_and_reopened_stream_is_kept(self):
        for first in (5000, 2**31 + 5000, 500, 2**31 - 500, 2**32 - 5000):
            again = self.stream(framed(TWO), framed(FOUR), first=first)
            for end in ([], [tcp(b"", self.START + len(framed(ONE)), fin=True)]):
                told = ["octets before its end"] if first == 5000 else []
                self.takes_of(self.stream(framed(ONE)) + end + again[1:], [ONE, TWO, FOUR], *told)
                self.takes_of(self.stream(framed(ONE)) + end + again[2:], [ONE, FOUR], *told)

    def test_many_segments_behind_one_that_is_lost_take_no_time(self):
        many = [framed(message(number, f"n{number}.", more=bytes(1400))) for number in range(16000)]
        a, b, lost, *others = self.stream(framed(ONE), framed(TWO), *many)
        for order in (others, others[::-1]):
            streams, start = Streams("file"), time.process_time()
            segments = [segment_of(each[3], ("server", "client")) for each in (a, b, *order, lost)]
            found = [entry for each in segments for entry in streams.take(each, "packet")]
            self.assertLess(time.process_time() - start, 2)
            self.assertEqual([each.octets for each in found], [ONE, TWO, *(each[2:] for each in many)])

    def test_both_directions_and_other_connections_are_kept_apart(self):
        other = (CLIENT[0], 40001)
        server = (b"\x7f\x00\x00\x03", 53)
        begins = [tcp(b"", 1, server, syn=True), tcp(framed(THREE)[:9], 2, server), tcp(b"", 1000, syn=True),
                  tcp(b"", 500, CLIENT, SERVER, True), tcp(b"", 70, SERVER, other, True),
                  tcp(framed(THREE)[9:], 11, server)]
        packets = [tcp(framed(QUERY), 501, CLIENT, SERVER), tcp(framed(ONE)[:9], 1001),
                   tcp(framed(TWO), 71, SERVER, other), tcp(framed(ONE)[9:], 1010)]
        self.takes_of(begins + packets, [THREE, TWO, ONE], "dropped 1 query")
