"""Tests of tools/capture: a packet capture that was changed at random gives messages or a refusal, and no traceback."""
import random
import unittest
from unittest import mock

from dnssec_check_tools.capturing.answers import Answers, macs_of
from dnssec_check_tools.capturing.entries import Refusal, of_messages
from dnssec_check_tools.capturing.messages import TYPE_DNSKEY, TYPE_DS, TYPE_RRSIG
from dnssec_check_tools.capturing.notes import notes_of
from dnssec_check_tools.capturing.sources import entries_of_pcap
from dnssec_check_tools.capturing.splitting import Parts
from tool import DATA, load

from . import build
from .build import CLIENT, CLIENT_6, SERVER, SERVER_6, ethernet, framed, ipv4, ipv6, message, pcap, signed, tcp, udp

MUTATIONS = 10000
RECORDS = b"".join(build.record(kind, bytes(18) + b"\x03www\xc0\x0c", b"\xc0\x0c")
                   for kind in (TYPE_RRSIG, TYPE_DNSKEY, TYPE_DS))
ANSWER = message(2, more=RECORDS, additional=3)
PACKETS = [
    ethernet(ipv4(udp(signed(bytes(32), flags=0x0100), CLIENT, SERVER))), ethernet(ipv4(udp(signed(bytes(32))))),
    ethernet(ipv4(udp(ANSWER)), b"\x81\x00\x00\x07"),
    ethernet(ipv6(udp(ANSWER, SERVER_6, CLIENT_6), [(0, bytes(7)), (44, b"\x00\x00\x01" + bytes(4))])),
    *(ethernet(ipv4(each)) for each in (tcp(b"", 1000, syn=True), tcp(framed(ANSWER)[:50], 1001),
                                        tcp(framed(ANSWER)[50:], 1051), tcp(framed(message(3)), 1900, fin=True)))]
CAPTURES = [
    pcap(PACKETS[:4]), pcap(PACKETS[4:], order=">"), (DATA / "packets" / "cooked.pcapng").read_bytes(),
    build.section() + build.interface(1) + b"".join(build.enhanced(0, packet) for packet in PACKETS[:4])
    + build.section(">") + build.interface(1, ">") + b"".join(build.old(0, packet, ">") for packet in PACKETS[4:])]



def changed(octets, chance):
    """Some octets set, taken out or doubled, and the end cut off at times."""
    octets = bytearray(octets)
    for _ in range(chance.choice((1, 2, 5, 30))):
        place, size = chance.randrange(len(octets)), chance.choice((1, 1, 2, 4, 40))
        value = chance.choice((b"", b"\x00", b"\xff", chance.randbytes(1), bytes(octets[place:place + 2])))
        octets[place:place + size] = value * size
    return bytes(octets[:chance.randrange(len(octets))] if chance.random() < 0.1 else octets)


class Mutations(unittest.TestCase):
    def make(self, octets):
        """All that the tool does with a packet capture but for the writing; how many answers it has."""
        answers = Answers(True, lambda _: None)
        try:
            entries = entries_of_pcap(octets, "file", {53, 5300})
            entries = of_messages(entries)
            answers.take_all(entries, macs_of(entries))
        except Refusal:
            return 0
        messages = [answer for answer, _ in answers.kept]
        for text in notes_of(messages, answers.truncated):
            self.assertTrue(text)
        self.assertEqual({octets for _, part, _ in Parts(messages).captures() for octets in part}, set(messages))
        return len(messages)

    def test_captures_that_were_changed_at_random(self):
        chance, with_answers = random.Random(36), 0
        with mock.patch.object(load("capture"), "tell", len):
            for number in range(MUTATIONS):
                octets = changed(chance.choice(CAPTURES), chance)
                with self.subTest(number=number):
                    with_answers += self.make(octets) > 0
        self.assertGreater(with_answers, MUTATIONS // 10)
