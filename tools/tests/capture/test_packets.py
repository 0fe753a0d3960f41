"""Tests of tools/capture: what is taken of packets, and what is told of the others."""
import unittest

from . import build
from .build import CLIENT, CLIENT_6, SERVER, SERVER_6, ethernet, framed, ipv4, ipv6, pcap, tcp, udp
from .cases import ONE, QUERY, THREE, TWO, PacketCase


class Packets(PacketCase):
    def test_datagrams_of_other_ports_are_passed_over(self):
        other = udp(TWO, (SERVER[0], 5353))
        passed = "passed over packets of -: 1 of other ports than"
        self.takes_of([udp(ONE), other, udp(QUERY, CLIENT, SERVER)], [ONE], "dropped 1 query", passed + " 53")
        self.takes(pcap([ethernet(ipv4(udp(ONE))), ethernet(ipv4(other))]), [TWO], passed + " 5353",
                   words=("--port", "5353"))
        self.takes(pcap([ethernet(ipv4(udp(ONE))), ethernet(ipv4(other))]), [ONE, TWO],
                   words=("--port", "5353", "--port", "53"))
        self.refuses(pcap([ethernet(ipv4(udp(ONE)))]), "1 of other ports than 77, 5300 (--port)", "no answer was left",
                     words=("--port", "5300", "--port", "77"))

    def test_what_is_passed_over_is_counted_and_named(self):
        inner = ipv4(udp(TWO))
        by_type = {0x0806: "ARP", 0x8847: "MPLS (--tshark)", 0x8848: "MPLS (--tshark)", 0x8864: "PPPoE (--tshark)",
                   0x1234: "Ethernet type 1234", 0x0100: "IEEE 802.3"}
        by_protocol = {1: "ICMP", 4: "IP in IP (--tshark)", 41: "IPv6 in IP (--tshark)", 47: "GRE (--tshark)",
                       200: "IP protocol 200"}
        frames = [(bytes(12) + kind.to_bytes(2, "big") + inner, name) for kind, name in by_type.items()]
        frames += [(ethernet(ipv4((kind, SERVER, CLIENT, inner))), name) for kind, name in by_protocol.items()]
        frames += [(ethernet(ipv4(udp(inner, CLIENT, (SERVER[0], 4789)))), "VXLAN (--tshark)"),
                   (ethernet(ipv4(tcp(inner, 1, CLIENT, (SERVER[0], 4789)))), "other ports than 53 (--port)"),
                   (ethernet(b"\x50" + inner[1:]), "IP version 5")]
        for frame, name in frames:
            self.takes(pcap([frame, ethernet(ipv4(udp(ONE))), frame]), [ONE], f"passed over packets of -: 2 of {name}")
        self.refuses(pcap([frames[1][0], frames[9][0], frames[1][0]]),
                     "passed over packets of -: 2 of MPLS (--tshark), 1 of GRE (--tshark)\n", "no answer was left\n")

    def test_each_kind_of_file(self):
        frame = ethernet(ipv4(udp(ONE)))
        for order in "<>":
            for magic in (0xA1B2C3D4, 0xA1B23C4D):
                self.takes(pcap([frame], order=order, magic=magic), [ONE])
            front = build.section(order) + build.interface(1, order)
            self.takes(front + build.enhanced(0, frame, order), [ONE])
            self.takes(front + build.simple(frame, order), [ONE])
            self.takes(front + build.old(0, frame, order), [ONE])
            unknown = build.block(0x0BAD, b"12345", order)
            self.takes(front + unknown + build.enhanced(0, frame, order) + unknown, [ONE])

    def test_each_packet_has_the_link_of_its_interface(self):
        front = build.section() + build.interface(1) + build.interface(101)
        first, second = build.enhanced(1, ipv4(udp(ONE))), build.enhanced(0, ethernet(ipv4(udp(TWO))))
        again = build.section(">") + build.interface(101, ">") + build.enhanced(0, ipv4(udp(THREE)), ">")
        self.takes(front + first + second + again, [ONE, TWO, THREE])

    def test_each_kind_of_link(self):
        ip, six = ipv4(udp(ONE)), ipv6(udp(ONE, SERVER_6, CLIENT_6))
        for link, front in ((1, bytes(12)), (113, bytes(14))):
            self.takes(pcap([front + b"\x08\x00" + ip], link), [ONE])
            self.takes(pcap([front + b"\x86\xdd" + six], link), [ONE])
            self.takes(pcap([front + b"\x81\x00\x00\x07\x08\x00" + ip], link), [ONE])
        self.takes(pcap([b"\x08\x00" + bytes(18) + ip, b"\x86\xdd" + bytes(18) + six], 276), [ONE], "repeats")
        self.takes(pcap([b"\x81\x00" + bytes(18) + b"\x00\x07\x86\xdd" + six], 276), [ONE])
        self.takes(pcap([ethernet(ip, b"\x81\x00\x00\x07"), ethernet(six, b"\x88\xa8\x00\x01\x81\x00\x00\x07")]),
                   [ONE], "repeats")
        for link, front in ((0, b"\x02\x00\x00\x00"), (108, b"\x00\x00\x00\x02"), (101, b""), (12, b"")):
            self.takes(pcap([front + ip], link), [ONE])

    def test_a_packet_of_an_unknown_link_is_dropped(self):
        self.refuses(pcap([ipv4(udp(ONE))], 147), "packet 1 of -: its link type 147 isn't known", "no answer was left")
        front = build.section() + build.interface(147) + build.interface(101)
        packets = [build.enhanced(number, ipv4(udp(octets))) for number, octets in ((0, TWO), (1, ONE))]
        self.takes(front + b"".join(packets), [ONE], "packet 1 of -: its link type 147 isn't known")

    def test_options_padding_and_extension_headers(self):
        self.takes(pcap([ethernet(ipv4(udp(ONE), options=bytes(8), behind=bytes(6)))]), [ONE])
        headers = [(0, bytes(7)), (43, b"\x01" + b"\x99" * 14), (60, bytes(7)), (44, bytes(7))]
        self.takes(pcap([ethernet(ipv6(udp(ONE, SERVER_6, CLIENT_6), headers))]), [ONE])

    def test_what_stands_behind_a_packet_or_a_datagram_is_no_part_of_it(self):
        begin, end = tcp(framed(ONE)[:9], 1001), tcp(framed(ONE)[9:], 1010)
        packets = [ipv4(tcp(b"", 1000, syn=True)), ipv4(begin, behind=bytes(6)), ipv4(end, behind=bytes(6))]
        self.takes(pcap([ethernet(each) for each in packets]), [ONE])
        ends = SERVER_6, CLIENT_6
        packets = [ipv6(tcp(b"", 1000, *ends, True)), ipv6(tcp(framed(TWO), 1001, *ends))]
        self.takes(pcap([ethernet(each) + bytes(6) for each in packets]), [TWO])
        protocol, source, target, octets = udp(ONE)
        self.takes(pcap([ethernet(ipv4((protocol, source, target, octets + bytes(6))))]), [ONE])

    def test_fragments_are_dropped(self):
        first, later = ipv4(udp(ONE), fragment=0x2000), ipv4(udp(ONE), fragment=0x0001)
        six = ipv6(udp(ONE, SERVER_6, CLIENT_6), [(44, b"\x00\x00\x01\x00\x00\x00\x00")])
        six_later = ipv6(udp(ONE, SERVER_6, CLIENT_6), [(44, b"\x00\x00\x08\x00\x00\x00\x00")])
        packets = [ethernet(each) for each in (first, later, six, six_later, ipv4(udp(TWO), fragment=0x4000))]
        self.takes(pcap(packets), [TWO], "packet 1 of -: a fragment of IP", "packet 3 of -: a fragment of IP",
                   "passed over packets of -: 2 of later fragments of IP (--tshark)")

    def test_what_a_fragment_carries_is_read_as_no_header(self):
        ends, later = (SERVER_6, CLIENT_6), (44, b"\x00\x00\x08\x00\x00\x00\x00")
        looks_whole = ipv6(udp(TWO, *ends), [later, (60, bytes(7)), (44, bytes(7))])
        looks_torn = ipv6((60, *ends, b"\x3c\xff" + bytes(6)), [later])
        self.takes(pcap([ethernet(each) for each in (looks_whole, looks_torn, ipv4(udp(ONE)))]), [ONE],
                   "passed over packets of -: 2 of later fragments of IP (--tshark)")
        first = ipv6(udp(TWO, *ends), [(44, b"\x00\x00\x01\x00\x00\x00\x00"), (44, bytes(7))])
        self.takes(pcap([ethernet(first), ethernet(ipv4(udp(ONE)))]), [ONE], "packet 1 of -: a fragment of IP")

    def test_a_length_of_0_is_that_of_what_is_there(self):
        for ip in (ipv4(udp(ONE)), ipv6(udp(ONE, SERVER_6, CLIENT_6))):
            place = 2 if ip[0] >> 4 == 4 else 4
            self.takes(pcap([ethernet(ip[:place] + b"\x00\x00" + ip[place + 2:])]), [ONE])
        protocol, source, target, octets = udp(ONE)
        self.takes(pcap([ethernet(ipv4((protocol, source, target, octets[:4] + b"\x00\x00" + octets[6:])))]), [ONE])
        long = protocol, source, target, octets[:4] + b"\xff\xff" + octets[6:]
        self.takes_of([long, udp(TWO)], [TWO], "packet 1 of -: its datagram isn't whole")

    def test_a_packet_that_was_cut_is_dropped(self):
        front = build.section() + build.interface(1)
        cut, whole = ethernet(ipv4(udp(THREE)))[:96], ethernet(ipv4(udp(ONE)))
        file = front + build.enhanced(0, cut, sent=800) + build.enhanced(0, whole)
        self.takes(file, [ONE], "packet 1 of -: it was cut")
        file = front + build.enhanced(0, whole[:30], sent=len(whole)) + build.enhanced(0, whole)
        self.takes(file, [ONE], "packet 1 of -: it ends too early")
        self.refuses(pcap([whole], lost=1), "packet 1 of -: it was cut")

    def test_a_packet_that_was_cut_to_the_limit_of_its_interface_is_dropped(self):
        whole = ethernet(ipv4(udp(ONE)))
        for order in "<>":
            for lost in range(1, 9):
                limit = len(whole) - lost
                front = build.section(order) + build.interface(1, order, limit)
                cut = build.simple(whole[:limit], order, len(whole))
                self.refuses(front + cut, "packet 1 of -: it was cut", "no answer was left")
            for limit in (0, len(whole), 262144):
                front = build.section(order) + build.interface(1, order, limit)
                self.takes(front + build.simple(whole, order), [ONE])

    def test_headers_that_are_too_short(self):
        frame, whole = bytearray(ethernet(ipv4(udp(TWO)))), ethernet(ipv4(udp(ONE)))
        frame[14] = 0x44
        self.takes(pcap([frame, whole]), [ONE], "packet 1 of -: its IP header is too short")
        frame = bytearray(ethernet(ipv4(tcp(framed(TWO), 1001))))
        frame[14 + 20 + 12] = 0x40
        self.takes(pcap([frame, whole]), [ONE], "packet 1 of -: its TCP header is too short")

    def test_a_packet_of_an_unknown_interface_is_dropped(self):
        frame, whole = ethernet(ipv4(udp(TWO))), build.enhanced(0, ethernet(ipv4(udp(ONE))))
        front, told = build.section() + build.interface(1), "of -: the file doesn't describe its interface"
        for packet in (build.enhanced(1, frame), build.old(1, frame)):
            self.takes(front + packet + whole, [ONE], "packet 1 " + told)
        none = build.section()
        self.takes(front + whole + none + build.simple(frame), [ONE], "packet 2 " + told)
        self.takes(front + whole + none + build.block(6, b"\0" * 8, "<"), [ONE], "packet 2 " + told)

    def test_of_a_file_that_is_torn_the_packets_before_are_taken(self):
        one, two = ethernet(ipv4(udp(ONE))), ethernet(ipv4(udp(TWO)))
        file = pcap([one, two])
        for end in range(len(pcap([one])) + 1, len(file)):
            self.takes(file[:end], [ONE], "what is behind packet 1 of -: the file ends within packet 2")
        front = build.section() + build.interface(1) + build.enhanced(0, one)
        file = front + build.enhanced(0, two)
        for end in range(len(front) + 1, len(file)):
            self.takes(file[:end], [ONE], "what is behind packet 1 of -: the file ends within a block")
        self.takes(front + bytes(8), [ONE], "what is behind packet 1 of -: a block of 0 octets")
        self.refuses(pcap([one])[:23], "the file ends within its header", "no answer was left")

    def test_another_file_is_refused(self):
        for octets in (b"", b"\xa1", framed(ONE)):
            self.refuses(octets, "-: it is neither a pcap nor a pcapng")
