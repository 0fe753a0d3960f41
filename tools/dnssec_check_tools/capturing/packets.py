"""What packets carry over UDP and TCP: of Ethernet, Linux cooked, loopback and raw IP, with the standard library."""
import ipaddress
from typing import NamedTuple, Set, Tuple, Union

from .octets import number_at
from .pcap import Packet

ETHERNET, COOKED, COOKED_2, LOOPBACK, RAW_IP = 1, 113, 276, (0, 108), (12, 14, 101, 228, 229)
VLAN_TAGS, IPV4, IPV6 = (0x8100, 0x88A8, 0x9100), 0x0800, 0x86DD
TCP, UDP, FIN, SYN, RST = 6, 17, 1, 2, 4
HOP_BY_HOP, ROUTING, FRAGMENT, DESTINATION = 0, 43, 44, 60
PLACES_OF_ETHERTYPE = {ETHERNET: 12, COOKED: 14, COOKED_2: 0}
FRONTS = {ETHERNET: 14, COOKED: 16, COOKED_2: 20}

BY_TSHARK = " (--tshark)"
ETHERTYPES = {
    0x0806: "ARP",
    0x8847: "MPLS" + BY_TSHARK,
    0x8848: "MPLS" + BY_TSHARK,
    0x8863: "PPPoE" + BY_TSHARK,
    0x8864: "PPPoE" + BY_TSHARK,
    0x88E5: "MACsec",
}
PROTOCOLS = {
    1: "ICMP",
    2: "IGMP",
    4: "IP in IP" + BY_TSHARK,
    41: "IPv6 in IP" + BY_TSHARK,
    47: "GRE" + BY_TSHARK,
    50: "ESP",
    51: "AH" + BY_TSHARK,
    58: "ICMPv6",
    132: "SCTP",
}
TUNNELS = {4789: "VXLAN" + BY_TSHARK, 8472: "VXLAN" + BY_TSHARK, 6081: "Geneve" + BY_TSHARK}


class IpPacket(NamedTuple):
    source: bytes
    target: bytes
    protocol: int
    octets: bytes
    is_fragment: bool


class Datagram(NamedTuple):
    source: str
    target: str
    octets: bytes


class Segment(NamedTuple):
    source: str
    target: str
    sequence: int
    is_syn: bool
    is_fin: bool
    is_reset: bool
    octets: bytes


class BadPacket(Exception):
    """What a packet carries isn't there whole."""


class Other(Exception):
    """A packet carries something else, which its text names."""


def ip_octets(packet: Packet) -> bytes:
    """The IP packet in a link's frame."""
    octets, link = packet.octets, packet.link
    if link in RAW_IP:
        return octets
    if link in LOOPBACK:
        return octets[4:]
    if link is None:
        raise BadPacket("the file doesn't describe its interface")
    if link not in FRONTS:
        raise BadPacket(f"its link type {link} isn't known; --tshark knows more")
    kind, front = number_at(octets, PLACES_OF_ETHERTYPE[link], 2), FRONTS[link]
    while kind in VLAN_TAGS:
        kind, front = number_at(octets, front + 2, 2), front + 4
    if kind not in (IPV4, IPV6):
        raise Other(ETHERTYPES.get(kind, f"Ethernet type {kind:04x}" if kind >= 0x0600 else "IEEE 802.3"))
    return octets[front:]


def ipv4_packet(octets: bytes) -> IpPacket:
    """RFC 791 3.1; a total length of 0 is left by segmentation in the network card: all that is there is the packet."""
    front, end = number_at(octets, 0, 1) % 16 * 4, number_at(octets, 2, 2) or len(octets)
    fragment, protocol = number_at(octets, 6, 2), number_at(octets, 9, 1)
    if fragment & 0x1FFF:
        raise Other("later fragments of IP" + BY_TSHARK)
    if front < 20:
        raise BadPacket("its IP header is too short")
    return IpPacket(octets[12:16], octets[16:20], protocol, octets[front:end], bool(fragment & 0x2000))


def ipv6_packet(octets: bytes) -> IpPacket:
    """RFC 8200 3 and 4, with the extension headers that may stand before UDP and TCP; a length of 0 as for IPv4."""
    length = number_at(octets, 4, 2)
    place, end = 40, 40 + length if length else len(octets)
    protocol, fragment = number_at(octets, 6, 1), 0
    while protocol in (HOP_BY_HOP, ROUTING, FRAGMENT, DESTINATION):
        size = 8
        if protocol == FRAGMENT:
            fragment |= number_at(octets, place + 2, 2)
            if fragment & 0xFFF8:
                raise Other("later fragments of IP" + BY_TSHARK)
        else:
            size = 8 * (1 + number_at(octets, place + 1, 1))
        protocol, place = number_at(octets, place, 1), place + size
    return IpPacket(octets[8:24], octets[24:40], protocol, octets[place:end], bool(fragment & 1))


def ip_packet(octets: bytes) -> IpPacket:
    version = number_at(octets, 0, 1) // 16
    if version == 4:
        return ipv4_packet(octets)
    if version == 6:
        return ipv6_packet(octets)
    raise Other(f"IP version {version}")


def end_text(address: bytes, port: int) -> str:
    return f"{ipaddress.ip_address(address)} port {port}"


def datagram_of(octets: bytes, ends: Tuple[str, str]) -> Datagram:
    """RFC 768; a length of 0 is left by segmentation too (RFC 2675 4)."""
    size = number_at(octets, 4, 2) or len(octets)
    if size > len(octets):
        raise BadPacket("its datagram isn't whole")
    return Datagram(*ends, octets[8:size])


def segment_of(octets: bytes, ends: Tuple[str, str]) -> Segment:
    """RFC 9293 3.1."""
    front, flags = number_at(octets, 12, 1) // 16 * 4, number_at(octets, 13, 1)
    if front < 20:
        raise BadPacket("its TCP header is too short")
    is_syn, is_fin, is_reset = (bool(flags & bit) for bit in (SYN, FIN, RST))
    return Segment(*ends, number_at(octets, 4, 4), is_syn, is_fin, is_reset, octets[front:])


def payload_of(packet: Packet, ports: Set[int]) -> Union[Datagram, Segment]:
    """The datagram or the segment that a packet carries from or to one of the ports."""
    ip = ip_packet(ip_octets(packet))
    if ip.protocol not in (TCP, UDP):
        raise Other(PROTOCOLS.get(ip.protocol, f"IP protocol {ip.protocol}"))
    source, target = number_at(ip.octets, 0, 2), number_at(ip.octets, 2, 2)
    if not {source, target} & ports:
        tunnel = TUNNELS.get(target) if ip.protocol == UDP else None
        raise Other(tunnel or f"other ports than {', '.join(map(str, sorted(ports)))} (--port)")
    if ip.is_fragment:
        raise BadPacket("a fragment of IP; --tshark joins fragments")
    if not packet.is_whole:
        raise BadPacket("it was cut when it was captured")
    ends = end_text(ip.source, source), end_text(ip.target, target)
    return datagram_of(ip.octets, ends) if ip.protocol == UDP else segment_of(ip.octets, ends)
