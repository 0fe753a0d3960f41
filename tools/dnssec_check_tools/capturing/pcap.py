"""The packets of a pcap and a pcapng (draft-ietf-opsawg-pcap, draft-ietf-opsawg-pcapng)."""
from typing import Iterator, List, Literal, NamedTuple, Optional, Tuple

PCAP_MAGICS, PCAPNG_MAGIC = (0xA1B2C3D4, 0xA1B23C4D), b"\x0a\x0d\x0d\x0a"
SECTION, INTERFACE, OLD_PACKET, SIMPLE_PACKET, PACKET = 0x0A0D0D0A, 1, 2, 3, 6
PCAP_HEADER_SIZE, PACKET_HEADER_SIZE, BLOCK_SIZE_LEAST = 24, 16, 12

Order = Literal["big", "little"]
ORDERS: Tuple[Order, ...] = ("big", "little")
Interface = Tuple[int, int]  # its link type, and how many octets of a packet are captured at most


class Packet(NamedTuple):
    number: int
    link: Optional[int]
    octets: bytes
    is_whole: bool


class TornFile(Exception):
    """Behind the packets so far the file can't be read."""


def order_of_pcap(octets: bytes) -> Optional[Order]:
    """The order of octets in a pcap's numbers, None where it is no pcap."""
    orders = [order for order in ORDERS if int.from_bytes(octets[:4], order) in PCAP_MAGICS]
    return orders[0] if orders else None


def is_packet_capture(octets: bytes) -> bool:
    return octets[:4] == PCAPNG_MAGIC or order_of_pcap(octets) is not None


def packets_of_pcap(octets: bytes, order: Order) -> Iterator[Packet]:
    """A header of 24 octets, then packets, each behind a header of 16."""
    if len(octets) < PCAP_HEADER_SIZE:
        raise TornFile("the file ends within its header")
    link, place, number = int.from_bytes(octets[20:24], order) & 0xFFFF, PCAP_HEADER_SIZE, 0
    while place < len(octets):
        number += 1
        front = place + PACKET_HEADER_SIZE
        size, sent = (int.from_bytes(octets[at : at + 4], order) for at in (place + 8, place + 12))
        if front + size > len(octets):
            raise TornFile(f"the file ends within packet {number}")
        yield Packet(number, link, octets[front : front + size], size == sent)
        place = front + size


def blocks_of_pcapng(octets: bytes) -> Iterator[Tuple[int, bytes, Order]]:
    """Each block's type, its body, and the order of octets in its section."""
    place = 0
    order: Order = "big"
    while place < len(octets):
        kind, size = octets[place : place + 4], octets[place + 4 : place + 8]
        if kind == PCAPNG_MAGIC:
            order = "big" if octets[place + 8 : place + 12] == b"\x1a\x2b\x3c\x4d" else "little"
        end = place + int.from_bytes(size, order)
        if end > len(octets) or len(size) < 4:
            raise TornFile("the file ends within a block")
        if end < place + BLOCK_SIZE_LEAST:
            raise TornFile(f"a block of {end - place} octets")
        yield int.from_bytes(kind, order), octets[place + 8 : end - 4], order
        place = end


def packet_of_block(kind: int, body: bytes, order: Order, number: int, interfaces: List[Interface]) -> Packet:
    """A simple block has a packet of the first interface, cut to its limit; the others name theirs, and the size."""
    numbers = [int.from_bytes(body[place : place + 4], order) for place in (0, 12, 16)]
    interface = {PACKET: numbers[0], OLD_PACKET: int.from_bytes(body[:2], order), SIMPLE_PACKET: 0}[kind]
    link, limit = interfaces[interface] if interface < len(interfaces) else (None, 0)
    front, size, sent = 20, *numbers[1:]
    if kind == SIMPLE_PACKET:
        front, sent = 4, numbers[0]
        size = min(sent, len(body) - front, limit or sent)
    return Packet(number, link, body[front : front + size], size == sent and front + size <= len(body))


def packets_of_pcapng(octets: bytes) -> Iterator[Packet]:
    interfaces: List[Interface] = []
    number = 0
    for kind, body, order in blocks_of_pcapng(octets):
        if kind == SECTION:
            interfaces = []
        elif kind == INTERFACE:
            interfaces.append((int.from_bytes(body[:2], order), int.from_bytes(body[4:8], order)))
        elif kind in (OLD_PACKET, SIMPLE_PACKET, PACKET):
            number += 1
            yield packet_of_block(kind, body, order, number, interfaces)


def packets_of(octets: bytes) -> Iterator[Packet]:
    """The packets of a packet capture, numbered from 1; raises TornFile behind the last that can be read."""
    if octets[:4] == PCAPNG_MAGIC:
        return packets_of_pcapng(octets)
    return packets_of_pcap(octets, order_of_pcap(octets) or ORDERS[0])
