"""What the files that are named have in them: their kind, and the messages of each kind."""
import io
import itertools
import re
from typing import Callable, Counter, Dict, Iterable, Iterator, List, Optional, Sequence, Set

from ..command import read, shown

from .atlas import entries_of_atlas, is_atlas
from .dnstap import entries_of_dnstap, is_dnstap
from .dnsviz import entries_of_dnsviz
from .entries import Entry, Found, InPacket, Message, Omission, PassedOver, Refusal
from .frames import frames_of
from .octets import Incomplete
from .packed import is_packed, unpacked
from .packets import BadPacket, Datagram, Other, Segment, payload_of
from .pcap import Packet, TornFile, is_packet_capture, packets_of
from .printed import MARK, entries_of_printed
from .streams import Streams
from .tshark import entries_of_tshark

# Streams of one file, and lists in hex


def entries_of_stream(octets: bytes, path: str) -> Iterator[Entry]:
    messages, end = frames_of(octets)
    if octets[end : end + 2] == b"\x00\x00":
        raise Refusal(f"{path}: a message of length 0 at octet {end}")
    if end < len(octets):
        raise Refusal(f"{path}: it ends within the message at octet {end}")
    for number, message in enumerate(messages, 1):
        yield Message(message, f"message {number} of {path}")


def octets_of_line(line: str, place: str) -> bytes:
    try:
        return bytes.fromhex(line.replace(":", " "))
    except ValueError as fault:
        raise Refusal(f"{place}: no message in hex") from fault


def entries_of_hex(octets: bytes, path: str) -> Iterator[Entry]:
    for number, octets_of_it in enumerate(io.BytesIO(octets), 1):
        line = octets_of_it.decode("ascii", "replace").strip()
        if line and line[0] not in "#;":
            place = f"line {number} of {path}"
            yield Message(octets_of_line(line, place), place)


# Packets


def entries_of_packet(
    packet: Packet, place: InPacket, ports: Set[int], streams: Streams, others: Counter[str]
) -> List[Entry]:
    """What a packet brings; one that carries something else is counted in `others`."""
    try:
        payload = payload_of(packet, ports)
    except (BadPacket, Incomplete) as fault:
        return [Omission(place, str(fault))]
    except Other as other:
        others[str(other)] += 1
        return []
    if isinstance(payload, Segment):
        return streams.take(payload, place)
    return [Message(payload.octets, place, (Datagram, frozenset(payload[:2])))]


def in_order(entries: List[Entry], last: InPacket) -> List[Entry]:
    """Each entry where its packet stands; what is told of a file or a stream as a whole comes behind the last one."""
    return sorted(entries, key=lambda entry: entry.place if isinstance(entry.place, InPacket) else last)


def entries_of_pcap(octets: bytes, path: str, ports: Set[int]) -> List[Found]:
    if not is_packet_capture(octets):
        raise Refusal(f"{path}: it is neither a pcap nor a pcapng")
    streams, place = Streams(path), InPacket(0, path)
    entries: List[Entry] = []
    others: Counter[str] = Counter()
    try:
        for packet in packets_of(octets):
            place = InPacket(packet.number, path)
            entries += entries_of_packet(packet, place, ports, streams, others)
    except TornFile as fault:
        entries.append(Omission(f"what is behind {place}", str(fault)))
    ordered = in_order(entries + streams.rest(), place)
    return [*ordered, PassedOver(f"packets of {path}", others)] if others else [*ordered]


# All kinds

PACKED = "packed"  # what has a kind once it is unpacked, or has it as it is
# A list in hex begins with notes, and then with a header at least: other text is none.
LISTED = re.compile(rb"(?:[ \t]*(?:[#;][^\n]*)?\r?\n)*[ \t]*(?:[0-9A-Fa-f]{2}[ :]*){12}")


def kind_of(octets: bytes) -> str:
    """The kind of a file that is named alone. Text has no octet 0, and each message has some."""
    if is_packet_capture(octets):
        return "pcap"
    if is_dnstap(octets):
        return "dnstap"
    if b"\x00" in octets:
        return "stream"
    if MARK in octets:
        return "dig"
    if octets.lstrip()[:1] in (b"{", b"["):
        return "atlas" if is_atlas(octets) else "dnsviz"
    return "hex"


# Entries come as they are asked for: there may be many times as many of them as a capture takes.
READERS: Dict[str, Callable[[bytes, str], Iterable[Found]]] = {
    "stream": entries_of_stream,
    "hex": entries_of_hex,
    "dnsviz": entries_of_dnsviz,
    "dig": entries_of_printed,
    "atlas": entries_of_atlas,
    "dnstap": entries_of_dnstap,
}


def other_kind_of(octets: bytes) -> Optional[str]:
    """The kind of a file that is no stream of messages, by its beginning: packed, packets or text; None of a stream,
    which may be torn."""
    if not octets or frames_of(octets)[1] == len(octets):
        return None
    if is_packed(octets):
        return PACKED
    kind = kind_of(octets)
    return None if kind == "stream" or (kind == "hex" and not LISTED.match(octets)) else kind


def entries_in(octets: bytes, kind: str, name: str, ports: Set[int], most: Optional[int] = None) -> Iterator[Found]:
    """The entries of octets of this kind, of which no more are unpacked than are told."""
    octets, torn = unpacked(octets, name, most)
    kind = kind_of(octets) if kind == PACKED else kind
    found = entries_of_pcap(octets, name, ports) if kind == "pcap" else READERS[kind](octets, name)
    return itertools.chain(found, torn)


def entries_of(kind: Optional[str], path: str, ports: Set[int]) -> Sequence[Found]:
    """The entries of a file of this kind, None where that has to be found out."""
    name = shown(path)
    if kind == "tshark":
        return entries_of_tshark(path, name, ports)
    octets = read(path)
    return list(
        entries_of_stream(octets, name) if kind == "stream" else entries_in(octets, kind or PACKED, name, ports)
    )
