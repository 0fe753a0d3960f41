"""A zone cut into captures, each with the chain above, the zone's keys, and the evidence for some of the questions."""
import struct
from typing import Dict, Iterable, Iterator, List, NamedTuple

from ..capturing.frames import MESSAGES_MOST, framed
from ..capturing.messages import QR, TYPE_DNSKEY, Labels

from ..judging.evidence import readable_records
from .names import wire_name
from .questions import Item
from .transfer import Key, Rrset, Transfer

RECORDS_MOST = 4096  # of a capture
OCTETS_MOST = 32_000  # of a message that is made, but for an RRset that has more by itself
AA = 0x0400


class Part(NamedTuple):
    """A capture, and what is asked of it."""

    octets: bytes
    items: List[Item]


class Cutter:
    """Cuts a transfer. A server may send an RRset and its signatures in several messages, so all that is kept is put
    into messages anew. A wrong cut leaves out evidence, and can't make any: each record is one of the transfer, or, of
    what is made from a wildcard, has its signatures."""

    def __init__(self, transfer: Transfer) -> None:
        self.transfer = transfer
        self.keys: Key = (transfer.apex, TYPE_DNSKEY)
        self.records = RECORDS_MOST - count_of(transfer.others)
        # So many octets go into the messages that are left, of each two of which one is more than half full.
        self.octets = (MESSAGES_MOST - 1 - len(transfer.others)) * OCTETS_MOST // 2

    def parts(self, items: List[Item]) -> Iterator[Part]:
        room = Room(self)
        for item in items:
            evidence = self.evidence(item)
            if room.items and not room.has_room_for(evidence):
                yield room.part()
                room = Room(self)
            room.take(item, evidence)
        yield room.part()

    def of_all(self) -> Dict[Key, Rrset]:
        """What each part has."""
        found = self.transfer.rrsets.get(self.keys)
        return {self.keys: found} if found else {}

    def evidence(self, item: Item) -> Dict[Key, Rrset]:
        """What the item needs, and the answer that a server makes of a wildcard (RFC 4592 3.3.1)."""
        found = {key: self.transfer.rrsets[key] for key in item.evidence}
        if item.made:
            found[item.name, item.kind] = with_owner(self.transfer.rrsets[item.made], item.made[0], item.name)
        return found


class Room:
    """A part that is being filled."""

    def __init__(self, cutter: Cutter) -> None:
        self.cutter, self.rrsets = cutter, cutter.of_all()
        self.items: List[Item] = []
        self.records = sum(rrset.size() for rrset in self.rrsets.values())
        self.octets = sum(map(octets_of, self.rrsets.values()))

    def new(self, evidence: Dict[Key, Rrset]) -> List[Rrset]:
        return [rrset for key, rrset in evidence.items() if key not in self.rrsets]

    def has_room_for(self, evidence: Dict[Key, Rrset]) -> bool:
        more = self.new(evidence)
        records = self.records + sum(rrset.size() for rrset in more)
        return records <= self.cutter.records and self.octets + sum(map(octets_of, more)) <= self.cutter.octets

    def take(self, item: Item, evidence: Dict[Key, Rrset]) -> None:
        more = self.new(evidence)
        self.records += sum(rrset.size() for rrset in more)
        self.octets += sum(map(octets_of, more))
        self.rrsets.update(evidence)
        self.items.append(item)

    def part(self) -> Part:
        return Part(framed([*self.cutter.transfer.others, *messages_of(self.rrsets)]), self.items)


def with_owner(rrset: Rrset, old: Labels, new: Labels) -> Rrset:
    size, front = len(wire_name(old)), wire_name(new)
    records, signatures = ([front + each[size:] for each in found] for found in (rrset.records, rrset.signatures))
    return Rrset(rrset.rdata, records, signatures)


def octets_of(rrset: Rrset) -> int:
    return sum(map(len, rrset.records)) + sum(map(len, rrset.signatures))


def count_of(messages: Iterable[bytes]) -> int:
    """How many records they have that can be read; of one that can't, the program refuses the message."""
    return sum(len(readable_records(octets)) for octets in messages)


def messages_of(rrsets: Dict[Key, Rrset]) -> Iterator[bytes]:
    """Messages with the RRsets, each whole in one."""
    found: List[bytes] = []
    size = 0
    for rrset in rrsets.values():
        if found and size + octets_of(rrset) > OCTETS_MOST:
            yield message_of(found)
            found, size = [], 0
        found += [*rrset.records, *rrset.signatures]
        size += octets_of(rrset)
    if found:
        yield message_of(found)


def message_of(records: List[bytes]) -> bytes:
    return struct.pack("!6H", 0, QR | AA, 0, len(records), 0, 0) + b"".join(records)
