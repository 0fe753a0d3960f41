"""The RRsets of a capture with their signatures, numbered as the program does, and to what aliases lead."""
from typing import Any, Dict, List, NamedTuple, Optional, Set, Tuple

from ..capturing.frames import frames_of
from ..capturing.messages import (
    TYPE_CNAME,
    TYPE_DNSKEY,
    TYPE_RRSIG,
    Labels,
    Record,
    key_tag,
    lower,
    name_at,
    name_text,
    records_of,
)
from ..capturing.octets import Incomplete, number_at
from ..explaining.keys import Key as KeyThere
from ..explaining.keys import Keys, bits_of
from ..timelines.spans import Times, times_at

CLASS_IN = 1
# The types below 128 that form no RRset: 0, the legacy ones, OPT and RRSIG; those of 128 to 255 don't either.
UNGROUPED = {0, 3, 4, 7, 8, 9, 14, 17, 18, 21, 24, 26, 30, 35, 36, 38, 41, 46}
PROTOCOL, KEY_FIELD = 2, 4  # where the protocol and the key stand in the RDATA of a DNSKEY record (RFC 4034 2.1)
# Where the algorithm, the key tag and the signer's name stand in the RDATA of an RRSIG record (RFC 4034 3.1).
ALGORITHM, TAG, SIGNER = 2, 16, 18

Key = Tuple[int, Labels, int]


class Signature(NamedTuple):
    tag: int
    signer: Labels
    algorithm: int


class Rrset:
    def __init__(self, number: int, owner: Labels, kind: int) -> None:
        self.number, self.owner, self.kind = number, owner, kind
        self.signatures: List[Signature] = []
        self.times: List[Times] = []  # of each signature
        self.targets: List[Optional[str]] = []


class Placed(NamedTuple):
    """A record with its RRset, and the number of its signature where it is one; None where it has none."""

    record: Record
    number: int
    rrset: Optional[Rrset]
    signature: Optional[int]


def forms_rrsets(kind: int) -> bool:
    return kind not in UNGROUPED and not 128 <= kind <= 255


def group_of(octets: bytes, record: Record) -> int:
    return number_at(octets, record.front - 8, 2)


def owner_of(octets: bytes, record: Record) -> Labels:
    return lower(name_at(octets, record.name))


def target_of(octets: bytes, record: Record) -> Optional[str]:
    try:
        return name_text(lower(name_at(octets, record.front)))
    except Incomplete:
        return None


def signature_of(octets: bytes, record: Record) -> Signature:
    tag, algorithm = number_at(octets, record.front + TAG, 2), octets[record.front + ALGORITHM]
    return Signature(tag, lower(name_at(octets, record.front + SIGNER)), algorithm)


def rdata_of_signature(octets: bytes, record: Record) -> Tuple[bytes, Labels, bytes]:
    """The RDATA by which signatures are told apart, its name written out."""
    front, place = record.front, record.front + SIGNER
    labels = name_at(octets, place)
    while 0 < octets[place] < 64:
        place += 1 + octets[place]
    behind = place + (2 if octets[place] >= 0xC0 else 1)
    return bytes(octets[front : front + SIGNER]), labels, bytes(octets[behind : record.end])


def readable_records(octets: bytes) -> List[Tuple[Record, Labels]]:
    """The records with their owners, up to the first whose owner or RDATA isn't whole."""
    records: List[Tuple[Record, Labels]] = []
    try:
        for record in records_of(octets):
            owner = owner_of(octets, record)
            if record.end > len(octets):
                break
            records.append((record, owner))
    except Incomplete:
        pass
    return records


class Evidence:
    """The RRsets of all messages, by message, section and first appearance."""

    def __init__(self, octets: bytes) -> None:
        self.messages = frames_of(octets)[0]
        self.rrsets: List[Rrset] = []
        self.placed = [self.place(message) for message in self.messages]

    def place(self, octets: bytes) -> List[Placed]:
        """The records of a message, as far as they can be read, each with what it belongs to."""
        records = readable_records(octets)
        found: Dict[Key, Rrset] = {}
        seen: Dict[Any, int] = {}
        for record, owner in records:
            if forms_rrsets(record.kind) and group_of(octets, record) == CLASS_IN:
                self.keep(octets, record, owner, found)
        return [
            self.placed_of(octets, Placed(record, number, None, None), owner, found, seen)
            for number, (record, owner) in enumerate(records, 1)
        ]

    def keep(self, octets: bytes, record: Record, owner: Labels, found: Dict[Key, Rrset]) -> None:
        key = record.section, owner, record.kind
        if key not in found:
            found[key] = Rrset(len(self.rrsets) + 1, *key[1:])
            self.rrsets.append(found[key])
        if record.kind == TYPE_CNAME:
            found[key].targets.append(target_of(octets, record))

    @staticmethod
    def placed_of(
        octets: bytes, unplaced: Placed, owner: Labels, found: Dict[Key, Rrset], seen: Dict[Any, int]
    ) -> Placed:
        """The record with its RRset, or with the RRset that it signs; `seen` has the signatures that are numbered."""
        record = unplaced.record
        if group_of(octets, record) != CLASS_IN:
            return unplaced
        if record.kind != TYPE_RRSIG:
            return unplaced._replace(rrset=found.get((record.section, owner, record.kind)))
        try:
            rrset = found.get((record.section, owner, number_at(octets, record.front, 2)))
            if rrset is None:
                return unplaced
            key = rrset.number, rdata_of_signature(octets, record)
            if key not in seen:
                rrset.signatures.append(signature_of(octets, record))
                rrset.times.append(times_at(octets, record.front))
                seen[key] = len(rrset.signatures)
            return unplaced._replace(rrset=rrset, signature=seen[key])
        except (Incomplete, IndexError):
            return unplaced

    def signature(self, rrset: int, signature: int) -> Optional[Tuple[str, int]]:
        """The signer's name and the key tag; None where the capture has no such signature."""
        try:
            found = self.rrsets[rrset - 1].signatures[signature - 1]
        except IndexError:
            return None
        return name_text(found.signer), found.tag

    def times(self, rrset: int, signature: int) -> Optional[Times]:
        """When the signature begins and ends; None where the capture has no such signature."""
        try:
            return self.rrsets[rrset - 1].times[signature - 1]
        except IndexError:
            return None

    def target(self, rrset: int) -> Optional[str]:
        targets = self.rrsets[rrset - 1].targets if rrset <= len(self.rrsets) else []
        return targets[0] if targets else None


def keys_of(evidence: Evidence) -> Keys:
    """The keys of all DNSKEY records of the capture."""
    found: Keys = {}
    signed = signed_keys_of(evidence)
    for message, placed in zip(evidence.messages, evidence.placed):
        for each in placed:
            rdata = bytes(message[each.record.front : each.record.end])
            if each.rrset and each.record.kind == TYPE_DNSKEY and len(rdata) > KEY_FIELD:
                tag, algorithm = key_tag(rdata), rdata[KEY_FIELD - 1]
                rrsets = signed.get(Signature(tag, each.rrset.owner, algorithm), set())
                key = number_at(rdata, 0, 2), bits_of(algorithm, rdata[KEY_FIELD:]), rdata[PROTOCOL], frozenset(rrsets)
                found[name_text(each.rrset.owner), tag, algorithm] = KeyThere(*key)
    return found


def signed_keys_of(evidence: Evidence) -> Dict[Signature, Set[int]]:
    """The DNSKEY RRsets that the zone itself signed, by tag and algorithm."""
    found: Dict[Signature, Set[int]] = {}
    for rrset in evidence.rrsets:
        for each in rrset.signatures:
            if rrset.kind == TYPE_DNSKEY and each.signer == rrset.owner:
                found.setdefault(each, set()).add(rrset.number)
    return found
