"""The transfer of a zone (AXFR, RFC 5936) among messages, and its records by owner and type."""
import functools
from typing import Any, Dict, Iterable, Iterator, List, NamedTuple, Optional, Tuple

from ..asking.faults import Refusal, escaped, lacking
from ..capturing.messages import (
    ANSWER,
    HEADER_SIZE,
    TYPE_NSEC,
    TYPE_RRSIG,
    Labels,
    Record,
    is_query,
    is_truncated,
    lower,
    name_at,
    name_text,
    question_of,
    records_of,
)
from ..capturing.octets import Incomplete, number_at

from .names import wire_name

AXFR, SOA, CLASS_IN = 252, 6, 1
# Whose RDATA may have names that are pointers: the types of RFC 1035, and those that a receiver is to unfold (RFC 3597
# 4); and the signers and next names of DNSSEC, should a server shorten them.
WITH_NAMES = {2, 3, 4, 5, 6, 7, 8, 9, 12, 14, 15, 17, 18, 21, 24, 26, 30, 33, 35, TYPE_RRSIG, TYPE_NSEC}

Key = Tuple[Labels, int]  # an owner in lower case, and a type


class Rrset(NamedTuple):
    """Records of an owner and type as messages have them, without pointers: RDATA, and each record whole."""

    rdata: List[bytes]
    records: List[bytes]
    signatures: List[bytes]

    def size(self) -> int:
        """How many records it has, with its signatures."""
        return len(self.records) + len(self.signatures)


Rrsets = Dict[Key, Rrset]


class Transfer(NamedTuple):
    """The zone's name, its records, the messages that aren't the transfer's, and whether its end is there."""

    apex: Labels
    rrsets: Rrsets
    others: List[bytes]
    is_whole: bool


@functools.lru_cache(None)
def library() -> Any:
    try:
        import dns.exception
        import dns.rdata
    except ImportError as fault:
        raise lacking("dnspython", "--zone", fault) from fault
    return dns


def transfer_of(messages: Iterable[bytes]) -> Transfer:
    """The one transfer among the messages; Refusal where there is none, or another one."""
    found, others = told_apart(dict.fromkeys(messages))
    if not found:
        raise Refusal("no transfer of a zone (AXFR) is among the messages")
    try:
        records = [(octets, record) for octets in found for record in records_of(octets) if record.section == ANSWER]
        owners = [lower(name_at(octets, record.name)) for octets, record in records if record.kind == SOA]
        if not owners or len(set(owners)) > 1:
            raise Refusal("the transfer has no SOA record, or those of several zones")
        is_whole = len(owners) > 1 and records[-1][1].kind == SOA
        return Transfer(owners[0], rrsets_of(records), others, is_whole)
    except (Incomplete, IndexError) as fault:
        raise Refusal(f"a message of the transfer can't be read: {fault}") from fault


def told_apart(messages: Iterable[bytes]) -> Tuple[List[bytes], List[bytes]]:
    """The messages of the transfer, of which only the first needs a question (RFC 5936 2.2), and the others."""
    found: List[bytes] = []
    others: List[bytes] = []
    for octets in messages:
        if len(octets) < HEADER_SIZE or is_query(octets) or is_truncated(octets):
            continue
        question = question_of(octets)
        is_of_it = question.kind == AXFR if question else bool(found)
        (found if is_of_it else others).append(octets)
    return found, others


def rrsets_of(records: Iterable[Tuple[bytes, Record]]) -> Rrsets:
    rrsets: Rrsets = {}
    seen = set()
    for octets, record in records:
        if number_at(octets, record.front - 8, 2) != CLASS_IN:
            continue
        owner, rdata = lower(name_at(octets, record.name)), rdata_of(octets, record)
        if (owner, record.kind, rdata) in seen:  # as the SOA record, with which a transfer ends too
            continue
        seen.add((owner, record.kind, rdata))
        whole = wire_name(owner) + octets[record.front - 10 : record.front - 2] + len(rdata).to_bytes(2, "big") + rdata
        kind = number_at(rdata, 0, 2) if record.kind == TYPE_RRSIG else record.kind
        rrset = rrsets.setdefault((owner, kind), Rrset([], [], []))
        if record.kind == TYPE_RRSIG:
            rrset.signatures.append(whole)
        else:
            rrset.rdata.append(rdata)
            rrset.records.append(whole)
    return rrsets


def rdata_of(octets: bytes, record: Record) -> bytes:
    """The RDATA with its names written out."""
    if record.kind not in WITH_NAMES:
        return bytes(octets[record.front : record.end])
    dns = library()
    try:
        rdata = dns.rdata.from_wire(CLASS_IN, record.kind, octets, record.front, record.end - record.front)
        return rdata.to_wire()
    except (dns.exception.DNSException, ValueError, IndexError) as fault:
        owner = escaped(name_text(name_at(octets, record.name)))
        raise Refusal(f"the transfer has a record of {owner} that can't be read: {fault}") from fault


def parsed(kind: int, rdata: bytes) -> Any:
    """A record as the library has it, None where it can't read it."""
    dns = library()
    try:
        return dns.rdata.from_wire(CLASS_IN, kind, rdata, 0, len(rdata))
    except (dns.exception.DNSException, ValueError, IndexError):
        return None


def kinds_of(windows: Iterable[Tuple[int, bytes]]) -> Iterator[int]:
    """The types that an NSEC or NSEC3 record lists (RFC 4034 4.1.2)."""
    for window, bitmap in windows:
        for place, octet in enumerate(bitmap):
            yield from (window * 256 + place * 8 + bit for bit in range(8) if octet & 0x80 >> bit)


def only(rdata: List[bytes]) -> Optional[bytes]:
    """The one RDATA of an RRset that may have one alone."""
    return rdata[0] if len(rdata) == 1 else None
