"""The RRsets of a capture with all that their records and signatures say, by the program's numbers."""
import functools
import hashlib
from typing import Dict, List, NamedTuple, Optional, Tuple

from ..capturing.messages import (
    TYPE_RRSIG,
    Labels,
    Question,
    key_tag,
    lower,
    name_at,
    name_text,
    question_of,
)
from ..capturing.octets import Octets, number_at
from ..judging.evidence import CLASS_IN, SIGNER, Evidence, Placed
from ..zones.names import wire_name

SHA_1, SHA_256, SHA_384 = 1, 2, 4
HASHES = {SHA_1: hashlib.sha1, SHA_256: hashlib.sha256, SHA_384: hashlib.sha384}
ZONE, REVOKE, SEP = 0x100, 0x80, 1  # of the flags of a key (RFC 4034 2.1.1, RFC 5011 7)
ITERATIONS_MOST = 500  # of NSEC3 records that the program uses


class Signature(NamedTuple):
    """The fields of an RRSIG record (RFC 4034 3.1)."""

    covered: int
    algorithm: int
    ttl: int
    expiration: int
    inception: int
    tag: int
    signer: str


class Key(NamedTuple):
    """A DNSKEY record (RFC 4034 2.1), or a CDNSKEY record, which is laid out as one."""

    flags: int
    algorithm: int
    tag: int
    public: bytes
    rdata: bytes


class Ds(NamedTuple):
    """A DS record (RFC 4034 5.1), or a CDS record, which is laid out as one."""

    tag: int
    algorithm: int
    digest_type: int
    digest: bytes


class Nsec3(NamedTuple):
    """An NSEC3 record (RFC 5155 3.2), but for its types."""

    flags: int
    iterations: int
    salt: bytes
    following: bytes


class Rrset:
    def __init__(self, number: int, message: int, owner: Labels, kind: int) -> None:
        self.number, self.message, self.labels, self.kind = number, message, owner, kind
        self.owner = name_text(owner)
        self.ttls: List[int] = []
        self.rdata: List[bytes] = []
        self.signatures: List[Signature] = []

    @functools.cached_property
    def keys(self) -> List[Key]:
        """Those of a DNSKEY or CDNSKEY RRset, each once."""
        rows = (each for each in dict.fromkeys(self.rdata) if len(each) >= 4)
        return [Key(number_at(each, 0, 2), each[3], key_tag(each), each[4:], each) for each in rows]

    @functools.cached_property
    def ds(self) -> List[Ds]:
        """Those of a DS or CDS RRset, each once."""
        rows = (each for each in dict.fromkeys(self.rdata) if len(each) >= 4)
        return [Ds(number_at(each, 0, 2), each[2], each[3], each[4:]) for each in rows]

    @functools.cached_property
    def nsec3(self) -> List[Nsec3]:
        """Those of an NSEC3 RRset that are laid out as they have to be."""
        return [each for each in map(nsec3_of, dict.fromkeys(self.rdata)) if each]


def nsec3_of(rdata: bytes) -> Optional[Nsec3]:
    salt = 5 + rdata[4] if len(rdata) > 4 else 0
    if not salt or len(rdata) <= salt or len(rdata) < salt + 1 + rdata[salt]:
        return None
    following = rdata[salt + 1 : salt + 1 + rdata[salt]]
    return Nsec3(rdata[1], number_at(rdata, 2, 2), rdata[5:salt], following)


def is_of(ds: Ds, zone: Labels, key: Key) -> bool:
    """Whether a DS record is that of the key (RFC 4034 5.1.4); of a digest that isn't made here, by its tag and its
    algorithm alone."""
    if (ds.tag, ds.algorithm) != (key.tag, key.algorithm):
        return False
    make = HASHES.get(ds.digest_type)
    return make is None or make(wire_name(zone) + key.rdata).digest() == ds.digest


class Records:
    """All RRsets of a capture."""

    def __init__(self, evidence: Evidence) -> None:
        found = {each.number: each for each in evidence.rrsets}
        self.rrsets: Dict[int, Rrset] = {}
        self.messages = evidence.messages
        for message, (octets, placed) in enumerate(zip(evidence.messages, evidence.placed), 1):
            for each in placed:
                if each.rrset:
                    number = each.rrset.number
                    rrset = Rrset(number, message, found[number].owner, found[number].kind)
                    keep(self.rrsets.setdefault(number, rrset), octets, each)

    def size(self, message: int) -> int:
        return len(self.messages[message - 1])

    def question(self, message: int) -> Optional[Question]:
        return question_of(self.messages[message - 1])

    @functools.cached_property
    def by_signer(self) -> Dict[str, List[Rrset]]:
        """The RRsets that a zone signs, by its name."""
        found: Dict[str, List[Rrset]] = {}
        for rrset in self.rrsets.values():
            for signer in dict.fromkeys(each.signer for each in rrset.signatures):
                found.setdefault(signer, []).append(rrset)
        return found

    def of(self, owner: str, kind: int) -> List[Rrset]:
        return self.by_owner.get((owner, kind), [])

    @functools.cached_property
    def by_owner(self) -> Dict[Tuple[str, int], List[Rrset]]:
        found: Dict[Tuple[str, int], List[Rrset]] = {}
        for rrset in self.rrsets.values():
            found.setdefault((rrset.owner, rrset.kind), []).append(rrset)
        return found


def keep(rrset: Rrset, octets: Octets, placed: Placed) -> None:
    """Adds a record to its RRset, or a signature, each once."""
    record = placed.record
    if record.kind != TYPE_RRSIG or number_at(octets, record.front - 8, 2) != CLASS_IN:
        rrset.ttls.append(number_at(octets, record.front - 6, 4))
        rrset.rdata.append(bytes(octets[record.front : record.end]))
    elif placed.signature == len(rrset.signatures) + 1:
        rrset.signatures.append(signature_at(octets, record.front))


def signature_at(octets: Octets, front: int) -> Signature:
    covered, tag = number_at(octets, front, 2), number_at(octets, front + 16, 2)
    ttl, expiration, inception = (number_at(octets, front + place, 4) for place in (4, 8, 12))
    signer = name_text(lower(name_at(octets, front + SIGNER)))
    return Signature(covered, octets[front + 2], ttl, expiration, inception, tag, signer)
