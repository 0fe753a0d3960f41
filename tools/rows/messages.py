"""DNS messages for rows of evidence: names, records with a signature each, and messages behind their length, of the
octets that the tools' package writes."""

from __future__ import annotations

from dns.rdatatype import from_text

from dnssec_check_tools import wire
from dnssec_check_tools.capturing.frames import framed
from dnssec_check_tools.capturing.messages import key_tag

TYPES = {
    kind: int(from_text(kind))
    for kind in (
        "A",
        "NS",
        "CNAME",
        "SOA",
        "HINFO",
        "MX",
        "TXT",
        "AAAA",
        "DNAME",
        "DS",
        "RRSIG",
        "NSEC",
        "DNSKEY",
        "NSEC3",
        "NSEC3PARAM",
    )
}

DNSKEY = wire.dnskey(256, bytes([1, 2, 3]))
KEY_TAG = key_tag(DNSKEY)
TTL = 5


def labels_of(text: str) -> list[bytes]:
    """The labels of a name, which is spelled without escapes."""
    return [label.encode() for label in text.split(".") if label]


def name(text: str) -> bytes:
    return wire.name_octets(text)


def record(owner: bytes, rtype: str, rdata: bytes) -> bytes:
    """A record of class IN. The owner is octets, so that it may be a pointer."""
    return wire.record(owner, TYPES[rtype], rdata, TTL)


def counted(owner: str) -> int:
    """How many labels the signature of the owner counts: a wildcard's own isn't one of them (RFC 4034 3.1.3)."""
    labels = labels_of(owner)
    return len(labels) - (labels[:1] == [b"*"])


def rrsig(rtype: str, labels: int, signer: str, signature: str = "cc") -> bytes:
    """The RDATA of a signature from 1000 to 2000. Its octets say to a row's verifier what it is."""
    return wire.rrsig(TYPES[rtype], labels, name(signer), KEY_TAG, bytes.fromhex(signature))


def signed(
    owner: str, rtype: str, rdata: bytes, labels: int | None = None, signer: str = "example.", signature: str = "cc"
) -> bytes:
    """A record and the signature of its RRset."""
    count = counted(owner) if labels is None else labels
    covering = rrsig(rtype, count, signer, signature)
    return record(name(owner), rtype, rdata) + record(name(owner), "RRSIG", covering)


def message(*records: bytes) -> bytes:
    """A response without a question whose answers are these records with a signature each, behind its length."""
    return framed([wire.header(1, (0, 2 * len(records), 0, 0)) + b"".join(records)])


def key_message(zone: str) -> bytes:
    """A message of the zone's DNSKEY record alone, signed by itself."""
    return message(signed(zone, "DNSKEY", DNSKEY, signer=zone))
