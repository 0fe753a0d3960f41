"""The bench's zone, and its keys, signatures and responses, of the octets that the tools' package writes. It has to be
where Python looks for packages: PYTHONPATH=tools, where it isn't installed."""

from __future__ import annotations

import base64
import random
import struct

from dns.rdatatype import ANY, CNAME, DNSKEY, DS, NSEC, NSEC3, RRSIG, TXT, A

from dnssec_check_tools.capturing.frames import framed
from dnssec_check_tools.capturing.messages import HEADER_SIZE, key_tag
from dnssec_check_tools.wire import ECDSA_P256 as ALGORITHM
from dnssec_check_tools.wire import dnskey, header, label, name_octets, nsec3, pointer, question, record
from dnssec_check_tools.wire import rrsig as rrsig_of

__all__ = [
    "A",
    "ALGORITHM",
    "ANY",
    "CNAME",
    "DNSKEY",
    "DS",
    "HEADER_SIZE",
    "NSEC",
    "NSEC3",
    "QUESTION",
    "ROOT",
    "RRSIG",
    "TXT",
    "ZONE",
    "anchor",
    "hash_label",
    "key_tag",
    "label",
    "label_count",
    "nsec3_rdata",
    "pointer",
    "record",
    "response",
    "rrsig",
    "rrsig_of",
    "twin_key",
    "zone_key",
]

ROOT, ZONE = name_octets("."), name_octets("bench.example.")
QUESTION = pointer(HEADER_SIZE)  # the question's name
HASH_SIZE = 20


def label_count(name: bytes) -> int:
    """Of a name without a pointer, the root left out (RFC 4034 3.1.3)."""
    count, place = 0, 0
    while name[place]:
        count, place = count + 1, place + 1 + name[place]
    return count


def response(number: int, asked: bytes, *sections: list[bytes]) -> bytes:
    """An authoritative response with its length in front, to a question for all types; of the answer, authority and
    additional sections those left out are empty."""
    counts = [len(records) for records in sections] + [0] * (3 - len(sections))
    records = b"".join(each for section in sections for each in section)
    return framed([header(number, [1, *counts]) + question(asked) + records])


def twin_key(number: int, total: int, front: bytes = b"", back: bytes = b"", algorithm: int = ALGORITHM) -> bytes:
    """A key. Those of one total have one tag, since two of their numbers of 16 bits sum up to it."""
    return dnskey(257, front + struct.pack("!HH", number, total - number) + back, algorithm)


def zone_key(number: int, flags: int) -> bytes:
    draw = random.Random(number * 1000 + flags)
    return dnskey(flags, draw.randbytes(64))


def rrsig(draw: random.Random, rtype: int, labels: int, signer: bytes, tag: int) -> bytes:
    """The RDATA of a signature from 1000 to 2000, whose octets are drawn."""
    return rrsig_of(rtype, labels, signer, tag, draw.randbytes(64))


def nsec3_rdata(iterations: int, salt: bytes, following: int) -> bytes:
    """The RDATA of an NSEC3 record without types. A hash is a number here."""
    return nsec3(iterations, salt, following.to_bytes(HASH_SIZE, "big"))


def hash_label(hashed: int) -> bytes:
    """RFC 5155 3.3."""
    octets = hashed.to_bytes(HASH_SIZE, "big")
    return label(base64.b32hexencode(octets).lower())  # type: ignore[attr-defined]  # since Python 3.10


def anchor(owner: str, rdata: bytes) -> str:
    """The line of the key in a file of anchors; the owner is text."""
    flags, protocol, algorithm = struct.unpack("!HBB", rdata[:4])
    return f"KEY {owner} {flags} {protocol} {algorithm} {base64.b64encode(rdata[4:]).decode()}\n"
