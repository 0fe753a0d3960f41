"""Octets of DNS messages, as whatever makes some writes them: names, types and RDATA by dnspython.

Records and messages are put together here, since there have to be such as dnspython doesn't write: an owner that is a
pointer, records apart from their RRset, counts that are wrong.
"""
import functools
import struct
from typing import Any, Sequence, Tuple

import dns.name
import dns.rdata
import dns.rdtypes.ANY.DNSKEY
import dns.rdtypes.ANY.NSEC
import dns.rdtypes.ANY.NSEC3
import dns.rdtypes.ANY.RRSIG
import dns.rdtypes.ANY.TSIG
import dns.tsig
from dns.rdataclass import ANY as CLASS_ANY
from dns.rdataclass import IN
from dns.rdatatype import ANY, DNSKEY, NSEC, NSEC3, RRSIG, TSIG

RESPONSE = 0x8400  # the flags QR and AA
ECDSA_P256, SHA_1 = 13, 1
FIRST, LAST = 1000, 2000  # the moments of a signature where none are told
ORIGINAL_TTL = 3600
HMAC_SHA256, FUDGE = "hmac-sha256.", 300


def written(part: Any) -> bytes:
    """The octets of a name or of RDATA, in which no name is written by a pointer."""
    return part.to_wire() or b""


# Names


def label(octets: bytes) -> bytes:
    return bytes([len(octets)]) + octets


def name_octets(text: str) -> bytes:
    """A name that is spelled without escapes (RFC 1035 3.1)."""
    return written(spelled(text))


def spelled(text: str) -> dns.name.Name:
    return dns.name.Name([*(each.encode() for each in text.split(".") if each), b""])


def pointer(place: int) -> bytes:
    """RFC 1035 4.1.4."""
    return struct.pack("!H", 0xC000 | place)


@functools.lru_cache(None)
def name_of(octets: bytes) -> dns.name.Name:
    return dns.name.from_wire(octets, 0)[0]


# Messages


def header(identifier: int, counts: Sequence[int], flags: int = RESPONSE) -> bytes:
    """Of a message with so many questions, and records of each section (RFC 1035 4.1.1)."""
    return struct.pack("!6H", identifier, flags, *counts)


def question(name: bytes, kind: int = ANY) -> bytes:
    return name + struct.pack("!2H", kind, IN)


def record(owner: bytes, kind: int, rdata: bytes, ttl: int = ORIGINAL_TTL, group: int = IN) -> bytes:
    """The owner is octets, so that it may be a pointer (RFC 1035 4.1.3)."""
    return owner + struct.pack("!2HIH", kind, group, ttl, len(rdata)) + rdata


# RDATA


def dnskey(flags: int, key: bytes, algorithm: int = ECDSA_P256) -> bytes:
    """RFC 4034 2.1."""
    return written(dns.rdtypes.ANY.DNSKEY.DNSKEY(IN, DNSKEY, flags, 3, algorithm, key))


def ds(tag: int, digest_type: int, digest: bytes, algorithm: int = ECDSA_P256) -> bytes:
    """RFC 4034 5.1. The digest may have any length here, of which dnspython refuses some."""
    return struct.pack("!HBB", tag, algorithm, digest_type) + digest


def rrsig(
    covered: int,
    labels: int,
    signer: bytes,
    tag: int,
    signature: bytes,
    times: Tuple[int, int] = (FIRST, LAST),
    algorithm: int = ECDSA_P256,
) -> bytes:
    """RFC 4034 3.1."""
    first, last = times
    return written(
        dns.rdtypes.ANY.RRSIG.RRSIG(
            IN, RRSIG, covered, algorithm, labels, ORIGINAL_TTL, last, first, tag, name_of(signer), signature
        )
    )


@functools.lru_cache(None)
def windows_of(kinds: str) -> Any:
    """The types, which are named with blanks between them, as dnspython keeps those of NSEC and NSEC3 records."""
    rdata: Any = dns.rdata.from_text(IN, NSEC, f". {kinds}")
    return rdata.windows


def nsec(following: str, kinds: str) -> bytes:
    """RFC 4034 4.1."""
    return written(dns.rdtypes.ANY.NSEC.NSEC(IN, NSEC, spelled(following), windows_of(kinds)))


def nsec3(
    iterations: int, salt: bytes, following: bytes, kinds: str = "", flags: int = 0, algorithm: int = SHA_1
) -> bytes:
    """RFC 5155 3.2."""
    windows = windows_of(kinds)
    return written(dns.rdtypes.ANY.NSEC3.NSEC3(IN, NSEC3, algorithm, flags, iterations, salt, following, windows))


# Signatures of whole messages


def tsig_rdata(mac: bytes, identifier: int, moment: int, algorithm: str = HMAC_SHA256) -> Any:
    """RFC 8945 4.2."""
    name = dns.name.from_text(algorithm)
    return dns.rdtypes.ANY.TSIG.TSIG(CLASS_ANY, TSIG, name, moment, FUDGE, mac, identifier, 0, b"")


def tsig_record(key: bytes, rdata: Any) -> bytes:
    return record(key, TSIG, written(rdata), 0, CLASS_ANY)


def with_tsig(message: bytes, key: bytes, secret: bytes, moment: int, request_mac: bytes = b"") -> bytes:
    """The message signed by the shared key, for the request with this MAC (RFC 8945 4.3)."""
    identifier, additional = (int.from_bytes(message[place : place + 2], "big") for place in (0, 10))
    unsigned = tsig_rdata(b"", identifier, moment)
    signed = dns.tsig.sign(message, dns.tsig.Key(name_of(key), secret, HMAC_SHA256), unsigned, moment, request_mac)[0]
    return message[:10] + struct.pack("!H", additional + 1) + message[12:] + tsig_record(key, signed)
