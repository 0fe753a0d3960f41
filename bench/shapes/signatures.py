"""Signatures of many keys each: what there is to check grows with the product of both."""

from __future__ import annotations

import random
from typing import Iterable

from wire import (
    A,
    DNSKEY,
    QUESTION,
    RRSIG,
    TXT,
    ZONE,
    key_tag,
    label,
    label_count,
    record,
    response,
    rrsig,
    rrsig_of,
    twin_key,
)

from .shape import Shape

EACH = 16  # the most keys, and the most signatures, that an RRset may have
TOTAL, FRONT = 65_000, bytes(60)
TAG = key_tag(twin_key(0, TOTAL, FRONT))
LONG_TEXT = (b"\xff" + bytes(255)) * 223
SIGNATURES_BY_RSA, RSA_SHA256 = 5, 8
LONG_ZONE = label(b"z" * 63) * 3 + label(b"z" * 30) + ZONE


def in_parts(numbers: range) -> list[range]:
    return [numbers[first : first + EACH] for first in range(0, len(numbers), EACH)]


def key_records(numbers: Iterable[int]) -> list[bytes]:
    """Keys of one tag, which differ in their last octets."""
    return [record(QUESTION, DNSKEY, twin_key(number, TOTAL, FRONT)) for number in numbers]


def signed(draw: random.Random, number: int, zone: bytes, rtype: int, rdata: bytes) -> list[bytes]:
    """A record of an owner of its own below the zone, with as many signatures as it may have."""
    owner, labels = label(b"h%d" % number) + QUESTION, 1 + label_count(zone)
    signatures = [record(owner, RRSIG, rrsig(draw, rtype, labels, zone, TAG)) for _ in range(EACH)]
    return [record(owner, rtype, rdata), *signatures]


def long_data(keys: int) -> Shape:
    """So many keys of one tag, and for each eight of them an RRset of 57,088 octets with 16 signatures. Nothing is
    said of any signature, and there is no anchor."""
    draw, rrsets = random.Random(20261125), keys // 8
    parts = [key_records(part) for part in in_parts(range(keys))]
    parts += [signed(draw, number, ZONE, TXT, LONG_TEXT) for number in range(rrsets)]
    capture = [response(number, ZONE, part) for number, part in enumerate(parts)]
    return Shape({"capture": capture, "anchors": []}, pairs=keys * rrsets * EACH)


def exponents(messages: int) -> Shape:
    """So many messages, each with 16 RSA keys of one tag, whose moduli and exponents have 4,096 bits, and five
    signatures of an RRset of its own, which each key may have made. Nothing is said of any signature, and there is no
    anchor."""
    draw, capture = random.Random(20261125), []
    modulus, exponent = b"\xff" + draw.randbytes(506), b"\xbf" + draw.randbytes(510) + b"\x01"
    lengthy = b"\x00" + len(exponent).to_bytes(2, "big") + exponent + modulus  # RFC 3110 2
    for number in range(messages):
        rdata = [twin_key(each, TOTAL, lengthy, b"\x01", RSA_SHA256) for each in in_message(number)]
        owner, tag = label(b"h%d" % number) + QUESTION, key_tag(rdata[0])
        made = [rsa_signature(draw, A, tag) for _ in range(SIGNATURES_BY_RSA)]
        records = [*(record(QUESTION, DNSKEY, each) for each in rdata), record(owner, A, bytes(4))]
        capture.append(response(number, ZONE, records + [record(owner, RRSIG, each) for each in made]))
    pairs_of_all = EACH * messages * SIGNATURES_BY_RSA * messages
    return Shape({"capture": capture, "anchors": []}, pairs=pairs_of_all)


def in_message(number: int) -> range:
    return range(EACH * number, EACH * number + EACH)


def rsa_signature(draw: random.Random, rtype: int, tag: int) -> bytes:
    """One of 4,096 bits, of a name of three labels, that is below each modulus."""
    octets = b"\x00" + draw.randbytes(511)
    return rrsig_of(rtype, 3, ZONE, tag, octets, algorithm=RSA_SHA256)


def pairs(size: int) -> Shape:
    """So many keys of one tag and as many signatures, in messages of 16 each; all names are long. Nothing is said of
    any signature, and there is no anchor."""
    draw = random.Random(20261125)
    parts = [
        key_records(part) + signed(draw, number, LONG_ZONE, A, bytes(4))
        for number, part in enumerate(in_parts(range(size)))
    ]
    capture = [response(number, LONG_ZONE, part) for number, part in enumerate(parts)]
    return Shape({"capture": capture, "anchors": []}, pairs=size * size)
