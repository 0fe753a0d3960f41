"""Keys of a zone in many messages, which are as long as a message holds."""

from __future__ import annotations

import random
import struct

from wire import (
    A,
    ALGORITHM,
    DNSKEY,
    DS,
    QUESTION,
    RRSIG,
    ZONE,
    anchor,
    key_tag,
    label,
    record,
    response,
    rrsig,
    twin_key,
    zone_key,
)

from .shape import Shape

KEY = zone_key(0, 257)
ANCHORS = [anchor("bench.example.", KEY).encode()]
SUB = label(b"sub") + QUESTION
TOTAL, LONG = 65_000, bytes(4_000)
SHA_256 = 2


def signature(draw: random.Random, owner: bytes, rtype: int, labels: int) -> bytes:
    return record(owner, RRSIG, rrsig(draw, rtype, labels, ZONE, key_tag(KEY)))


def zone_records(draw: random.Random) -> list[bytes]:
    """The zone's key, and an address of the zone, each with a signature."""
    return [
        record(QUESTION, DNSKEY, KEY),
        signature(draw, QUESTION, DNSKEY, 2),
        record(QUESTION, A, bytes(4)),
        signature(draw, QUESTION, A, 2),
    ]


def delegation(draw: random.Random, number: int) -> list[bytes]:
    """A signed DS record of a zone below, and 16 keys of that zone with its tag, none of which has the digest."""
    keys = [twin_key(each, TOTAL, back=LONG) for each in range(16 * number, 16 * number + 16)]
    digest = draw.randbytes(32)
    return [
        record(SUB, DS, struct.pack("!HBB", key_tag(keys[0]), ALGORITHM, SHA_256) + digest),
        signature(draw, SUB, DS, 3),
        *(record(SUB, DNSKEY, key) for key in keys),
    ]


def digests(messages: int) -> Shape:
    """So many messages have a DS RRset of one owner, and keys of that owner which any of them may mean. The signature
    of the zone's address, which `list` prints first, has no statement, so that trust is worked out once more."""
    draw = random.Random(20261125)
    zone = zone_records(draw)
    capture = [
        response(number, ZONE, ([] if number else zone) + delegation(draw, number)) for number in range(messages)
    ]
    return Shape({"capture": capture, "anchors": ANCHORS}, pairs=2 + messages, answered_from=1)


def alike(messages: int) -> Shape:
    """So many messages have the trusted key of the zone and 15 keys more, which differ in their last octets alone."""
    draw = random.Random(20261125)
    capture = []
    for number in range(messages):
        others = [twin_key(each, TOTAL, front=LONG) for each in range(15 * number, 15 * number + 15)]
        keys = [record(QUESTION, DNSKEY, key) for key in (KEY, *others)]
        capture.append(response(number, ZONE, [*keys, signature(draw, QUESTION, DNSKEY, 2)]))
    return Shape({"capture": capture, "anchors": ANCHORS}, pairs=messages, answered_from=0)
