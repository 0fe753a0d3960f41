"""What leads from a trust anchor to many signatures, of which `explain` tells each."""

from __future__ import annotations

import hashlib
import random
import struct

from wire import (
    A,
    ALGORITHM,
    CNAME,
    DNSKEY,
    DS,
    QUESTION,
    RRSIG,
    ZONE,
    anchor,
    key_tag,
    label,
    record,
    response,
    rrsig,
    twin_key,
)

from .shape import Shape, explain

TOTAL, SHORT, LONG = 65_000, bytes(28), bytes(4_000)
KEYS, DEPTH, ALIASES, SIGNATURES = 15, 24, 8, 8
SHA_256 = 2


def keys_of(front: bytes) -> list[bytes]:
    """Keys of one tag."""
    return [twin_key(number, TOTAL, front) for number in range(KEYS)]


def signed(draw: random.Random, owner: bytes, labels: int, rtype: int, rdata: bytes, tag: int) -> list[bytes]:
    """A record, with a signature by one of the zone's keys."""
    return [record(owner, rtype, rdata), record(owner, RRSIG, rrsig(draw, rtype, labels, ZONE, tag))]


def key_set(draw: random.Random, keys: list[bytes]) -> list[bytes]:
    """The zone's keys, with a signature."""
    tag = key_tag(keys[0])
    return [
        *(record(QUESTION, DNSKEY, key) for key in keys),
        record(QUESTION, RRSIG, rrsig(draw, DNSKEY, 2, ZONE, tag)),
    ]


def digest_of(key: bytes) -> bytes:
    return struct.pack("!HBB", key_tag(key), ALGORITHM, SHA_256) + hashlib.sha256(ZONE + key).digest()


def key_field(key: bytes) -> bytes:
    """The key's octets as `list` writes them."""
    return key[4:].hex().encode()


def of_keys(capture: list[bytes], keys: list[bytes], name: str, signatures: int) -> Shape:
    """The first key is the anchor, and what is signed is good under the last. Each signature may be each key's."""
    first, last = keys[0], keys[-1]
    anchors = [anchor("bench.example.", first).encode(), anchor("bench.example.", last).encode()]
    files = {"capture": capture, "anchors": anchors}
    return Shape(files, explain(name), signatures * KEYS, answered_from=0, answered_by=key_field(last))


def below(depth: int) -> bytes:
    return label(b"d") * depth + QUESTION


def key_sets(messages: int) -> Shape:
    """So many messages have the zone's DNSKEY RRset, of 15 keys of one tag, and DS RRsets of the same 24 names below
    it, each of which is derived."""
    draw, keys = random.Random(20261127), keys_of(SHORT)
    tag = key_tag(keys[0])
    capture = []
    for number in range(messages):
        rest: list[bytes] = []
        for depth in range(1, DEPTH + 1):
            rdata = struct.pack("!HBB", number, ALGORITHM, SHA_256) + draw.randbytes(32)
            rest += signed(draw, below(depth), 2 + depth, DS, rdata, tag)
        capture.append(response(number, ZONE, [*key_set(draw, keys), *rest]))
    return of_keys(capture, keys, "d." * DEPTH + "bench.example.", messages * (DEPTH + 1))


def key_sets_apart(messages: int) -> Shape:
    """The same, but that the first of the keys of each RRset is one which no other has."""
    draw, common = random.Random(20261127), [twin_key(number, TOTAL, SHORT) for number in range(1, KEYS)]
    tag = key_tag(common[0])
    capture = []
    for number in range(messages):
        rest: list[bytes] = []
        for depth in range(1, DEPTH + 1):
            rdata = struct.pack("!HBB", number, ALGORITHM, SHA_256) + draw.randbytes(32)
            rest += signed(draw, below(depth), 2 + depth, DS, rdata, tag)
        keys = [twin_key(KEYS + number, TOTAL, SHORT), *common]
        capture.append(response(number, ZONE, [*key_set(draw, keys), *rest]))
    shape = of_keys(capture, common, "d." * DEPTH + "bench.example.", 0)
    shape.pairs = messages * (DEPTH + 1) * (KEYS - 1 + messages)
    return shape


def key_sets_aliases(messages: int) -> Shape:
    """So many messages have that RRset, and the first an address behind eight aliases."""
    draw, keys = random.Random(20261127), keys_of(SHORT)
    tag = key_tag(keys[0])
    rest: list[bytes] = []
    for number in range(ALIASES):
        rdata = label(b"a%d" % (number + 1)) + ZONE
        rest += signed(draw, label(b"a%d" % number) + QUESTION, 3, CNAME, rdata, tag)
    rest += signed(draw, label(b"a%d" % ALIASES) + QUESTION, 3, A, bytes(4), tag)
    capture = [response(number, ZONE, [*key_set(draw, keys), *([] if number else rest)]) for number in range(messages)]
    return of_keys(capture, keys, "a0.bench.example.", messages + ALIASES + 1)


def ds_anchor(rdata: bytes) -> bytes:
    """The line of the DS record in a file of anchors."""
    tag, algorithm, digest_type = struct.unpack("!HBB", rdata[:4])
    return b"DS bench.example. %d %d %d %s\n" % (tag, algorithm, digest_type, rdata[4:].hex().upper().encode())


def key_anchors(messages: int) -> Shape:
    """So many messages have a DNSKEY RRset of 15 keys of 4,008 octets and of one tag, each other ones; as many DS
    anchors of that tag are none of theirs, and the last is the last key's."""
    draw = random.Random(20261127)
    capture: list[bytes] = []
    keys: list[bytes] = []
    for number in range(messages):
        keys = [twin_key(each, TOTAL, back=LONG) for each in range(KEYS * number, KEYS * number + KEYS)]
        capture.append(response(number, ZONE, key_set(draw, keys)))
    tag = key_tag(keys[0])
    others = [struct.pack("!HBB", tag, ALGORITHM, SHA_256) + draw.randbytes(32) for _ in range(messages)]
    anchors = [ds_anchor(rdata) for rdata in (*others, digest_of(keys[-1]))]
    files = {"capture": capture, "anchors": anchors}
    pairs = messages * messages * KEYS
    return Shape(files, explain("www.bench.example."), pairs, answered_from=0, answered_by=key_field(keys[-1]))


def keys_to_check(messages: int) -> Shape:
    """So many messages have a DNSKEY RRset of 15 keys of one tag, each other ones, with eight signatures, and the first
    the address that is asked for; nothing is answered, and the first key is the anchor."""
    draw = random.Random(20261127)
    capture: list[bytes] = []
    for number in range(messages):
        keys = [twin_key(each, TOTAL, SHORT) for each in range(KEYS * number, KEYS * number + KEYS)]
        more = [record(QUESTION, RRSIG, rrsig(draw, DNSKEY, 2, ZONE, key_tag(keys[0]))) for _ in range(SIGNATURES - 1)]
        asked = [] if number else signed(draw, QUESTION, 2, A, bytes(4), key_tag(keys[0]))
        capture.append(response(number, ZONE, [*key_set(draw, keys), *more, *asked]))
    first = twin_key(0, TOTAL, SHORT)
    files = {"capture": capture, "anchors": [anchor("bench.example.", first).encode()]}
    return Shape(files, explain("bench.example."), (messages * SIGNATURES + 1) * messages * KEYS)
