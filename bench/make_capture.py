#!/usr/bin/env python3
"""Writes a file of captured messages for the bench, the same for the same numbers.

Each message is a response with RECORDS records in its answer section, of one of these kinds:
  signed  RRsets of five records of the types A, AAAA, MX, TXT and NS at owners of their own, each with
          16 signatures, the most that an RRset may have
  owners  records each with an owner of its own, the most that a section can hold apart
  names   the same, and no two messages have an owner in common
  deep    as owners, with owners of 122 labels
  pairs   NSEC3 records each with a salt of its own, which is refused
  keyed   as signed, and the first message begins with a DNSKEY record, whose key each signature names
  tagged  as keyed, with 16 DNSKEY records of one tag, each of which may have made each signature
  vouched as tagged, and the DNSKEY RRset has 16 signatures of its own, by which it can be trusted
  tree    zones of eight records each: a DS RRset that the zone above signs, the two keys, which both sign their RRset,
          and an address; each zone has eight zones below it
  chain   the same, and each zone has one zone below it
  bare    as chain, without the DS RRsets
  collide the keys of the first zone, and then in each message 16 keys of one tag of a zone below it and 46 DS records
          with that tag, of which none matches; RECORDS says nothing here

With `anchor` alone it writes a file of the anchor that the zones of tree, chain, bare and collide begin with. It needs
PYTHONPATH=tools.

exit status: 0, it is written; 1, it couldn't be written; 2, the command line is wrong; 130, it was interrupted.
"""

from __future__ import annotations

import argparse
import hashlib
import random
import struct
import sys

from wire import QUESTION, ROOT, ZONE, anchor, key_tag, label, nsec3_rdata, record, response, rrsig, twin_key, zone_key

from dnssec_check_tools.command import parser_of, run

TYPES = {1: 4, 28: 16, 15: 0, 16: 24, 2: 0}  # the type and how many octets its RDATA has, 0 where it has a name
DEEP = b"\x01a" * 121 + ROOT
ANCHOR = "anchor"
WIDTHS = {"tree": 8, "chain": 1, "bare": 1}  # how many zones each zone has below it
KINDS = ("signed", "owners", "names", "deep", "pairs", "keyed", "tagged", "vouched", *WIDTHS, "collide")


def rdata_of(draw: random.Random, rtype: int) -> bytes:
    name = bytes([8]) + bytes(draw.choices(b"ABCDEFGHijklmnop", k=8)) + ZONE
    if rtype == 15:
        return struct.pack("!H", draw.randrange(100)) + name
    if rtype == 2:
        return name
    octets = draw.randbytes(TYPES[rtype])
    return bytes([len(octets) - 1]) + octets[1:] if rtype == 16 else octets


def dnskey(number: int) -> bytes:
    """A key. All have one tag."""
    return twin_key(number, 1000, back=bytes(range(60)))


def records_of(draw: random.Random, count: int, kind: str, message: int) -> list[bytes]:
    """The records of one message, RRset by RRset."""
    if kind == "pairs":
        return [record(QUESTION, 50, nsec3_rdata(1, struct.pack("!H", number), 0)) for number in range(count)]
    signatures = 16 if kind in ("signed", "keyed", "tagged", "vouched") else 0
    keys = {"keyed": 1, "tagged": 16, "vouched": 16}.get(kind, 0)
    records, is_first = [], message == 0
    if is_first:
        records += [record(QUESTION, 48, dnskey(number)) for number in range(keys)]
    if is_first and kind == "vouched":
        records += [record(QUESTION, 46, rrsig(draw, 48, 2, ZONE, key_tag(dnskey(0)))) for _ in range(signatures)]
    for number in range(count):
        if len(records) >= count:
            break
        host = b"h%d-%d" % (message, number) if kind == "names" else b"h%d" % number
        owner = label(host) + QUESTION
        rtype = draw.choice(list(TYPES)) if signatures else 1
        size = 5 if signatures else 1
        records += [record(owner, rtype, rdata_of(draw, rtype)) for _ in range(size)]
        for _ in range(signatures):
            tag = key_tag(dnskey(0)) if keys else draw.randrange(65536)
            records.append(record(owner, 46, rrsig(draw, rtype, 3, ZONE, tag)))
    return records[:count]


def zone_name(number: int, width: int) -> bytes:
    """Zone 0 is the first, and each zone has as many below it as the width says."""
    if number == 0:
        return ZONE
    return label(b"z%d" % number if width > 1 else b"z") + zone_name((number - 1) // width, width)


def zone_signature(draw: random.Random, rtype: int, owner: bytes, signer: bytes, tag: int) -> bytes:
    return rrsig(draw, rtype, owner.count(b"z") + owner.count(b"sub") + 2, signer, tag)


def zone_records(draw: random.Random, number: int, width: int) -> list[bytes]:
    zone, above = zone_name(number, width), (number - 1) // width if number else 0
    parent = zone_name(above, width)
    first, second = zone_key(number, 257), zone_key(number, 256)
    digest = hashlib.sha256(zone + first).digest()
    return [
        record(zone, 43, struct.pack("!HBB", key_tag(first), 13, 2) + digest),
        record(zone, 46, zone_signature(draw, 43, zone, parent, key_tag(zone_key(above, 256)))),
        record(zone, 48, first),
        record(zone, 48, second),
        record(zone, 46, zone_signature(draw, 48, zone, zone, key_tag(first))),
        record(zone, 46, zone_signature(draw, 48, zone, zone, key_tag(second))),
        record(zone, 1, bytes([192, 0, 2, 1])),
        record(zone, 46, zone_signature(draw, 1, zone, zone, key_tag(second))),
    ]


def zones_of(draw: random.Random, number: int, count: int, width: int, behind: int) -> list[bytes]:
    """The records of one message, zone by zone, each without so many at its beginning."""
    zones = range(number * count // 8, (number + 1) * count // 8)
    return [each for zone in zones for each in zone_records(draw, zone, width)[behind:]]


def collide(draw: random.Random, number: int) -> list[bytes]:
    """The records of one message: keys of one tag, and DS records that each of them has to be tried with."""
    if number == 0:
        return zone_records(draw, 0, 8)[2:6]
    below = b"\x03sub" + ZONE
    numbers = range(number * 16, number * 16 + 16)
    keys = [twin_key(each, 65000, back=bytes(range(60))) for each in numbers]
    tag = key_tag(keys[0])
    return [
        *(record(below, 43, struct.pack("!HBB", tag, 13, 2) + draw.randbytes(32)) for _ in range(46)),
        record(below, 46, zone_signature(draw, 43, below, ZONE, key_tag(zone_key(0, 256)))),
        *(record(below, 48, key) for key in keys),
        record(below, 46, zone_signature(draw, 48, below, below, tag)),
    ]


def records_of_kind(draw: random.Random, number: int, kind: str, count: int) -> list[bytes]:
    """The records of one message."""
    if kind in WIDTHS:
        return zones_of(draw, number, count, WIDTHS[kind], 2 if kind == "bare" else 0)
    return collide(draw, number) if kind == "collide" else records_of(draw, count, kind, number)


def options_of(words: list[str]) -> argparse.Namespace:
    parser = parser_of(__doc__)
    parser.add_argument("kind", metavar="KIND", choices=[ANCHOR, *KINDS], help="one of the kinds below, or anchor")
    parser.add_argument("messages", metavar="MESSAGES", type=int, nargs="?", help="how many messages")
    parser.add_argument("records", metavar="RECORDS", type=int, nargs="?", help="how many records each of them has")
    options = parser.parse_args(words)
    if (options.kind == ANCHOR) != (options.messages is None) or (options.kind == ANCHOR) != (options.records is None):
        parser.error("a capture needs MESSAGES and RECORDS, and an anchor has neither")
    return options


def main(words: list[str]) -> int:
    options = options_of(words)
    if options.kind == ANCHOR:
        sys.stdout.write(anchor("bench.example.", zone_key(0, 257)))
        return 0
    draw = random.Random(20261122)
    for number in range(options.messages):
        records = records_of_kind(draw, number, options.kind, options.records)
        sys.stdout.buffer.write(response(number, DEEP if options.kind == "deep" else ZONE, records))
    return 0


if __name__ == "__main__":
    run(main)
