#!/usr/bin/env python3
"""Writes a capture of a zone's denials for the bench, the same for the same numbers.

The zone is the root. The capture has RECORDS records: its DNSKEY record, and RRsets of one record, each with a
signature. They are of one of these kinds:
  near   NSEC records with owners of 120 labels, of which a question of 127 has 119
  far    NSEC records with owners of two labels, of which it has none
  hashed NSEC3 records of 500 iterations, with 8 salts, that say nothing of any name

With `anchors` alone it writes the trust anchor: the zone's key. It needs PYTHONPATH=tools.

exit status: 0, it is written; 1, it couldn't be written; 2, the command line is wrong; 130, it was interrupted.
"""

from __future__ import annotations

import argparse
import random
import struct
import sys
from typing import Iterator, Tuple

from wire import (
    DNSKEY,
    NSEC,
    NSEC3,
    ROOT,
    RRSIG,
    anchor,
    hash_label,
    key_tag,
    label,
    nsec3_rdata,
    record,
    response,
    rrsig,
)

from dnssec_check_tools.command import parser_of, run

# An owner, the type, the RDATA and how many labels a signature counts.
Denial = Tuple[bytes, int, bytes, int]
ABOVE = b"\x01a" * 119 + ROOT
KEY = struct.pack("!HBB", 257, 3, 13) + bytes(range(64))
ANCHORS = "anchors"
KINDS = ("near", "far", "hashed")


def signature(draw: random.Random, rtype: int, labels: int) -> bytes:
    return rrsig(draw, rtype, labels, ROOT, key_tag(KEY))


def nsec(count: int, above: bytes) -> Iterator[Denial]:
    """NSEC records from one owner to the next; the last goes back to the first."""
    names = [label(b"h%04d" % number) + above for number in range(count)]
    for place, owner in enumerate(names):
        following = names[(place + 1) % count]
        yield owner, NSEC, following + bytes([0, 6, 0x40, 0, 0, 0, 0, 3]), 1 + len(above) // 2


def nsec3(draw: random.Random, count: int) -> Iterator[Denial]:
    """NSEC3 records whose gaps are empty, so that none covers a hash."""
    for number in range(count):
        salt = bytes([number % 8] * 8)
        hashed = int.from_bytes(draw.randbytes(20), "big") & ~1
        rdata = nsec3_rdata(500, salt, hashed + 1) + bytes([0, 1, 0x40])
        yield hash_label(hashed) + ROOT, NSEC3, rdata, 1


def denials(draw: random.Random, kind: str, count: int) -> Iterator[Denial]:
    if kind == "hashed":
        return nsec3(draw, count)
    return nsec(count, ABOVE if kind == "near" else b"\x01b" + ROOT)


def options_of(words: list[str]) -> argparse.Namespace:
    parser = parser_of(__doc__)
    parser.add_argument("kind", metavar="KIND", choices=[ANCHORS, *KINDS], help="one of the kinds below, or anchors")
    parser.add_argument("records", metavar="RECORDS", type=int, nargs="?", help="how many records the capture has")
    options = parser.parse_args(words)
    if (options.kind == ANCHORS) != (options.records is None):
        parser.error("a capture needs RECORDS, and anchors have none")
    return options


def main(words: list[str]) -> int:
    options = options_of(words)
    if options.kind == ANCHORS:
        sys.stdout.write(anchor(".", KEY))
        return 0
    draw = random.Random(20261123)
    rrsets = denials(draw, options.kind, (options.records - 2) // 2)
    records = [record(ROOT, DNSKEY, KEY), record(ROOT, RRSIG, signature(draw, DNSKEY, 0))]
    for owner, rtype, rdata, labels in rrsets:
        records += [record(owner, rtype, rdata), record(owner, RRSIG, signature(draw, rtype, labels))]
    # Messages of 64 records, whose question is the same.
    for number, first in enumerate(range(0, len(records), 64)):
        sys.stdout.buffer.write(response(number, ROOT, records[first : first + 64]))
    return 0


if __name__ == "__main__":
    run(main)
