"""Denials of a zone at the root, for a name of many labels."""

from __future__ import annotations

import random
from typing import Callable

from wire import (
    A,
    CNAME,
    DNSKEY,
    HEADER_SIZE,
    NSEC,
    NSEC3,
    QUESTION,
    ROOT,
    RRSIG,
    anchor,
    hash_label,
    key_tag,
    label,
    nsec3_rdata,
    pointer,
    record,
    response,
    rrsig,
    zone_key,
)

from .shape import Shape, check

KEY = zone_key(0, 257)
ANCHORS = [anchor(".", KEY).encode()]
MOST_LABELS = 127
DEEP = label(b"a") * MOST_LABELS + ROOT
SHARED = 119  # so many labels of the name are above the NSEC records
ABOVE = pointer(HEADER_SIZE + 2 * (MOST_LABELS - SHARED))
NSEC_COUNT, NSEC3_COUNT = 112, 120  # in a message
A_RRSIG_NSEC = bytes([0, 6, 0x40, 0, 0, 0, 0, 3])
SALTS = 8  # the most that the evidence may have
LINKS = 8  # the most aliases that are followed
LAST_HASH = 2**160 - 1


def signature(draw: random.Random, owner: bytes, rtype: int, labels: int) -> bytes:
    return record(owner, RRSIG, rrsig(draw, rtype, labels, ROOT, key_tag(KEY)))


def expanded(draw: random.Random, rtype: int, rdata: bytes) -> list[bytes]:
    """A record of the name with 16 signatures, each by another wildcard above it (RFC 4035 5.3.2)."""
    signatures = [signature(draw, QUESTION, rtype, labels) for labels in range(MOST_LABELS - 17, MOST_LABELS - 1)]
    return [record(QUESTION, rtype, rdata), *signatures]


def expanded_sections(draw: random.Random, denials: list[bytes]) -> list[list[bytes]]:
    """Each section has an address and an alias of the name, and the first one the denials too."""
    answers = [expanded(draw, A, bytes(4)) + expanded(draw, CNAME, ROOT) for _ in range(3)]
    return [answers[0] + denials, *answers[1:]]


def nsec_records(draw: random.Random, number: int) -> list[bytes]:
    """NSEC records of one owner, none of which says anything of the name or of those above it."""
    owner = label(b"h%04d" % number)
    following = [label(b"h%04d%03d" % (number, place)) + DEEP[-2 * SHARED - 1 :] for place in range(NSEC_COUNT)]
    records = [record(owner + ABOVE, NSEC, each + A_RRSIG_NSEC) for each in following]
    return [*records, signature(draw, owner + ABOVE, NSEC, SHARED + 1)]


def nsec3_records(draw: random.Random, number: int) -> list[bytes]:
    """The same of NSEC3, with gaps that go over the end of the circle."""
    owner, salt = hash_label(LAST_HASH) + pointer(HEADER_SIZE + 2 * MOST_LABELS), bytes([number % SALTS])
    records = [record(owner, NSEC3, nsec3_rdata(0, salt, NSEC3_COUNT * number + place)) for place in range(NSEC3_COUNT)]
    return [*records, signature(draw, owner, NSEC3, 1)]


def expanded_with(denials_of: Callable[[random.Random, int], list[bytes]], messages: int) -> Shape:
    draw = random.Random(20261125)
    keys = [record(ROOT, DNSKEY, KEY), signature(draw, ROOT, DNSKEY, 0)]
    parts = [([] if number else keys) + denials_of(draw, number) for number in range(messages)]
    capture = [response(number, DEEP, *expanded_sections(draw, part)) for number, part in enumerate(parts)]
    files = {"capture": capture, "anchors": ANCHORS}
    return Shape(files, check("a." * MOST_LABELS), pairs=1 + 97 * messages, answered_from=0)


def expanded_nsec(messages: int) -> Shape:
    """So many messages have 96 signatures of the name, each by a wildcard, and 112 NSEC records. All are good."""
    return expanded_with(nsec_records, messages)


def expanded_nsec3(messages: int) -> Shape:
    """The same with 120 NSEC3 records, of a salt for each of eight messages."""
    return expanded_with(nsec3_records, messages)


def hashes(labels: int) -> Shape:
    """Eight NSEC3 records that nobody signed, with 500 iterations and salts of 255 octets, for a name of so many
    labels."""
    salts = [bytes([number]) * 255 for number in range(SALTS)]
    records = [record(hash_label(LAST_HASH) + ROOT, NSEC3, nsec3_rdata(500, salt, 0)) for salt in salts]
    return Shape({"capture": [response(0, ROOT, records)], "anchors": ANCHORS}, check("a." * labels))


def question_hashes(questions: int) -> Shape:
    """The records of `hashes`, and so many questions, each for another name of three labels, which is hashed anew."""
    asked = [b"a.a.a%d. 1\n" % number for number in range(questions)]
    return Shape({**hashes(3).files, "questions": asked}, ("check", "--moment", "1500"))


def aliases_of(draw: random.Random, labels: int, rest: list[bytes], pairs: int) -> Shape:
    """The root's key and eight aliases, each of the next of nine names of so many labels that differ in the leftmost,
    all with a good signature; and the rest."""
    names = [label(b"%d" % number) + label(b"a") * (labels - 1) + ROOT for number in range(LINKS + 1)]
    records = [record(ROOT, DNSKEY, KEY), signature(draw, ROOT, DNSKEY, 0)]
    for owner, target in zip(names, names[1:]):
        records += [record(owner, CNAME, target), signature(draw, owner, CNAME, labels)]
    capture = [response(0, ROOT, records), *rest]
    files = {"capture": capture, "anchors": ANCHORS}
    return Shape(files, check("0." + "a." * (labels - 1)), pairs=pairs, answered_from=0)


def aliases(messages: int) -> Shape:
    """Eight aliases of names of 127 labels, and so many messages of 112 NSEC records that say nothing of any of
    them."""
    draw = random.Random(20261126)
    rest = [response(number, DEEP, nsec_records(draw, number)) for number in range(1, messages)]
    return aliases_of(draw, MOST_LABELS, rest, LINKS + messages)


def alias_hashes(labels: int) -> Shape:
    """Eight aliases of names of so many labels, and the records of `hashes`, so that nine names are hashed."""
    return aliases_of(random.Random(20261126), labels, list(hashes(labels).files["capture"]), LINKS + 1)
