"""Captures whose timelines are asked: few moments at which much may change, and many."""

from __future__ import annotations

import pathlib
import random
from typing import Iterable

from dnssec_check_tools.capturing.frames import framed, frames_of
from dnssec_check_tools.judging.evidence import Evidence, rdata_of_signature
from wire import A, DNSKEY, QUESTION, RRSIG, ZONE, anchor, key_tag, label, record, response, rrsig_of, zone_key

from . import denials
from .shape import Shape

TRANSFER = pathlib.Path(__file__).resolve().parent.parent / "transfer.cap"
ROOT_KEY = b"DS . 36374 8 2 bff03ea84f03157df9e68034cc09e1c5af266002a79a6b553de579542aa33f96\n"
OF_TRANSFER = ("--from", "1790000000", "--to", "1810000000")
USED = 20  # signatures that the question of bystanders uses
EACH, SECTIONS = 16, 3  # signatures of an RRset, and RRsets of one name and type in a message
WEEK, DAY = 7 * 86400, 86400
DEEP = 31  # labels of the name whose hashes are asked for
KEY = zone_key(0, 257)
WHOLE = (0, 2**31 - 2)  # the times of the keys' signature


def asked(name: str, rtype: int, span: tuple[str, ...]) -> tuple[str, ...]:
    return ("timeline", *span, "--name", name, "--type", str(int(rtype)))


def signature(draw: random.Random, rtype: int, labels: int, times: tuple[int, int]) -> bytes:
    return record(QUESTION, RRSIG, rrsig_of(rtype, labels, ZONE, key_tag(KEY), draw.randbytes(64), times))


def keys_message(draw: random.Random) -> bytes:
    return response(0, ZONE, [record(QUESTION, DNSKEY, KEY), signature(draw, DNSKEY, 2, WHOLE)])


def address(draw: random.Random, signatures: Iterable[tuple[int, int]]) -> list[bytes]:
    """An address of the question's name with a signature of each of these times."""
    return [record(QUESTION, A, bytes(4)), *(signature(draw, A, 3, times) for times in signatures)]


def shape(capture: list[bytes], pairs: int, span: tuple[str, ...]) -> Shape:
    files = {"capture": capture, "anchors": [anchor("bench.example.", KEY).encode()]}
    return Shape(files, asked("www.bench.example.", A, span), pairs, 0, listed=span)


def transfer(messages: int) -> Shape:
    """So many messages of the transfer of a signed zone, whose signatures all have one inception and one expiration, as
    those of each zone above it have; an address is asked for, over all of these and some time besides."""
    octets = framed(frames_of(TRANSFER.read_bytes())[0][:messages])
    files = {"capture": [octets], "anchors": [ROOT_KEY]}
    return Shape(files, asked("host-0001.big.test.", A, OF_TRANSFER), signed(octets), 0, listed=OF_TRANSFER)


def signed(octets: bytes) -> int:
    """How many signatures there are, each by one key; those that stand in several messages count once."""
    evidence = Evidence(octets)
    placed = ((message, each) for message, of in zip(evidence.messages, evidence.placed) for each in of)
    made = ((each.rrset, rdata_of_signature(message, each.record)) for message, each in placed if each.signature)
    return len({(rrset.owner, rrset.kind, rdata) for rrset, rdata in made if rrset})


def bystanders(signatures: int) -> Shape:
    """So many signatures, each with times of its own, of which 20 are of the address that is asked for: each begins a
    day behind the one before, and lasts a week. The others are of other names."""
    draw, www = random.Random(20261129), label(b"www") + ZONE
    times = [(DAY * number, DAY * number + WEEK) for number in range(USED)]
    parts = [times[:EACH], times[EACH:]]
    capture = [
        keys_message(draw),
        *(response(1 + number, www, address(draw, part)) for number, part in enumerate(parts)),
    ]
    last = DAY * USED + WEEK
    capture += of_others(draw, signatures - USED - 1, last)
    return shape(capture, signatures, ("--from", "0", "--to", str(last)))


def of_others(draw: random.Random, count: int, last: int) -> list[bytes]:
    """Messages with so many addresses of other names, each signed for a week from a moment of its own on."""
    messages = []
    for number in range(0, count, EACH * 4):
        part = range(number, min(number + EACH * 4, count))
        records = [each for other in part for each in bystander(draw, other, last * other // count)]
        messages.append(response(3 + number, ZONE, records))
    return messages


def bystander(draw: random.Random, number: int, first: int) -> list[bytes]:
    """An address of a name of its own, signed for a week from this moment on."""
    owner = label(b"h%d" % number) + QUESTION
    made = rrsig_of(A, 3, ZONE, key_tag(KEY), draw.randbytes(64), (first, first + WEEK + number))
    return [record(owner, A, bytes(4)), record(owner, RRSIG, made)]


def ends(signatures: int) -> Shape:
    """So many signatures of addresses of one name, 16 of each RRset, in all sections of messages: all begin at once,
    and each ends a second behind the one before, so that each in turn is the one that carries the answer."""
    draw, www = random.Random(20261129), label(b"www") + ZONE
    parts = [range(first, min(first + EACH, signatures)) for first in range(0, signatures, EACH)]
    sets = [address(draw, [(1000, 2000 + number) for number in part]) for part in parts]
    groups = [sets[first : first + SECTIONS] for first in range(0, len(sets), SECTIONS)]
    capture = [response(1 + number, www, *group) for number, group in enumerate(groups)]
    return shape([keys_message(draw), *capture], signatures + 1, ("--from", "0", "--to", str(3000 + signatures)))


def hashes(signatures: int) -> Shape:
    """So many signatures, of the keys and of addresses of other names, each with times of its own; and the NSEC3
    records of `hashes`, which nobody signed. An address of a name of 31 labels is asked for, of which the capture has
    nothing, so at each moment its hashes are asked for."""
    draw, last = random.Random(20261129), DAY * USED + WEEK
    capture = [keys_message(draw), *denials.hashes(DEEP).files["capture"], *of_others(draw, signatures - 1, last)]
    files = {"capture": capture, "anchors": [anchor("bench.example.", KEY).encode()]}
    span = ("--from", "0", "--to", str(last))
    return Shape(files, asked("a." * (DEEP - 2) + "bench.example.", A, span), signatures, 0, listed=span)
