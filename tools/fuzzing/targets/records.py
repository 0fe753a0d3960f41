"""Captures as dnssec_check-judge reads them: RRsets with the numbers of the program, and records as text."""

from __future__ import annotations

import json
from typing import Any

from dnssec_check_tools.asking.captures import octets_of
from dnssec_check_tools.capturing.frames import framed, frames_of
from dnssec_check_tools.capturing.sources import other_kind_of
from dnssec_check_tools.judging.evidence import Evidence
from dnssec_check_tools.judging.records import lines_of

from ..target import EXAMPLES, Desk, Ended, Target, given, kind_of, must


def run(octets: bytes, desk: Desk) -> Ended:
    if other_kind_of(octets):
        return Ended(False, "a file of another kind, which is the target capture's")
    with given(octets):
        read = octets_of("-")
    must(read == octets, "a small capture isn't read as it is")
    evidence, lines = Evidence(octets), [*lines_of(octets)]
    must(all(line.isprintable() for line in lines), "a line that can't be shown")
    must([each.number for each in evidence.rrsets] == [*range(1, len(evidence.rrsets) + 1)], "numbers that don't rise")
    for rrset in evidence.rrsets:
        evidence.target(rrset.number)
        for number in range(1, len(rrset.signatures) + 2):
            found = evidence.signature(rrset.number, number)
            must((found is None) == (number > len(rrset.signatures)), "a signature that isn't there")
    if desk.is_turn():
        check_by_program(octets, evidence, desk)
    return Ended(bool(evidence.rrsets), shape_of(lines))


def shape_of(lines: list[str]) -> str:
    """Which records there are, by their last words."""
    return kind_of(" ".join(sorted({" ".join(line.split(" ")[4:9]) for line in lines})))


def check_by_program(octets: bytes, evidence: Evidence, desk: Desk) -> None:
    """Where the program takes the capture, it gives the same RRsets and signatures the same numbers."""
    said = desk.ask("list", {"capture": octets}, ["--all", "--json", "--moment", "1500"])
    if said.status == 0:
        found = {
            (rrset.number, number): (rrset.kind, signature.tag)
            for rrset in evidence.rrsets
            for number, signature in enumerate(rrset.signatures, 1)
        }
        signed = json.loads(said.output)["data"]
        must(set(found) == {(each["rrset"], each["signature"]) for each in signed}, "the program numbers otherwise")
        for each in signed:
            check_signed(each, found)


def check_signed(each: dict[str, Any], found: dict[tuple[int, int], tuple[int, int]]) -> None:
    """What a signature signs begins with the type of its RRset, and has the tag of its key (RFC 4034 3.1.8.1)."""
    data = each["data"] or ""
    if data not in ("", "-"):
        wanted = int(data[:4], 16), int(data[32:36], 16)
        must(
            found[each["rrset"], each["signature"]] == wanted,
            f"the program has another type or tag for a signature: {wanted}",
        )


def parts_of(octets: bytes) -> list[bytes]:
    messages, end = frames_of(octets)
    return [*(framed([each]) for each in messages), octets[end:]]


def corpus() -> list[bytes]:
    found = [path.read_bytes() for path in sorted(EXAMPLES.glob("*/capture"))]
    messages = {message for octets in found for message in frames_of(octets)[0]}
    return [*(octets for octets in found if len(octets) < 8000), *(framed([each]) for each in sorted(messages))]


WORDS = (
    *(
        b"\xc0\x0c",
        b"\xc0\x00",
        b"\xc0\xff",
        b"\x00\x30\x00\x01",
        b"\x00\x2e\x00\x01",
        b"\x00\x05\x00\x01",
        b"\x00\x29",
    ),
    *(b"\x00\x00\x29\x10\x00", b"\x00\x32\x00\x01", b"\x00\x2f\x00\x01", b"\x3f", b"\x40", b"\x01*\x00", b"\x00"),
)
TARGET = Target("records", run, corpus, WORDS, parts_of)
