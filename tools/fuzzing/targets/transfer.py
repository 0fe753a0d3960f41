"""Transfers of zones, as dnssec_check-judge reads, asks and cuts them."""

from __future__ import annotations

from unittest import mock

from dnssec_check_tools.asking.faults import Refusal
from dnssec_check_tools.asking.names import labels_of
from dnssec_check_tools.capturing.frames import framed, frames_of
from dnssec_check_tools.judging.evidence import Evidence
from dnssec_check_tools.zones import chain, cutting
from dnssec_check_tools.zones.audit import Audit
from dnssec_check_tools.zones.cutting import Part
from dnssec_check_tools.zones.transfer import transfer_of

from ..target import Desk, Ended, Target, kind_of, must, refused

MOST = 40  # records of a part, so that small zones are cut too


def run(octets: bytes, _desk: Desk) -> Ended:
    """Each part is within its limit and has the evidence of its questions, each of which the program can be asked."""
    with mock.patch.object(cutting, "RECORDS_MOST", MOST), mock.patch.object(chain, "HASHES_MOST", 500):
        try:
            audit = Audit(transfer_of(frames_of(octets)[0]))
        except Refusal as refusal:
            return refused(refusal)
    must([item for part in audit.parts for item in part.items] == audit.items, "a question that is in no part")
    for part in audit.parts:
        check(part)
    said = audit.lacking()
    must("\n".join(said).replace("\n", "").isprintable(), "a line that can't be shown")
    return Ended(True, kind_of(" ".join([str(len(audit.parts)), *sorted({item.about for item in audit.items}), *said])))


def check(part: Part) -> None:
    messages = frames_of(part.octets)[0]
    must(len(part.items) == 1 or cutting.count_of(messages) <= MOST, "a part that is too large")
    there = {(rrset.owner, rrset.kind) for rrset in Evidence(part.octets).rrsets}
    for item in part.items:
        must(labels_of(item.question.name) == item.name, f"the name: {item.question.name!r}")
        must(item.evidence <= there, "evidence that isn't there")


def parts_of(octets: bytes) -> list[bytes]:
    messages, end = frames_of(octets)
    return [*(framed([each]) for each in messages), octets[end:]]


def corpus() -> list[bytes]:
    """None but its own: the capture of a transfer is too large elsewhere."""
    return []


WORDS = (
    b"\xc0\x0c",
    b"\x00\x2f\x00\x01",
    b"\x00\x32\x00\x01",
    b"\x00\x2e\x00\x01",
    b"\x00\x02\x00\x01",
    b"\x01*",
    b"\x3f",
)
TARGET = Target("transfer", run, corpus, WORDS, parts_of)
