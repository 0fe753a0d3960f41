"""Zone files of DS and DNSKEY records, which are trust anchors."""

from __future__ import annotations

from typing import Any, Optional

from dnssec_check_tools.asking.anchors import anchor_line, is_own_form
from dnssec_check_tools.asking.root_anchors import is_xml
from dnssec_check_tools.asking.zone_file import DS

from ..target import Desk, Ended, Target, must
from . import anchors


def run(octets: bytes, desk: Desk) -> Ended:
    """What is taken has the records that the library's own reader of zone files finds."""
    return anchors.ended_of(octets, desk, lambda written: check_records(octets, written))


def check_records(octets: bytes, written: dict[int, bytes]) -> None:
    if is_xml(octets) or is_own_form(octets):
        return
    wanted = records_by_library(octets)
    if wanted is not None:
        for lines in written.values():
            found = sorted(set(line for line in lines.decode().lower().split("\n") if line))
            must(found == wanted, f"the library reads other records: {wanted[:2]} where {found[:2]} is written")


def records_by_library(octets: bytes) -> Optional[list[str]]:
    """The anchors of its records; None where it refuses the file."""
    import dns.exception
    import dns.zonefile

    lines = octets.decode("utf-8", "replace").split("\n")
    text = "\n".join("" if line.startswith("#") else line.rstrip("\r") for line in lines)
    try:
        rrsets = dns.zonefile.read_rrsets(text, rdclass=None, default_ttl=0, origin=dns.name.root)
    except (dns.exception.DNSException, ValueError, IndexError, NotImplementedError):
        return None
    return sorted({line_of(rrset.name, each) for rrset in rrsets for each in rrset})


def line_of(owner: Any, record: Any) -> str:
    return anchor_line(owner, record, record.rdtype == DS).lower()


WORDS = (
    *anchors.WORDS,
    b"CLASS1",
    b"CH",
    b"$TTL",
    b"$INCLUDE",
    b"$GENERATE",
    b"@",
    b"\\# 4 00010101",
    b"( ",
    b" )",
    b" ; ",
)
TARGET = Target("zone", run, list, WORDS)
