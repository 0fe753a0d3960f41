"""Trust anchors in IANA's XML (RFC 9718)."""

from __future__ import annotations

from xml.dom import minidom

from dnssec_check_tools.asking.root_anchors import is_xml

from ..target import Desk, Ended, Target, must
from . import anchors

FIELDS = ("KeyTag", "Algorithm", "DigestType", "Digest")


def run(octets: bytes, desk: Desk) -> Ended:
    """What is taken has no anchor whose fields aren't each in an element of a KeyDigest."""
    return anchors.ended_of(octets, desk, lambda written: check_fields(octets, written))


def check_fields(octets: bytes, written: dict[int, bytes]) -> None:
    if not is_xml(octets):
        return
    known = fields_of(octets)
    for line in "\n".join(each.decode() for each in written.values()).split("\n"):
        must(not line or tuple(line.split(" ")[2:]) in known, f"an anchor that is none of the elements: {line}")


def fields_of(octets: bytes) -> set[tuple[str, ...]]:
    """The fields of each element KeyDigest, as another library gives them."""
    document = minidom.parseString(octets.decode("utf-8-sig"))
    elements = [each for each in document.documentElement.childNodes if each.nodeName == "KeyDigest"]
    return {tuple(text_of(element, field) for field in FIELDS) for element in elements}


def text_of(element: minidom.Element, field: str) -> str:
    """The text of the first element of this name, numbers without zeros in front, hex in lower case."""
    found = [each for each in element.childNodes if each.nodeName == field]
    nodes = found[0].childNodes if found else []
    text = "".join(
        "".join(each.data for each in nodes if each.nodeType in (each.TEXT_NODE, each.CDATA_SECTION_NODE)).split()
    )
    return text.lower() if field == "Digest" or not (text.isascii() and text.isdigit()) else str(int(text))


WORDS = (
    *(
        b"<KeyDigest",
        b"</KeyDigest>",
        b"<Zone>",
        b"<KeyTag>",
        b"<Algorithm>",
        b"<DigestType>",
        b"<Digest>",
        b"</Digest>",
    ),
    *(
        b'validFrom="',
        b'validUntil="',
        b"<!DOCTYPE",
        b"<![CDATA[",
        b"]]>",
        b"<!--",
        b"-->",
        b"&amp;",
        b"&#10;",
        b"&#0;",
    ),
    *(
        b"2010-07-15T00:00:00+00:00",
        b"9999-12-31T23:59:59-23:59",
        b"0001-01-01T00:00:00+23:59",
        b"\\#",
        b"CLASS1",
        b"IN",
    ),
    *(b"$ORIGIN", b"\xff\xfe", b"<?xml version='1.0' encoding='utf-16'?>", b'xmlns="a"', anchors.DIGEST),
)
TARGET = Target("xml", run, list, WORDS)
