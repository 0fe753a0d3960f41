"""Trust anchors as IANA publishes those of the root, in XML (RFC 9718): each with the time within which it may be
used."""
import re
from xml.etree import ElementTree
from typing import Any, List, NamedTuple, Optional

from .faults import Refusal, escaped
from .moments import of_date
from .zone_file import WrongEntry, ZoneFile

# The elements of an anchor, and what each may have: what is read of a zone file besides, as an escape, is none of it.
NUMBER, HEX = re.compile(r"\s*[0-9]+\s*", re.ASCII), re.compile(r"[0-9A-Fa-f\s]+", re.ASCII)
FIELDS = {"KeyTag": NUMBER, "Algorithm": NUMBER, "DigestType": NUMBER, "Digest": HEX}


class Timed(NamedTuple):
    """An anchor's record, its owner's name, and the first and the last moment of its use, None where that has no
    end."""

    owner: Any
    record: Any
    start: int
    end: Optional[int]


def is_xml(octets: bytes) -> bool:
    return octets.lstrip(b"\xef\xbb\xbf \t\r\n").startswith(b"<")


def timed_anchors(octets: bytes, path: str) -> List[Timed]:
    """The anchors, in their order."""
    tree = tree_of(octets, path)
    if tree.tag != "TrustAnchor":
        raise Refusal(f"the anchors {path}: XML whose element is {tree.tag!r} in place of TrustAnchor (RFC 9718)")
    return [
        timed(tree.findtext("Zone", ""), each, f"the anchors {path}: KeyDigest {number}")
        for number, each in enumerate(tree.findall("KeyDigest"), 1)
    ]


def tree_of(octets: bytes, path: str) -> ElementTree.Element:
    """The root element. What declares entities, which may unfold to any size, isn't parsed."""
    try:
        text = octets.decode("utf-8-sig")
        if "<!DOCTYPE" not in text:
            return ElementTree.fromstring(text)
    except (UnicodeDecodeError, ElementTree.ParseError) as fault:
        raise Refusal(f"the anchors {path}: no XML: {escaped(str(fault))}") from fault
    raise Refusal(f"the anchors {path}: XML with a DOCTYPE, which trust anchors have none of (RFC 9718)")


def timed(zone: str, element: ElementTree.Element, place: str) -> Timed:
    """The anchor of an element KeyDigest."""
    start, end = element.get("validFrom"), element.get("validUntil")
    try:
        words = " ".join([zone, "DS", *(field_of(element, name) for name in FIELDS)]).split()
        (entry,) = ZoneFile(" ".join(words)).entries()
        return Timed(entry.owner, entry.record, of_date(start or ""), None if end is None else of_date(end))
    except (WrongEntry, ValueError) as fault:
        raise Refusal(f"{place}: {escaped(str(fault))}") from fault


def field_of(element: ElementTree.Element, name: str) -> str:
    text = element.findtext(name, "")
    if not FIELDS[name].fullmatch(text):
        raise ValueError(f"its {name} is {text!r}")
    return text
