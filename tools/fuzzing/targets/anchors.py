"""Files of trust anchors, whichever form they have: the program's, a zone file's, or IANA's XML."""

from __future__ import annotations

import re
from typing import Callable

from dnssec_check_tools.asking.anchors import anchors_of, is_own_form
from dnssec_check_tools.asking.faults import Refusal
from dnssec_check_tools.asking.root_anchors import is_xml

from ..target import DATA, EXAMPLES, Desk, Ended, Target, given, must, refused

MOMENTS = [1500, 1795348800]
NUMBER = "(0|[1-9][0-9]*)"
NUMBERS = rf"[!-~]*\. {NUMBER} {NUMBER} {NUMBER}"  # behind a name, whose labels the program looks at
HEX, BASE64 = "-|([0-9a-f]{2})+", "([A-Za-z0-9+/]{4})*([A-Za-z0-9+/]{2}[A-Za-z0-9+/=]=|[A-Za-z0-9+/]{4})"
LINE = re.compile(f"DS {NUMBERS} ({HEX})|KEY {NUMBERS} {BASE64}")
ANCHOR_REFUSED = 601
ASKED = ("--moment", "1795348800", "--name", "www.bind.test.", "--type", "1")


def run(octets: bytes, desk: Desk) -> Ended:
    """Written by the tool, what is no file of the program's own form is one that the program takes."""
    return ended_of(octets, desk, lambda _: None)


def ended_of(octets: bytes, desk: Desk, check: Callable[[dict[int, bytes]], None]) -> Ended:
    with given(octets) as told:
        try:
            anchors = anchors_of("-", MOMENTS)
        except Refusal as refusal:
            return refused(refusal)
    must(list(anchors) == MOMENTS, "a moment has no anchors")
    if is_own_form(octets) and not is_xml(octets):
        must(set(anchors.values()) == {octets}, "the program's own form was changed")
        check_ends(octets, desk)
        return Ended(True, "own")
    for written in anchors.values():
        check_lines(written)
    check(anchors)
    written = anchors[MOMENTS[-1]]
    if desk.is_turn():
        check_by_program(written, desk)
    return Ended(written != b"\n", f"{kinds_of(written)} {told[:1]}")


def kinds_of(written: bytes) -> list[bytes]:
    return sorted({line.split(b" ")[0] for line in written.split(b"\n")})


def check_lines(written: bytes) -> None:
    for line in written.decode("ascii").split("\n"):
        must(not line or LINE.fullmatch(line) is not None, f"a line that is no anchor: {line[:200]!r}")


def check_ends(octets: bytes, desk: Desk) -> None:
    if desk.is_turn():
        desk.ask("check", files_with(octets), ASKED)


def check_by_program(written: bytes, desk: Desk) -> None:
    said = desk.ask("check", files_with(written), ASKED)
    must(said.number != ANCHOR_REFUSED, f"dnssec_check refuses it: {said.number}")


def files_with(anchors: bytes) -> dict[str, bytes]:
    return {"capture": (EXAMPLES / "bind-www-a" / "capture").read_bytes(), "anchors": anchors}


def corpus() -> list[bytes]:
    """Those of the examples, and the corpora of the other forms."""
    others = [*sorted((DATA / "fuzz" / "zone").glob("*")), *sorted((DATA / "fuzz" / "xml").glob("*"))]
    return [path.read_bytes() for path in (EXAMPLES / "anchors", *sorted(EXAMPLES.glob("*/anchors")), *others)]


DIGEST = b"bff03ea84f03157df9e68034cc09e1c5af266002a79a6b553de579542aa33f96"
WORDS = (
    b"DS",
    b"KEY",
    b"DNSKEY",
    b"IN",
    b"TYPE43",
    b"TYPE48",
    b"3600",
    b"1h",
    b"$ORIGIN",
    b"\\#",
    DIGEST,
    b"AQ==",
    b"<",
)
TARGET = Target("anchors", run, corpus, WORDS)
