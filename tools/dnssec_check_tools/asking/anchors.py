"""Trust anchors in the program's form, out of that, out of records as a zone file has them, or out of IANA's XML."""
import base64
import os
from typing import Any, Dict, List, Optional

from ..command import read, shown, tell

from .faults import Failure, Refusal, escaped
from .moments import moment_text
from .root_anchors import Timed, is_xml, timed_anchors
from .zone_file import DS, WrongEntry, ZoneFile

ROOT = "/usr/share/dns/root.ds"
OWN_WORDS = (b"DS", b"KEY")


def anchors_of(path: Optional[str], moments: List[int]) -> Dict[int, bytes]:
    """The octets of the anchors at each moment, which are the system's of the root where no file is named."""
    if path is None and not os.path.exists(ROOT):
        raise Failure(f"no anchors: {ROOT} isn't there (Debian: dns-root-data); name a file by --anchors")
    octets, where = read(path or ROOT), shown(path or ROOT)
    if is_xml(octets):
        anchors = timed_anchors(octets, where)
        lines = {moment: lines_at(anchors, moment) for moment in moments}
        for moment in (moment for moment in moments if not lines[moment]):
            tell(f"note: of the anchors {where} none may be used at {moment_text(moment)}")
        return {moment: joined(found) for moment, found in lines.items()}
    return dict.fromkeys(moments, octets if is_own_form(octets) else joined(lines_of_zone(octets, where)))


def joined(lines: List[str]) -> bytes:
    return ("\n".join(lines).rstrip("\n") + "\n").encode()


def lines_at(anchors: List[Timed], moment: int) -> List[str]:
    """Those that may be used at the moment."""
    return [
        anchor_line(each.owner, each.record, True)
        for each in anchors
        if each.start <= moment and (each.end is None or moment <= each.end)
    ]


def is_own_form(octets: bytes) -> bool:
    """Whether each line that says something begins as the program's do; so does a file that says nothing."""
    fields = [
        line.split() for line in octets.split(b"\n") if line.strip() and not line.lstrip().startswith((b"#", b";"))
    ]
    if not fields:
        return True
    return all(each[0] in OWN_WORDS for each in fields)


def lines_of_zone(octets: bytes, path: str) -> List[str]:
    """The anchors that the DS and DNSKEY records of a zone file are, each on the line on which its record begins: so
    the program numbers anchors and lines as the file does."""
    # A comment of the program's form is none of a zone file, and to dnspython a CR is no end of a line.
    lines = [
        "" if line.startswith("#") else line.rstrip("\r") for line in octets.decode("utf-8", "replace").split("\n")
    ]
    anchors = [""] * len(lines)
    try:
        for each in ZoneFile("\n".join(lines)).entries():
            anchors[each.line - 1] = anchor_line(each.owner, each.record, each.kind == DS)
    except WrongEntry as fault:
        raise Refusal(
            f"the anchors {path}: neither lines `DS ..` and `KEY ..` nor DS and DNSKEY records: "
            f"line {fault.line}: {escaped(str(fault))}"
        ) from fault
    return anchors


def anchor_line(owner: Any, record: Any, is_ds: bool) -> str:
    name = wire_text(owner)
    if is_ds:
        digest = record.digest.hex() or "-"
        return f"DS {name} {record.key_tag} {int(record.algorithm)} {int(record.digest_type)} {digest}"
    key = base64.b64encode(record.key).decode()
    return f"KEY {name} {int(record.flags)} {record.protocol} {int(record.algorithm)} {key}"


def wire_text(name: Any) -> str:
    """The name as the program reads it."""
    from ..capturing.messages import name_text

    return name_text(name.labels[:-1])
