"""The records of a capture as people read them, with their numbers."""
from typing import Any, Iterator, List
from ..asking.captures import captures_of, shown_of, told_apart
from ..asking.faults import WrongLine, escaped, lacking
from ..capturing.messages import Record, key_tag, question_text
from ..capturing.octets import Incomplete, number_at

from .evidence import Evidence, Placed

SECTIONS = ("answer", "authority", "additional")
TYPE_DNSKEY, TYPE_OPT = 48, 41


def library() -> Any:
    try:
        import dns.exception
        import dns.flags
        import dns.message
        import dns.name
        import dns.rcode
        import dns.rdata
        import dns.rdataclass
        import dns.rdatatype
    except ImportError as fault:
        raise lacking("dnspython", "--records", fault) from fault
    return dns


def texts_of(words: List[str]) -> Iterator[str]:
    """The lines of each capture; captures alone may be named."""
    paths, questions = told_apart(words)
    if not paths or questions:
        raise WrongLine("--records is followed by captures, and by no question")
    captures = captures_of(paths)
    for capture in captures:
        front = f"{escaped(capture.path)}: " if len(captures) > 1 else ""
        yield "".join(front + line + "\n" for line in lines_of(shown_of(capture.path)))


def lines_of(octets: bytes) -> Iterator[str]:
    """A line for each message, question and record."""
    dns, evidence = library(), Evidence(octets)
    for number, (message, placed) in enumerate(zip(evidence.messages, evidence.placed), 1):
        yield escaped(f"message {number}: {header_text(dns, message, placed)}")
        for each in placed:
            text = record_text(dns, message, each.record)
            yield escaped(f"message {number} record {each.number} {place_text(each)}: {text}")


def header_text(dns: Any, octets: bytes, placed: List[Placed]) -> str:
    try:
        identifier, flags = number_at(octets, 0, 2), number_at(octets, 2, 2)
        counts = [number_at(octets, place, 2) for place in (4, 6, 8, 10)]
    except Incomplete:
        return f"too short, {octets.hex()}"
    names = dns.flags.to_text(flags)
    response = dns.rcode.to_text(dns.rcode.from_flags(flags, edns_of(octets, placed)))
    told = ", ".join(f"{count} {name}" for count, name in zip(counts[1:], SECTIONS))
    return f"identifier {identifier:04x}, flags {names or '-'}, {response}, question {question_of(dns, octets)}, {told}"


def edns_of(octets: bytes, placed: List[Placed]) -> int:
    """What the OPT record has for a TTL, 0 where there is none: its upper octet is that of the response code (RFC 6891
    6.1.3)."""
    return next((number_at(octets, each.record.front - 6, 4) for each in placed if each.record.kind == TYPE_OPT), 0)


def question_of(dns: Any, octets: bytes) -> str:
    name, _, kind = question_text(octets).rpartition(" type ")
    return f"{name} {dns.rdatatype.to_text(int(kind))}" if kind.isdigit() else "-"


def place_text(placed: Placed) -> str:
    """Its section, and what it is or signs."""
    section = SECTIONS[placed.record.section]
    if placed.rrset is None:
        return f"({section})"
    if placed.signature is None:
        return f"({section}) RRset {placed.rrset.number}"
    return f"({section}) RRset {placed.rrset.number} signature {placed.signature}"


def record_text(dns: Any, octets: bytes, record: Record) -> str:
    """The record in the form of zone files."""
    front, size = record.front, record.end - record.front
    group, ttl = number_at(octets, front - 8, 2), number_at(octets, front - 6, 4)
    try:
        owner = dns.name.from_wire(octets, record.name)[0].to_text()
    except (dns.exception.DNSException, ValueError, IndexError):
        owner = "?"
    text = rdata_text(dns, octets, record, group, size)
    if record.kind == TYPE_OPT:
        return f"{owner} OPT, UDP {group}, flags {dns.flags.edns_to_text(ttl) or '-'} {text}".rstrip()
    named = f"{owner} {ttl} {dns.rdataclass.to_text(group)} {dns.rdatatype.to_text(record.kind)} {text}"
    return named + (key_text(octets[front : record.end]) if record.kind == TYPE_DNSKEY and size >= 4 else "")


def rdata_text(dns: Any, octets: bytes, record: Record, group: int, size: int) -> str:
    try:
        return dns.rdata.from_wire(group, record.kind, octets, record.front, size).to_text()
    except (dns.exception.DNSException, ValueError, IndexError, OverflowError, AssertionError):
        return f"\\# {size} {octets[record.front:record.end].hex()}".rstrip()


def key_text(rdata: bytes) -> str:
    flags = int.from_bytes(rdata[:2], "big")
    names = [name for bit, name in ((0x100, "ZONE"), (0x80, "REVOKE"), (1, "SEP")) if flags & bit]
    return f" ; key {key_tag(rdata)}" + (f", flags {' '.join(names)}" if names else "")
