"""Answers as dig, kdig and drill print them, of which messages are written again: with the same records, and in other
octets than those of the server."""
import io
import re
import struct
from typing import Any, Dict, Iterator, List, Optional, Tuple

from ..asking.faults import lacking
from .entries import Found, Message, Note, Refusal
from .messages import AA, ADDITIONAL, CD, DO, QR, RA, TC, TYPE_OPT

MARK = b"->>HEADER<<-"  # what each answer begins with
HEADER = re.compile(r";; ->>HEADER<<- opcode: (\w+)[,;] (?:status|rcode): (\w+)[,;] id: (\d+)\s*$")
FLAGS = re.compile(r";; flags:([ \w]*);.*\bQUERY: \d+", re.IGNORECASE)
EDNS = re.compile(r";+ *(?:EDNS: )?version:? \d+[;,] *flags:([ \w]*)[; ]*udp(?: size)?: (\d+)", re.IGNORECASE)
SECTION = re.compile(r";; (\w+) (?:PSEUDO)?SECTION:")
SECTIONS = {"ANSWER": 0, "AUTHORITY": 1, "ADDITIONAL": 2}
RD, AD = 0x0100, 0x0020
BITS = {"qr": QR, "aa": AA, "tc": TC, "rd": RD, "ra": RA, "ad": AD, "cd": CD}

Lines = Iterator[Tuple[int, str]]


def library() -> Any:
    """Imported where text is read, so that all else does without it."""
    try:
        from .. import wire
    except ImportError as fault:
        raise Refusal(str(lacking("dnspython", "text of dig", fault))) from fault
    return wire


class Printed:
    """An answer as far as it was read: the lines of its records, behind their numbers, by section."""

    def __init__(self, number: int, opcode: str, rcode: str, identifier: str) -> None:
        self.number, self.opcode, self.rcode, self.identifier = number, opcode, rcode, identifier
        self.flags = ""
        self.edns: Optional[Tuple[str, int]] = None
        self.questions: List[Tuple[int, str]] = []
        self.sections: Dict[int, List[Tuple[int, str]]] = {number: [] for number in SECTIONS.values()}
        self.section: Optional[str] = None

    def take(self, number: int, line: str, lines: Lines) -> None:
        """A line of it, with those behind it that are of the same record."""
        titled, flags, edns = SECTION.match(line), FLAGS.match(line), EDNS.match(line)
        if titled:
            self.section = titled[1].upper()
        elif flags:
            self.flags = flags[1]
        elif edns:
            self.edns = edns[1], int(edns[2])
        elif self.section == "QUESTION" and line.startswith(";"):
            self.questions.append((number, line.lstrip("; ")))
            self.section = None
        elif self.section in SECTIONS and line.strip() and not line.startswith(";"):
            self.sections[SECTIONS[self.section]].append((number, whole(line, lines)))


def depth_of(line: str) -> int:
    """How many parentheses it opens more than it closes, outside of strings and of what is behind `;`."""
    depth, is_quoted, is_escaped = 0, False, False
    for each in line:
        if is_escaped or each == "\\":
            is_escaped = not is_escaped
        elif each == '"':
            is_quoted = not is_quoted
        elif not is_quoted and each == ";":
            break
        elif not is_quoted:
            depth += (each == "(") - (each == ")")
    return depth


def whole(line: str, lines: Lines) -> str:
    """The record that begins with the line, whose parentheses may end on another one."""
    parts, depth = [line], depth_of(line)
    while depth > 0:
        following = next(lines, None)
        if following is None:
            break
        parts.append(following[1])
        depth += depth_of(following[1])
    return "\n".join(parts)


def lines_of(octets: bytes) -> Lines:
    for number, line in enumerate(io.BytesIO(octets), 1):
        yield number, line.rstrip(b"\n").decode("latin-1")


def answers_of(octets: bytes) -> Iterator[Printed]:
    found: Optional[Printed] = None
    lines = lines_of(octets)
    for number, line in lines:
        header = HEADER.match(line)
        if header:
            if found:
                yield found
            found = Printed(number, header[1], header[2], header[3])
        elif found:
            found.take(number, line, lines)
    if found:
        yield found


class Writer:
    """Writes messages; `dns` is the library, and `wire` what puts records together."""

    def __init__(self, path: str) -> None:
        self.path, self.wire = path, library()
        import dns.exception
        import dns.opcode
        import dns.rcode
        import dns.rdata
        import dns.tokenizer

        self.dns = dns
        self.number = 0  # of the line that is read

    def message(self, printed: Printed) -> bytes:
        try:
            return self.written(printed)
        except (self.dns.exception.DNSException, ValueError, struct.error, OverflowError) as fault:
            raise Refusal(f"{self.path}: line {self.number} is nothing that dig prints of an answer") from fault

    def written(self, printed: Printed) -> bytes:
        self.number = printed.number
        rcode, flags = (
            int(self.dns.rcode.from_text(printed.rcode)),
            int(self.dns.opcode.from_text(printed.opcode)) << 11,
        )
        flags |= rcode & 15
        for word in printed.flags.split():
            flags |= bit_of(word)
        sections = [[self.record(*line) for line in printed.sections[number]] for number in sorted(printed.sections)]
        if printed.edns or rcode > 15:
            sections[ADDITIONAL].append(self.edns(printed, rcode))
        questions = [self.question(*line) for line in printed.questions]
        counts = [len(part) for part in (questions, *sections)]
        octets = self.wire.header(int(printed.identifier), counts, flags)
        return octets + b"".join(part for parts in (questions, *sections) for part in parts)

    def edns(self, printed: Printed, rcode: int) -> bytes:
        """RFC 6891 6.1.2."""
        flags, size = printed.edns or ("", 0)
        return self.wire.record(b"\x00", TYPE_OPT, b"", rcode >> 4 << 24 | (DO if "do" in flags.split() else 0), size)

    def question(self, number: int, line: str) -> bytes:
        self.number = number
        reader = self.dns.tokenizer.Tokenizer(line)
        name = reader.get_name()
        group, kind = self.group(reader), self.kind(reader)
        return self.wire.written(name) + struct.pack("!2H", kind, group)

    def record(self, number: int, line: str) -> bytes:
        self.number = number
        if not line.isascii():
            raise ValueError
        reader = self.dns.tokenizer.Tokenizer(line)
        name, ttl = reader.get_name(), reader.get_ttl()
        group, kind = self.group(reader), self.kind(reader)
        rdata = self.dns.rdata.from_text(group, kind, reader, None, False)
        return self.wire.record(self.wire.written(name), kind, self.wire.written(rdata), ttl, group)

    def group(self, reader: Any) -> Any:
        return self.dns.rdataclass.from_text(reader.get_string())

    def kind(self, reader: Any) -> Any:
        return self.dns.rdatatype.from_text(reader.get_string())


def bit_of(word: str) -> int:
    """The bit of a flag in the header; what is none of them isn't one that can be written again."""
    if word.lower() not in BITS:
        raise ValueError
    return BITS[word.lower()]


def entries_of_printed(octets: bytes, path: str) -> Iterator[Found]:
    writer, number = Writer(path), 0
    for number, printed in enumerate(answers_of(octets), 1):
        yield Message(writer.message(printed), f"answer {number} of {path}")
    if not number:
        raise Refusal(f"{path}: no answer as dig prints it")
    yield Note(f"the messages of {path} are written anew from text, so their octets aren't the server's")
