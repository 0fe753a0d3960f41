"""What the tools read of DNS messages (RFC 1035 4.1): names, questions and records."""
from typing import Iterable, Iterator, List, NamedTuple, Optional, Set, Tuple

from .octets import Incomplete, Octets, number_at

HEADER_SIZE = 12
MESSAGE_SIZE_MOST = 65535  # what two octets tell (RFC 1035 4.2.2)
NAME_PARTS_MOST = 255  # of 127 labels, each behind a pointer, and the root
QR, AA, TC, RA, CD, DO = 0x8000, 0x0400, 0x0200, 0x0080, 0x0010, 0x8000
TYPE_NS, TYPE_CNAME, TYPE_SOA, TYPE_OPT, TYPE_TSIG = 2, 5, 6, 41, 250
TYPE_DS, TYPE_RRSIG, TYPE_NSEC, TYPE_DNSKEY, TYPE_NSEC3 = 43, 46, 47, 48, 50
ANSWER, AUTHORITY, ADDITIONAL = range(3)
SERVFAIL = 2  # of the RCODEs (RFC 1035 4.1.1)

Labels = Tuple[bytes, ...]


class Question(NamedTuple):
    name: Labels
    kind: int
    group: int


class Record(NamedTuple):
    """Its section and type, and where its owner's name and its RDATA begin and end."""

    section: int
    name: int
    kind: int
    front: int
    end: int


def flags_of(octets: Octets) -> int:
    return number_at(octets, 2, 2)


def opcode_of(octets: Octets) -> int:
    return flags_of(octets) >> 11 & 15


def is_query(octets: Octets) -> bool:
    return not flags_of(octets) & QR


def is_truncated(octets: Octets) -> bool:
    return bool(flags_of(octets) & TC)


# Names


def label_text(label: bytes) -> str:
    """As dnssec_check writes it."""
    return "".join(
        "\\" + chr(octet) if octet in b".\\" else chr(octet) if 0x21 <= octet <= 0x7E else f"\\{octet:03}"
        for octet in label
    )


def name_text(labels: Iterable[bytes]) -> str:
    return "".join(label_text(label) + "." for label in labels) or "."


def name_at(octets: Octets, place: int) -> Labels:
    """The labels of a name as they are spelled, through its pointers (RFC 1035 4.1.4)."""
    labels: List[bytes] = []
    try:
        for _ in range(NAME_PARTS_MOST):
            length = octets[place]
            if length == 0:
                return tuple(labels)
            if length < 64:
                labels.append(bytes(octets[place + 1 : place + 1 + length]))
                place += 1 + length
            elif length >= 0xC0:
                place = (length & 0x3F) << 8 | octets[place + 1]
            else:
                break
    except IndexError as fault:
        raise Incomplete("it ends too early") from fault
    raise Incomplete("a name isn't there")


def end_of_name(octets: Octets, place: int) -> int:
    """The place behind a name, whose last part may be a pointer."""
    length = number_at(octets, place, 1)
    while 0 < length < 64:
        place += 1 + length
        length = number_at(octets, place, 1)
    return place + (2 if length >= 0xC0 else 1)


def lower(labels: Iterable[bytes]) -> Labels:
    return tuple(label.lower() for label in labels)


def names_above(names: Iterable[Labels]) -> Set[Labels]:
    """The names and all above them."""
    return {name[place:] for name in names for place in range(len(name) + 1)}


# Questions and records


def question_text(octets: Octets) -> str:
    """The first question's name and type, for people to know the message by."""
    try:
        if number_at(octets, 4, 2) == 0:
            return "no question"
        labels = name_at(octets, HEADER_SIZE)
        return f"{name_text(labels)} type {number_at(octets, end_of_name(octets, HEADER_SIZE), 2)}"
    except Incomplete:
        return "no question"


def questions_of(octets: Octets) -> Tuple[Tuple[Question, ...], int]:
    """The questions, names in lower case, and the place behind them; none where one isn't whole."""
    place, questions = HEADER_SIZE, []
    try:
        for _ in range(number_at(octets, 4, 2)):
            end = end_of_name(octets, place)
            kind, group = number_at(octets, end, 2), number_at(octets, end + 2, 2)
            questions.append(Question(lower(name_at(octets, place)), kind, group))
            place = end + 4
    except Incomplete:
        return (), HEADER_SIZE
    return tuple(questions), place


def question_of(octets: Octets) -> Optional[Question]:
    """The first question, None where there is none."""
    questions = questions_of(octets)[0]
    return questions[0] if questions else None


def records_of(octets: Octets) -> Iterator[Record]:
    """The records, with where their owner's name and their RDATA begin and end."""
    place = questions_of(octets)[1]
    for section, count in enumerate(number_at(octets, at, 2) for at in (6, 8, 10)):
        for _ in range(count):
            front = end_of_name(octets, place)
            end = front + 10 + number_at(octets, front + 8, 2)
            yield Record(section, place, number_at(octets, front, 2), front + 10, end)
            place = end


def key_tag(rdata: bytes) -> int:
    """That of a DNSKEY record by its octets, of every algorithm alike (RFC 4034 B), as the program has it."""
    total = sum(octet << 8 if place % 2 == 0 else octet for place, octet in enumerate(rdata))
    return (total + (total >> 16)) & 0xFFFF


def edns_of(octets: Octets) -> int:
    """What the OPT record of a whole message has for a TTL, 0 where there is none (RFC 6891 6.1.3)."""
    found = [number_at(octets, record.front - 6, 4) for record in records_of(octets) if record.kind == TYPE_OPT]
    return (found or [0])[0]


def rcode_of(octets: Octets) -> int:
    """How it went, of a whole message; the upper octet is in the OPT record."""
    return edns_of(octets) >> 24 << 4 | flags_of(octets) & 15


def remedy_of(octets: Octets) -> Optional[str]:
    """What to ask where a whole answer tells of the failure of a resolver; None for any other. One that validates keeps
    back what is Bogus, and hands out what it has to who asks with CD (RFC 4035 3.2.2)."""
    if rcode_of(octets) != SERVFAIL or not flags_of(octets) & RA:
        return None
    return "ask the servers of the zone" if flags_of(octets) & CD else "ask with CD (delv +cd)"


def is_with_do(octets: Octets) -> bool:
    """Whether signatures were asked for, of a whole answer, which repeats the flag (RFC 3225 3)."""
    return bool(edns_of(octets) & DO)


def is_message(octets: Octets) -> bool:
    """Whether the octets are a message as a whole, with a question or a record."""
    return read_as_message(octets)[0]


def read_as_message(octets: Octets) -> Tuple[bool, int]:
    """Whether they are, and how many records were read to find that out."""
    count = 0
    try:
        questions, end = questions_of(octets)
        for count, record in enumerate(records_of(octets), 1):
            end = record.end
        return len(questions) == number_at(octets, 4, 2) and HEADER_SIZE < end == len(octets), count
    except Incomplete:
        return False, count
