"""What the messages of a capture answer to what was asked, read from their octets."""
from typing import Dict, Iterable, Iterator, List, Optional, Tuple

from ..capturing.messages import (
    ANSWER,
    AUTHORITY,
    TYPE_CNAME,
    TYPE_NS,
    TYPE_NSEC,
    TYPE_NSEC3,
    TYPE_SOA,
    Labels,
    Record,
    is_query,
    lower,
    name_at,
    name_text,
    question_of,
    rcode_of,
    records_of,
    remedy_of,
)
from ..capturing.octets import Incomplete
from ..explaining.replies import NO_ERROR, Reply

ALIASES_MOST = 8  # that the program follows


def replies_of(messages: Iterable[bytes]) -> Tuple[Reply, ...]:
    """The replies of all messages that can be read as a whole."""
    found: List[Reply] = []
    for number, octets in enumerate(messages, 1):
        try:
            found += replies_in(number, octets)
        except Incomplete:
            pass
    return tuple(found)


def replies_in(number: int, octets: bytes) -> Iterator[Reply]:
    """That to the question, and those to the same of the names that aliases lead to, each of which has an alias but for
    the last."""
    question = question_of(octets)
    if question is None or is_query(octets):
        return
    records = [(record, lower(name_at(octets, record.name))) for record in records_of(octets)]
    answers = [(owner, record) for record, owner in records if record.section == ANSWER]
    held = {(owner, record.kind) for owner, record in answers}
    aliases = {owner: record for owner, record in answers if record.kind == TYPE_CNAME != question.kind}
    has_denials = any(record.kind in (TYPE_NSEC, TYPE_NSEC3) for record, _ in records)
    rcode, remedy = rcode_of(octets), remedy_of(octets)
    for name in way_of(octets, question.name, aliases):
        has_alias, has_records = name in aliases, (name, question.kind) in held
        referral = None if answers else referral_of(records)
        yield Reply(
            number,
            name_text(name),
            question.kind,
            NO_ERROR if has_alias else rcode,  # which is that of the last name (RFC 6604 3)
            remedy,
            has_records,
            has_alias,
            has_denials,
            referral,
        )


def way_of(octets: bytes, name: Labels, aliases: Dict[Labels, Record]) -> List[Labels]:
    """The name, and those that aliases lead to one after the other, as far as such a way is gone."""
    way = [name]
    while way[-1] in aliases and len(way) <= ALIASES_MOST:
        target = lower(name_at(octets, aliases[way[-1]].front))
        if target in way:
            break
        way.append(target)
    return way


def referral_of(records: List[Tuple[Record, Labels]]) -> Optional[str]:
    """The zone that NS records in place of an answer name (RFC 1034 4.3.2)."""
    kinds = {record.kind: owner for record, owner in records if record.section == AUTHORITY}
    return name_text(kinds[TYPE_NS]) if TYPE_NS in kinds and TYPE_SOA not in kinds else None
