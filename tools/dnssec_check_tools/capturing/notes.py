"""What the answers lack that whoever asks for a verdict will stumble over."""
from typing import List, Optional, Sequence, Set
from ..asking.kinds import word_of
from .messages import (
    SERVFAIL,
    TYPE_DNSKEY,
    TYPE_DS,
    TYPE_RRSIG,
    Labels,
    is_with_do,
    lower,
    name_at,
    name_text,
    names_above,
    question_of,
    question_text,
    rcode_of,
    records_of,
    remedy_of,
)
from .octets import Incomplete

SIGNER = 18  # where the signer's name stands in the RDATA of an RRSIG record (RFC 4034 3.1)


class Zones:
    """The zones that the answers tell of."""

    def __init__(self) -> None:
        self.signers: List[Labels] = []
        self.delegated: List[Labels] = []
        self.with_keys: Set[Labels] = set()
        self.asked: Set[Labels] = set()

    def take(self, octets: bytes) -> None:
        question = question_of(octets)
        if question and question.kind != TYPE_DS:
            self.asked.add(question.name)
        for record in records_of(octets):
            if record.kind == TYPE_RRSIG:
                self.signers.append(lower(name_at(octets, record.front + SIGNER)))
            elif record.kind == TYPE_DS:
                self.delegated.append(lower(name_at(octets, record.name)))
            elif record.kind == TYPE_DNSKEY:
                self.with_keys.add(lower(name_at(octets, record.name)))

    def without_keys(self) -> List[Labels]:
        """Those that signed something, or that a delegation leads to on the way to a name that was asked for."""
        above = names_above(self.asked)
        on_the_way = [zone for zone in self.delegated if zone in above]
        return [zone for zone in dict.fromkeys(self.signers + on_the_way) if zone not in self.with_keys]


def asked_text(octets: bytes) -> str:
    """The first question, for people to know the message by, with its type by mnemonic."""
    name, _, kind = question_text(octets).rpartition(" type ")
    return f"{name} {word_of(int(kind))}" if kind.isdigit() else "no question"


def failure_of(octets: bytes) -> Optional[str]:
    """What is to be said of an answer that tells of the server's failure."""
    question = question_of(octets)
    if question is None or rcode_of(octets) != SERVFAIL:
        return None
    said = f"the answer for {name_text(question.name)} {word_of(question.kind)} is SERVFAIL"
    remedy = remedy_of(octets)
    return f"{said}: {remedy}" if remedy else said


def without_signatures(messages: Sequence[bytes]) -> str:
    """What is said where no answer has one; each repeats the flag DO of its query (RFC 3225 3)."""
    lacking = "no answer has a signature (RRSIG)"
    if any(map(is_asked_with_do, messages)):
        return f"{lacking}, though they were asked with the flag DO: no zone is signed, or a server left signatures out"
    return f"{lacking}: were they asked without the flag DO (dig +dnssec)?"


def is_asked_with_do(octets: bytes) -> bool:
    try:
        return is_with_do(octets)
    except Incomplete:
        return False


def truncated_of(messages: Sequence[bytes], truncated: Sequence[bytes]) -> List[str]:
    """What is said of truncated answers to questions that no message answers as a whole."""
    whole = {question_of(octets) for octets in messages}
    asked = [asked_text(octets) for octets in truncated if question_of(octets) not in whole]
    return [f"the answer for {text} is truncated, and wasn't asked again by TCP" for text in dict.fromkeys(asked)]


def notes_of(messages: Sequence[bytes], truncated: Sequence[bytes] = ()) -> List[str]:
    """Of these messages, and of truncated answers that were dropped."""
    zones, failures = Zones(), []
    for octets in messages:
        try:
            zones.take(octets)
            failures.append(failure_of(octets))
        except Incomplete:
            pass
    missing = [name_text(zone) for zone in zones.without_keys()]
    notes = [f"no answer has the DNSKEY records of {zone}, a zone on the way" for zone in missing]
    if messages and not zones.signers and not (failures and all(failures)):
        notes.append(without_signatures(messages))
    notes += dict.fromkeys(failure for failure in failures if failure)
    return notes + truncated_of(messages, truncated)
