"""RRsets that a capture has several times, told apart by their messages where they don't stand alike."""
from typing import Any, Dict, FrozenSet, Optional, Sequence, Set, Tuple

from .values import DNSKEY, all_of, owned

Line = Dict[str, Any]
Named = Tuple[str, int]  # an owner and a type
Fact = FrozenSet[Tuple[str, Any]]
Texts = Dict[FrozenSet[Fact], str]  # the messages of those that stand alike
# What only says where something stands, and differs from copy to copy.
PLACES = {"rrset", "record", "signature", "keys", "ds_rrset", "ds_record"}
MESSAGES_MOST = 3  # that are named


def rrset_of(line: Line) -> Optional[Tuple[Named, int]]:
    """The RRset that a line is about; None where it's about a name, an anchor or a DS record."""
    if "rrset" not in line or ("digest_type" in line and line["line"] != "trusted"):
        return None
    if "type" in line:
        return (line["owner"], line["type"]), line["rrset"]
    return ((line["zone"], DNSKEY), line["rrset"]) if "zone" in line and "name" not in line else None


def fact_of(line: Line) -> Fact:
    """What is said of a copy, but for where it is."""
    return frozenset((name, None if name in PLACES else value) for name, value in line.items())


class Copies:
    """What lines say of each RRset, and in which message it is."""

    def __init__(self, lines: Sequence[Line]) -> None:
        self.messages = {line["rrset"]: line["message"] for line in lines if line["line"] == "rrset"}
        self.facts: Dict[Named, Dict[int, Set[Fact]]] = {}
        self.kept: Dict[Named, Texts] = {}
        for line in lines:
            about = rrset_of(line)
            if about:
                facts = self.facts.setdefault(about[0], {}).setdefault(about[1], set())
                facts.update(() if line["line"] == "rrset" else (fact_of(line),))

    def of(self, line: Line, about: str) -> str:
        """What stands behind that which a sentence is about: the messages of the RRset that the line is about. Nothing
        where that is something else, or no copy in another message stands otherwise."""
        rrset = rrset_of(line)
        messages = self.messages_of(*rrset) if rrset and about == owned(*rrset[0]) else ""
        return f" of {messages}" if messages else ""

    def messages_of(self, named: Named, number: int) -> str:
        """The messages of the RRset, and of those that stand as it does; nothing where all do, or none is known."""
        facts = self.facts.get(named, {})
        if named not in self.kept:
            self.kept[named] = self.texts(facts)
        return self.kept[named].get(frozenset(facts.get(number, ())), "")

    def texts(self, facts: Dict[int, Set[Fact]]) -> Texts:
        groups: Dict[FrozenSet[Fact], Set[int]] = {}
        for number, said in facts.items():
            messages = groups.setdefault(frozenset(said), set())
            messages.update([self.messages[number]] if number in self.messages else [])
        everywhere = set().union(*groups.values())
        return {said: messages_text(found) for said, found in groups.items() if found and found != everywhere}


def messages_text(numbers: Set[int]) -> str:
    """The numbers of messages, of many the first."""
    more = len(numbers) - MESSAGES_MOST
    words = [*map(str, sorted(numbers)[:MESSAGES_MOST]), *([f"{more} more"] if more > 0 else [])]
    return f"message {words[0]}" if len(words) == 1 else f"messages {all_of(words)}"
