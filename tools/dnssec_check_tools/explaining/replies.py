"""How the messages of a capture answer what was asked: what the server says that there isn't is told apart from what
nobody asked for."""
from typing import Dict, Iterable, List, NamedTuple, Optional, Tuple

from ..asking.kinds import rcode_of_number

NO_ERROR, NO_NAME = 0, 3  # of the RCODEs (RFC 1035 4.1.1)


class Reply(NamedTuple):
    """What a message answers to its question, or to the same of a name that its aliases lead to. `remedy` is what to
    ask where a resolver fails, None for other answers; `referral` is the zone whose servers are to be asked."""

    message: int
    name: str
    kind: int
    rcode: int
    remedy: Optional[str]
    has_records: bool
    has_alias: bool
    has_denials: bool
    referral: Optional[str]

    def is_of_none(self) -> bool:
        """Whether it says that there is no such name, or no such record."""
        return self.rcode == NO_NAME or not (self.rcode or self.has_records or self.has_alias or self.referral)

    def text(self, none: str = "that there is none") -> Optional[str]:
        """What it says where it has no record that was asked for, of which there being `none` is said so."""
        if self.has_records:
            return None
        return f"message {self.message} {self.said(none)}"

    def said(self, none: str) -> str:
        if self.rcode == NO_ERROR and self.has_alias:
            return "answers with an alias (CNAME)"
        if self.rcode == NO_ERROR and self.referral:
            return f"refers to {self.referral}, whose servers are to be asked"
        if self.rcode == NO_ERROR:
            return f"answers {none}"
        return f"answers {rcode_of_number(self.rcode)}" + (f": {self.remedy}" if self.remedy else "")


class Replies:
    """The replies of a capture, by name and type."""

    def __init__(self, replies: Iterable[Reply]) -> None:
        self.by_question: Dict[Tuple[str, int], List[Reply]] = {}
        self.absent: Dict[str, Reply] = {}
        for each in replies:
            self.by_question.setdefault((each.name, each.kind), []).append(each)
            if each.rcode == NO_NAME:
                self.absent.setdefault(each.name, each)

    def to(self, name: str, kind: int) -> Optional[Reply]:
        """The first that is no failure, else the first; NXDOMAIN is an answer for each type (RFC 8020). None where
        nobody asked."""
        found = [*self.by_question.get((name, kind), ()), *([self.absent[name]] if name in self.absent else [])]
        answers = [each for each in found if each.rcode in (NO_ERROR, NO_NAME)]
        return next(iter(answers + found), None)
