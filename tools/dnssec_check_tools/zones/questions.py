"""What is asked of a zone: each RRset, at each name a type that isn't there, and in each gap of the chain a name."""
from typing import FrozenSet, Iterator, List, NamedTuple, Optional

from ..asking.questions import Question
from ..capturing.messages import TYPE_CNAME, TYPE_DS, Labels, name_text
from ..judging.every import can_be_asked

from .chain import Chain
from .contents import Contents
from .names import WILDCARD
from .transfer import Key

# Of these one is asked that a name hasn't; the last is for private use (RFC 6895 3.1).
ABSENT = (1, 16, 28, 15, 65280)
ANSWER, NO_DATA, NO_NAME, OPEN = "SecureAnswer", "SecureNoData", "SecureNoName", "Insecure"
RRSET, TYPE, GAP = "RRset", "absent type", "gap"


class Item(NamedTuple):
    """What is asked, for what, the verdict that it's to have, and the RRsets that its evidence is among. `made` is the
    wildcard's RRset that answers for a name which isn't there."""

    about: str
    name: Labels
    kind: int
    wanted: str
    evidence: FrozenSet[Key]
    made: Optional[Key] = None

    @property
    def question(self) -> Question:
        return Question(name_text(self.name), self.kind)


class Questions:
    def __init__(self, contents: Contents, chain: Chain) -> None:
        self.contents, self.chain = contents, chain
        self.gaps = list(chain.gaps())

    def items(self) -> List[Item]:
        """Each RRset, in the order of the names; then what is denied, in the order of the chain."""
        denials = [*self.of_types(), *self.of_gaps()]
        if self.chain.owners:
            denials.sort(key=lambda item: self.chain.place_of(item.name))
        return [*self.of_rrsets(), *denials]

    def of_rrsets(self) -> Iterator[Item]:
        """Those that are there, and those that the chain says are there."""
        for name in [*self.contents.names, *self.contents.between]:
            kinds = self.contents.spoken_for(name)
            for kind in sorted(kinds | self.said_of(name)):
                if can_be_asked(name, kind):
                    evidence = frozenset([(name, kind)] if kind in kinds else ())
                    yield Item(RRSET, name, kind, ANSWER, evidence)

    def said_of(self, name: Labels) -> FrozenSet[int]:
        """The types that the chain says a name has; of a delegation it's the zone below that has them."""
        kinds = frozenset(self.chain.kinds_at(name))
        return kinds & {TYPE_DS} if name in self.contents.cuts else kinds

    def of_types(self) -> Iterator[Item]:
        """A type that isn't there at each name at which one can be asked for. What the chain names as the next and
        isn't there has none either."""
        for name in [*self.contents.names, *self.contents.between, *self.chain.unmet()]:
            kind = self.absent(name)
            if kind is not None and self.chain.owners:
                yield Item(TYPE, name, kind, NO_DATA, self.speaking_of(name))

    def absent(self, name: Labels) -> Optional[int]:
        """None at an alias, which leads elsewhere, and where a delegation has DS."""
        kinds = self.contents.spoken_for(name) | self.said_of(name)
        if name in self.contents.cuts:
            return None if TYPE_DS in kinds else TYPE_DS
        if TYPE_CNAME in kinds:
            return None
        return next(kind for kind in (*ABSENT, *range(65281, 65535)) if kind not in kinds)

    def of_gaps(self) -> Iterator[Item]:
        for gap in self.gaps:
            if gap.name is not None:
                item = self.of_name(gap.name)
                yield item._replace(wanted=OPEN) if gap.is_open else item

    def of_name(self, name: Labels) -> Item:
        """A name in a gap. Where a wildcard is there for it, that answers, or has no such type (RFC 4592 3.3.1)."""
        wildcard = (WILDCARD, *self.contents.closest_encloser(name))
        kinds = [kind for kind in sorted(self.contents.spoken_for(wildcard)) if can_be_asked(name, kind)]
        if not kinds:
            wanted = NO_DATA if wildcard in self.contents.all else NO_NAME
            return Item(GAP, name, ABSENT[0], wanted, self.speaking_of(name))
        kind = TYPE_CNAME if TYPE_CNAME in kinds else kinds[0]
        return Item(GAP, name, kind, ANSWER, self.speaking_of(name), (wildcard, kind))

    def speaking_of(self, name: Labels) -> FrozenSet[Key]:
        return frozenset(self.chain.speaking_of(name))
