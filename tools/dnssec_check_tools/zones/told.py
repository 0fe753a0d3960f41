"""What is found of a zone, in lines: what isn't proved as it's proved or not, and then how much is."""
import itertools
from collections import Counter
from typing import Dict, Iterator, List, Set

from ..asking.faults import escaped
from ..asking.moments import moment_text
from ..capturing.messages import name_text
from ..explaining.values import counted
from ..judging.every import DENYING
from ..judging.text import INDENT, Lines
from ..judging.work import Row
from ..odd.kinds import Odd
from ..odd.transfers import gaps_of
from ..program import BOGUS, FROM_BEST, INSECURE, ODD, SECURE

from .audit import Audit
from .questions import GAP, RRSET, TYPE, Item

SHOWN_MOST = 20  # records of the chain that are named of those that no proof has
KINDS = (RRSET, TYPE, GAP)


class Found:
    """What is found at a moment."""

    def __init__(self) -> None:
        self.asked: Counter[str] = Counter()
        self.proved: Counter[str] = Counter()
        self.words: Counter[str] = Counter()
        self.shown: Set[str] = set()  # owners of the chain's records that proofs have
        self.odd: Set[Odd] = set()

    def take(self, item: Item, row: Row) -> bool:
        """Whether the row has the verdict that the item wants."""
        is_wanted = row.word == item.wanted
        is_proved = is_wanted and row.status == SECURE
        self.asked[item.about] += 1
        self.proved[item.about] += is_proved
        if not is_proved:
            self.words[row.word] += 1
        if row.status in (SECURE, INSECURE):
            self.shown.update(owners_of(row))
        self.odd.update(row.odd or ())
        return is_wanted


def owners_of(row: Row) -> Iterator[str]:
    """Those of the NSEC and NSEC3 records that a proof has."""
    yield from (owner for owner, _ in row.evidence.get("records", ()))
    for line in row.explained["why"] if row.explained else ():
        if line["line"] == "signed" and line["type"] in DENYING:
            yield line["owner"]


class ZoneText(Lines):
    """Lines of what isn't proved, as the captures come, and a sum of all. Gaps of the chain are no verdict's, so that
    they fail is told here."""

    def __init__(self, audit: Audit, has_moments: bool, paths: Dict[str, str]) -> None:
        super().__init__(False, has_moments, paths)
        self.audit, self.parts = audit, iter(audit.parts)
        self.found: Dict[int, Found] = {}
        self.worst = SECURE

    def text(self, capture: str, rows: List[Row]) -> str:
        items = itertools.cycle(next(self.parts).items)
        lines = [self.of_row(capture, item, row) for item, row in zip(items, rows) if not self.take(item, row)]
        return "".join(line + "\n" for line in lines)

    def take(self, item: Item, row: Row) -> bool:
        return self.found.setdefault(row.moment, Found()).take(item, row)

    def of_row(self, capture: str, item: Item, row: Row) -> str:
        line = self.line(capture, row)
        if row.status != SECURE:
            return line
        self.worst = BOGUS
        return f"{line}\n{INDENT}FAIL {escaped(item.question.name)}: by the transfer it's to be {item.wanted}"

    def sums(self) -> str:
        """What all of it comes to, at each moment."""
        lacking = self.audit.lacking()
        gaps = list(gaps_of(self.audit.chain))
        is_failing = any(odd.word in self.failing for odd in gaps)
        self.worst = max(self.worst, BOGUS if lacking else ODD if is_failing else SECURE, key=FROM_BEST.index)
        lines = [f"zone {self.audit.zone}: {each}" for each in lacking]
        for moment, found in self.found.items():
            at = f" at {moment_text(moment)}" if self.has_moments else ""
            odd = self.odd_told([*found.odd, *gaps])
            lines += [f"zone {self.audit.zone}{at}: {each}" for each in (*self.of_moment(found), *odd)]
        return "".join(escaped(line) + "\n" for line in lines)

    def of_moment(self, found: Found) -> Iterator[str]:
        names, questions = counted(len(self.audit.contents.names), "name"), counted(len(self.audit.items), "question")
        yield f"{names}, {questions} to {counted(len(self.audit.parts), 'capture')}"
        for about in KINDS:
            if found.asked[about]:
                yield f"{counted(found.asked[about], about)}: {found.proved[about]} proved"
        if found.words:
            yield "not proved: " + ", ".join(f"{count} {word}" for word, count in found.words.most_common())
        yield from self.of_chain(found)

    def of_chain(self, found: Found) -> Iterator[str]:
        """Which records of the chain no proof has: where no name was found that lies in their gap."""
        owners = [name_text(owner) for owner in self.audit.chain.owners]
        unshown = [owner for owner in owners if owner not in found.shown]
        if owners:
            yield f"{counted(len(owners), 'record')} of the chain: {len(owners) - len(unshown)} in a proof"
        for owner in unshown[:SHOWN_MOST]:
            yield f"in no proof: the record of the chain at {owner}"
        if len(unshown) > SHOWN_MOST:
            yield f"in no proof: {len(unshown) - SHOWN_MOST} more"
