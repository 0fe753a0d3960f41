"""Verdicts in words, with why they stand, and as the rows of tables."""
import itertools
import json
from collections import Counter
from typing import Any, Callable, Dict, FrozenSet, Iterable, List, Optional, Tuple

from ..asking.faults import escaped
from ..asking.kinds import mnemonic_of
from ..asking.moments import moment_text
from ..asking.questions import Question
from ..explaining.said import Said
from ..explaining.sentences import holds_until, reasons, verdict, why
from ..explaining.values import counted
from ..odd.found import each_once, words_of
from ..odd.kinds import Odd
from ..program import FROM_BEST, SECURE, Json
from .colours import coloured
from .numbers import fault_text
from .work import Row

COLUMNS = (
    *("capture", "moment", "name", "type", "status", "verdict", "evidence", "until", "reason", "ede", "reasons"),
    "odd",
)
PLACES = ("message", "record", "line", "file")
INDENT = "  "
BETWEEN = " | "  # two reasons of a table


def fields_of(capture: str, row: Row) -> Json:
    """The values of a row, by column."""
    name, kind = (row.question.name, mnemonic_of(row.question.kind)) if row.question else (None, None)
    values = (capture, row.moment, name, kind, row.ending, row.word, row.evidence, *why_fields(row), odd_words(row))
    return dict(zip(COLUMNS, values))


def asked_text(question: Optional[Question]) -> str:
    """The question; nothing where it's of a capture as a whole that something is told."""
    return f"{question.name} {mnemonic_of(question.kind)}" if question else ""


def why_fields(row: Row) -> Tuple[Optional[int], Optional[str], Optional[int], List[Json]]:
    """Until when the verdict holds; the first reason with its extended DNS error, None of each that isn't said; and all
    reasons."""
    told = row.told()
    said: List[Json] = (
        [{"reason": f"{each.about}: {each.text}", "ede": each.ede} for each in reasons(told)] if told else []
    )
    first: Json = said[0] if said else {"reason": None, "ede": None}
    return (holds_until(told) if told else None), first["reason"], first["ede"], said


def odd_words(row: Row) -> Optional[Tuple[str, ...]]:
    """The kinds of what is odd; None where nobody looked for it."""
    return None if row.odd is None else words_of(row.odd)


def json_line(capture: str, row: Row) -> str:
    return json.dumps(fields_of(capture, row))


def tsv_line(capture: str, row: Row) -> str:
    fields = fields_of(capture, row)
    fields.update(
        evidence=evidence_words(row.evidence),
        reasons=reasons_words(fields["reasons"]),
        odd=",".join(fields["odd"] or ()),
    )
    return "\t".join("" if value is None else escaped(str(value)) for value in fields.values())


def tsv_head() -> str:
    return "\t".join(COLUMNS)


def reasons_words(told: List[Json]) -> str:
    return BETWEEN.join(each["reason"] + (f" [EDE {each['ede']}]" if each["ede"] else "") for each in told)


def evidence_words(evidence: Json) -> str:
    """The evidence as the program words it."""
    aliases = [
        f"alias {each['name']} rrset {each['rrset']} signature {each['signature']}"
        for each in evidence.get("aliases", ())
    ]
    behind = {name: value for name, value in evidence.items() if name != "aliases"}
    return "; ".join([*aliases, *([words_behind(behind)] if behind else [])])


def words_behind(evidence: Json) -> str:
    """What stands behind the aliases."""
    if "records" in evidence:
        return "; ".join(f"record {owner} {kind}" for owner, kind in evidence["records"])
    if "number" in evidence:
        places = [f"{name} {evidence[name]}" for name in PLACES[:-1] if name in evidence]
        return " ".join([str(evidence["number"]), *places, *([evidence["file"]] if "file" in evidence else [])])
    return " ".join(f"{name} {value}" for name, value in evidence.items())


class Lines:
    """Lines for people; what is the same in all of them is left out."""

    is_odd_told = False  # what is odd; of these kinds it's told anyway, since a status may say so
    failing: FrozenSet[str] = frozenset()

    def __init__(self, has_captures: bool, has_moments: bool, paths: Dict[str, str]) -> None:
        self.has_captures, self.has_moments, self.paths = has_captures, has_moments, paths

    def text(self, capture: str, rows: List[Row]) -> str:
        return "".join(self.line(capture, row) + "\n" for row in rows)

    def line(self, capture: str, row: Row) -> str:
        about = asked_text(row.question)
        front = f"{capture}: " if self.has_captures and about else ""
        line = f"{front}{about or capture}{self.at(row)}: {self.said(capture, row)}"
        return coloured("\n".join(map(escaped, [line, *(f"{INDENT}{each}" for each in self.behind(row))])))

    def behind(self, row: Row) -> List[Any]:
        """The sentences below the line: why it isn't secure, and what is odd of it, where that is told."""
        return [*reasons_of(row), *self.odd_told(row.odd or ())]

    def odd_told(self, found: Iterable[Odd]) -> List[Odd]:
        return [odd for odd in each_once(found) if self.is_odd_told or odd.word in self.failing]

    def at(self, row: Row) -> str:
        return f" at {moment_text(row.moment)}" if self.has_moments else ""

    def said(self, capture: str, row: Row) -> str:
        told = row.told()
        if told is None:
            return f"{row.word} " + fault_text(row.evidence, {**self.paths, "capture": capture})
        return "; ".join([verdict(told), *aliases_texts(row.evidence)])


class Sums(Lines):
    """A line that counts the verdicts of a capture at a moment, and the lines of those that aren't secure."""

    def text(self, capture: str, rows: List[Row]) -> str:
        if not rows:
            return escaped(f"{capture}: nothing to ask for") + "\n"
        moments = itertools.groupby(rows, key=lambda row: row.moment)
        return "".join(self.of_moment(capture, list(group)) for _, group in moments)

    def behind(self, row: Row) -> List[Any]:
        return list(reasons_of(row))

    def of_moment(self, capture: str, rows: List[Row]) -> str:
        asked = [row for row in rows if row.question]
        others = super().text(capture, [row for row in rows if row.status != SECURE])
        if not asked:
            return others
        head = escaped(f"{capture}: {counted(len(asked), 'question')}{self.at(asked[0])}: {counts_text(asked)}")
        return f"{head}\n{others}{self.odd_of(asked)}"

    def odd_of(self, rows: List[Row]) -> str:
        """What is odd of all of them, each once."""
        found = self.odd_told(odd for row in rows for odd in row.odd or ())
        return "".join(f"{INDENT}{escaped(str(odd))}\n" for odd in found)


def counts_text(rows: List[Row]) -> str:
    """How many are secure, and how many there are of each other verdict, from the best to the worst."""
    words = ["secure" if row.status == SECURE else row.word for row in sorted(rows, key=rank_of)]
    return ", ".join(f"{count} {word}" for word, count in Counter(words).items())


def rank_of(row: Row) -> int:
    return FROM_BEST.index(row.status)


def rows_text(line: Callable[[str, Row], str]) -> Callable[[str, List[Row]], str]:
    """All rows as a table has them."""
    return lambda capture, rows: "".join(line(capture, row) + "\n" for row in rows)


def reasons_of(row: Row) -> List[Said]:
    """The sentences that say why the verdict isn't secure."""
    told = row.told()
    return why(told) if told else []


def aliases_texts(evidence: Json) -> List[str]:
    """The way over aliases (CNAME) to the name where the verdict is, as one text; none where none was followed."""
    targets = [f"{each.get('target', '?')} (RRset {each['rrset']})" for each in evidence.get("aliases", ())]
    return [f"by way of the alias{'' if len(targets) == 1 else 'es'} to {', '.join(targets)}"] if targets else []
