"""Timelines in lines and as the rows of tables: one for each interval."""
import itertools
import json
from typing import Any, Dict, Iterator, List, Tuple

from ..asking.faults import escaped
from ..asking.kinds import mnemonic_of
from ..asking.moments import moment_text
from ..explaining.said import Said
from ..explaining.sentences import verdict
from ..explaining.values import counted
from ..judging.colours import coloured
from ..judging.numbers import fault_text
from ..judging.text import (
    BETWEEN,
    INDENT,
    Lines,
    aliases_texts,
    asked_text,
    evidence_words,
    reasons_of,
    reasons_words,
    why_fields,
)
from ..judging.work import Row
from ..program import PENDING, SECURE, Json
from .pieces import Edge
from .sentences import edges, following

COLUMNS = (
    *("capture", "from", "to", "name", "type", "status", "verdict", "evidence", "edges", "next"),
    *("reason", "ede", "reasons"),
)
NOBODY = "Pending on signatures that could not be verified here"


class TimelineLines(Lines):
    """Lines for people. In front of an interval stand the signatures that end and begin there, behind it stands why it
    isn't secure, and where it has the moment that is now, what ends first."""

    def __init__(self, has_captures: bool, now: int, paths: Dict[str, str]) -> None:
        super().__init__(has_captures, False, paths)
        self.now = now

    def line(self, capture: str, row: Row) -> str:
        if row.stretch is None:
            return super().line(capture, row)
        front = f"{capture}: " if self.has_captures else ""
        line = f"{front}{asked_text(row.question)} {span_text(row)}: {self.said(capture, row)}"
        before = [f"{INDENT}{each}" for each in edges(row.stretch.edges, self.now)]
        behind = [f"{INDENT}{each}" for each in self.behind(row)]
        return coloured("\n".join(map(escaped, [*before, line, *behind])))

    def behind(self, row: Row) -> List[Any]:
        told = row.stretch.next if row.stretch else None
        return [*failing(row), *([following(told, self.now)] if told else [])]

    def said(self, capture: str, row: Row) -> str:
        if row.stretch is None or "number" in row.evidence:
            return f"{row.word} " + fault_text(row.evidence, {**self.paths, "capture": capture})
        return "; ".join([verdict_text(row), *aliases_texts(row.evidence)])


def failing(row: Row) -> List[Said]:
    """The sentences that say why the verdict isn't secure, but for those on the clock of who asks."""
    return [each for each in reasons_of(row) if each.about != moment_text(row.moment)]


class TimelineSums(TimelineLines):
    """A line that counts what is secure at all moments, and the lines of all else."""

    def text(self, capture: str, rows: List[Row]) -> str:
        if not rows:
            return escaped(f"{capture}: nothing to ask for") + "\n"
        groups = [list(group) for _, group in by_question(rows)]
        others = [row for group in groups if not is_secure(group) for row in group]
        asked = [group for group in groups if group[0].question]
        if not asked:
            return super().text(capture, others)
        secure = sum(map(is_secure, asked))
        counts = f"{secure} secure at all moments" + (f", {len(asked) - secure} not" if secure < len(asked) else "")
        head = f"{capture}: {counted(len(asked), 'question')} {whole_span(asked)}: {counts}"
        return escaped(head) + "\n" + super().text(capture, others)


def by_question(rows: List[Row]) -> Iterator[Tuple[Any, Iterator[Row]]]:
    """The rows of each question; those of one that is asked twice follow each other as one."""
    return itertools.groupby(rows, key=lambda row: row.question)


def is_secure(rows: List[Row]) -> bool:
    return all(row.status == SECURE for row in rows)


def whole_span(groups: List[List[Row]]) -> str:
    """The range of a capture, which is that of each of its timelines."""
    rows = next((group for group in groups if group[0].stretch), groups[0])
    return moments_text(rows[0].moment, rows[-1].stretch.last if rows[-1].stretch else rows[-1].moment)


def moments_text(first: int, last: int) -> str:
    return f"from {moment_text(first)} to {moment_text(last)}"


def span_text(row: Row) -> str:
    """From when to when, and whether the moment that is now is among them."""
    stretch = row.stretch
    if stretch is None:
        return f"at {moment_text(row.moment)}"
    return moments_text(row.moment, stretch.last) + (", now" if stretch.has_now else "")


def verdict_text(row: Row) -> str:
    """The verdict of an interval, which holds until its end: until when else isn't said again."""
    if row.status == PENDING:
        told = row.told()
        return verdict(told) if told else NOBODY
    return row.word + (f" from {row.evidence['cut']} on" if "cut" in row.evidence else "")


def fields_of(capture: str, row: Row) -> Json:
    """The values of a row, by column; of what is told of no interval, without moments."""
    stretch = row.stretch
    span = (row.moment, stretch.last) if stretch else (None, None)
    asked = (row.question.name, mnemonic_of(row.question.kind)) if row.question else (None, None)
    ended = stretch.edges if stretch else []
    end = stretch.next.moment if stretch and stretch.next else None
    values = (capture, *span, *asked, row.ending, row.word, row.evidence, ended, end, *why_fields(row)[1:])
    return dict(zip(COLUMNS, values))


def json_line(capture: str, row: Row) -> str:
    return json.dumps(fields_of(capture, row))


def tsv_line(capture: str, row: Row) -> str:
    fields = fields_of(capture, row)
    fields.update(
        evidence=evidence_words(row.evidence),
        edges=BETWEEN.join(map(edge_words, fields["edges"])),
        reasons=reasons_words(fields["reasons"]),
    )
    return "\t".join("" if value is None else escaped(str(value)) for value in fields.values())


def tsv_head() -> str:
    return "\t".join(COLUMNS)


def edge_words(edge: Edge) -> str:
    """The line of the program."""
    rrset = f"{edge['owner']} {edge['type']} rrset {edge['rrset']} signature {edge['signature']}"
    key = f"key {edge['tag']} {edge['algorithm']} zone {edge['signer']}"
    return f"{edge['edge']} {edge['moment']} {rrset} {key} from {edge['inception']} to {edge['expiration']}"
