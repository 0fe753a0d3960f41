"""The page of timelines that --html writes: a band for each, and a table that says the same."""
import os
import stat
from importlib import resources
from typing import Any, Dict, List, NamedTuple, Optional

from ..asking.moments import moment_text
from ..explaining.page import TEMPLATES, library, listed, template_of
from ..explaining.page import template_text as others_text
from ..explaining.said import Said
from ..judging.page import Page
from ..judging.text import asked_text
from ..judging.work import Row
from .bands import Band, Stay, band_of, kind_of
from .pieces import Stretch
from .sentences import edges, following
from .text import TimelineLines, by_question, failing

TEMPLATE, MANY = "timelines.html", 20  # questions, from which on a page has its contents in front
HEAD = "Timelines of DNSSEC"
NOW, WRITTEN = "now", "file written"


class Stage(NamedTuple):
    """A row of the table: what is said of an interval, and what ends, begins and fails."""

    first: str
    last: str
    kind: str
    said: str
    has_now: bool
    before: List[Said]
    behind: List[Said]


class Told(NamedTuple):
    """A question with its band, None where there is no timeline but something else is said."""

    capture: str
    question: str
    said: str
    band: Optional[Band]
    stages: List[Stage]


class TimelinePage(Page):
    """The page of what is judged at all moments of ranges."""

    needs = (library,)

    def __init__(self, paths: Dict[str, str], now: int) -> None:
        super().__init__(paths)
        self.now = now
        self.lines = TimelineLines(False, now, paths)
        self.told: List[Told] = []
        self.written: Dict[str, int] = {}

    def read(self, number: int, path: str, octets: bytes) -> None:
        super().read(number, path, octets)
        moment = written_at(path)
        if moment is not None:
            self.written[path] = moment

    def take(self, path: str, rows: List[Row]) -> None:
        """The timelines of a capture."""
        for _, group in by_question(rows):
            self.told.append(self.told_of(path, list(group)))

    def told_of(self, path: str, rows: List[Row]) -> Told:
        question = asked_text(rows[0].question) or "-"
        spans = [(row, row.stretch) for row in rows if row.stretch]
        if not spans:
            return Told(path, question, self.lines.said(path, rows[0]), None, [])
        stays = [Stay(row.moment, stretch.last, row.word) for row, stretch in spans]
        marks = {NOW: self.now, **({WRITTEN: self.written[path]} if path in self.written else {})}
        said = f"from {moment_text(stays[0].first)} to {moment_text(stays[-1].last)}"
        stages = [self.stage(path, row, stretch) for row, stretch in spans]
        return Told(path, question, said, band_of(question, stays, marks), stages)

    def stage(self, path: str, row: Row, stretch: Stretch) -> Stage:
        behind = [*failing(row), *([following(stretch.next, self.now)] if stretch.next else [])]
        said = self.lines.said(path, row)
        kind = kind_of(row.word).lower()
        before = edges(stretch.edges, self.now)
        return Stage(moment_text(row.moment), moment_text(stretch.last), kind, said, stretch.has_now, before, behind)

    def octets(self) -> bytes:
        captures = [self.records[number] for number in sorted(self.records)]
        text: str = template_of(TEMPLATE, template_text).render(
            title=title_of(self.told),
            told=self.told,
            captures=listed(captures),
            has_contents=len(self.told) >= MANY,
            now=moment_text(self.now),
        )
        return text.encode()


def written_at(path: str) -> Optional[int]:
    """When the file of a capture was written; None of what is no file."""
    try:
        state = os.stat(path)
    except (OSError, ValueError):
        return None
    return int(state.st_mtime) if stat.S_ISREG(state.st_mode) else None


def title_of(told: List[Told]) -> str:
    if not told:
        return HEAD
    more = f" and {len(told) - 1} more" if len(told) > 1 else ""
    return f"{told[0].question} of {told[0].capture}{more}: {HEAD}"


def template_text(name: str) -> Any:
    """Those of this page, and what it has in common with the other."""
    own = resources.files(__package__).joinpath(TEMPLATES).joinpath(name)
    return own.read_text("utf-8") if own.is_file() else others_text(name)
