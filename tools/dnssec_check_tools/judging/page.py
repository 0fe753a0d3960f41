"""The page of HTML that --html writes."""
from typing import Any, Callable, Dict, List, Tuple

from ..explaining.page import Entry, library, page_of
from ..explaining.picture import program

from .records import lines_of
from .text import Lines, asked_text
from .work import Row


class Page:
    """What is judged, in its order, and the records of the captures."""

    needs: Tuple[Callable[[], Any], ...] = (library, program)

    def __init__(self, paths: Dict[str, str]) -> None:
        for needed in self.needs:  # what is missing is told before anything is judged
            needed()
        self.lines = Lines(False, False, paths)
        self.entries: List[Entry] = []
        self.records: Dict[int, Tuple[str, List[str]]] = {}

    def read(self, number: int, path: str, octets: bytes) -> None:
        """The capture with this number."""
        self.records[number] = path, list(lines_of(octets))

    def take(self, path: str, rows: List[Row]) -> None:
        """The verdicts on a capture."""
        for row in rows:
            question = asked_text(row.question) or "-"
            odd = [each.said() for each in row.odd or ()]
            self.entries.append(Entry(question, self.lines.said(path, row), path, row.moment, row.told(), odd))

    def octets(self) -> bytes:
        captures = [self.records[number] for number in sorted(self.records)]
        return page_of(self.entries, captures).encode()
