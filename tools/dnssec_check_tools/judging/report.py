"""What is judged, written as it comes, in the order of the captures."""
from typing import Callable, Dict, List, Optional

from ..asking.faults import escaped
from ..command import tell, write
from ..program import FROM_BEST

from .page import Page
from .work import Judged, Row

Text = Callable[[str, List[Row]], str]  # of the rows of a capture, by its path


class Report:
    """Writes the verdicts, and keeps the worst status; a page gets them too."""

    def __init__(self, text: Text, paths: List[str], page: Optional[Page]) -> None:
        self.text, self.paths, self.page = text, paths, page
        self.worst, self.next = 0, 0
        self.waiting: Dict[int, Callable[[], None]] = {}

    def take(self, number: int, judged: Judged) -> None:
        self.wait(number, lambda: self.say(self.paths[number], judged))

    def copy(self, number: int, octets: Callable[[], bytes], worst: int) -> None:
        """What an earlier run wrote of a capture, which is read when it's its turn."""
        self.wait(number, lambda: self.write(octets(), [worst]))

    def wait(self, number: int, say: Callable[[], None]) -> None:
        """Says it behind what is said of those before."""
        self.waiting[number] = say
        while self.next in self.waiting:
            self.waiting.pop(self.next)()
            self.next += 1

    def say(self, path: str, found: Judged) -> None:
        for note in found.notes:
            tell(f"{escaped(path)}: {note}")
        self.write(self.text(path, found.rows).encode(), [row.ending for row in found.rows])
        if self.page:
            self.page.take(path, found.rows)

    def write(self, octets: bytes, statuses: List[int]) -> None:
        self.worst = max([self.worst, *statuses], key=FROM_BEST.index)
        write("-", octets)
