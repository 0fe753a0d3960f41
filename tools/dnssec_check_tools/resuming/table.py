"""A table that an earlier run wrote until it was interrupted: the rows of captures that are whole in it are taken as
they are."""
import hashlib
import itertools
import os
from typing import Any, BinaryIO, Dict, Iterator, List, NamedTuple, Optional, Tuple

from ..asking.faults import Refusal, WrongLine, escaped
from ..asking.kinds import mnemonic_of
from ..asking.questions import Question, Questions
from ..program import FAILED, FROM_BEST

from .rows import Form, Written


class Kept(NamedTuple):
    """Where the rows of a capture stand in the table, and the worst of their statuses."""

    path: str
    start: int
    size: int
    worst: int

    def octets(self) -> bytes:
        with open(self.path, "rb") as file:
            file.seek(self.start)
            return file.read(self.size)


class Group:
    """The rows of a capture, which follow each other. Only a digest is kept of what they answer: a table may have more
    rows than fit into memory."""

    def __init__(self, start: int) -> None:
        self.start, self.end = start, start
        self.worst, self.has_fault = 0, False
        self.moments: Dict[int, None] = {}
        self.digest = hashlib.sha256()

    def take(self, row: Written, end: int) -> None:
        self.end, self.has_fault = end, self.has_fault or row.status == FAILED
        self.worst = max(self.worst, row.status, key=FROM_BEST.index)
        self.moments[row.moment] = None
        add(self.digest, row.moment, row.name, row.kind)

    def kept(self, path: str) -> Kept:
        return Kept(path, self.start, self.end - self.start, self.worst)


def add(digest: Any, moment: int, name: str, kind: str) -> None:
    digest.update(f"{moment}\t{name}\t{kind}\n".encode("utf-8", "surrogatepass"))


class Table:
    """What the table has, by the name of each capture as it's spelled there."""

    def __init__(self, path: str, form: Form) -> None:
        if not os.path.isfile(path):
            raise WrongLine(f"--resume: {escaped(path)} is no file")
        self.path, self.form = path, form
        self.groups: Dict[str, Group] = {}
        self.moments: List[int] = []
        self.last: Optional[str] = None  # the capture whose rows may be cut off
        with open(path, "rb") as file:
            self.read(file)

    def read(self, file: BinaryIO) -> None:
        moments: Dict[int, None] = {}
        for start, line, row in self.rows(file):
            if row.capture != self.last:
                self.groups[row.capture] = Group(start)
                self.last = row.capture
            self.groups[row.capture].take(row, start + len(line))
            moments[row.moment] = None
        self.moments = list(moments)

    def rows(self, file: BinaryIO) -> Iterator[Tuple[int, bytes, Written]]:
        """The whole rows, each with where it begins: the last line may be cut off."""
        head, place = file.read(len(self.form.head)), len(self.form.head)
        if not self.form.head.startswith(head):
            raise Refusal(f"{escaped(self.path)} is no table of {self.form.option}: its first line has other columns")
        for number, line in enumerate(file, 1 + bool(head)):
            if not line.endswith(b"\n"):
                return
            row = self.form.read(line[:-1])
            if row is None:
                raise Refusal(f"line {number} of {escaped(self.path)} is no row of {self.form.option}")
            yield place, line, row
            place += len(line)

    def all_kept(self, asked: List[Tuple[str, Questions]], moments: List[int]) -> Dict[int, Kept]:
        """The rows of captures that are whole, by the number of the capture."""
        found = ((number, self.kept(*each, moments)) for number, each in enumerate(asked))
        return {number: kept for number, kept in found if kept}

    def kept(self, capture: str, questions: Questions, moments: List[int]) -> Optional[Kept]:
        """The rows of a capture that answer just these questions at these moments; of all that a capture has, those
        behind which another one's stand. What the machine failed at is judged again."""
        name = self.form.spelled(capture)
        group = self.groups.get(name)
        if group is None or group.has_fault or capture == "-":
            return None
        if questions is None:
            is_whole = name != self.last and list(group.moments) == moments
        else:
            is_whole = group.digest.digest() == self.wanted(questions, moments)
        return group.kept(self.path) if is_whole else None

    def wanted(self, questions: List[Question], moments: List[int]) -> bytes:
        """The digest of what the rows have to answer."""
        digest = hashlib.sha256()
        for moment, each in itertools.product(moments, questions):
            add(digest, moment, self.form.spelled(each.name), mnemonic_of(each.kind))
        return digest.digest()
