"""What came of the runs: how many ended how, and those that ended wrong."""

from __future__ import annotations

from collections import Counter
from typing import Iterator

from .runs import Answer

# Of one row no more wrong ends are shown.
SHOWN = 10


class Tally:
    """The rows, in the order in which they came, with the number of runs of each end."""

    def __init__(self) -> None:
        self.rows: dict[str, Counter[str]] = {}
        self.wrong: dict[str, list[str]] = {}

    def passed(self, row: str, end: str) -> None:
        self.rows.setdefault(row, Counter())[end] += 1

    def failed(self, row: str, text: str) -> None:
        self.wrong.setdefault(row, []).append(text)

    def take(self, row: str, end: str | None, why: str, answer: Answer) -> None:
        """An end that is right where it has a name, and else how to make it again."""
        if end:
            self.passed(row, end)
        else:
            self.failed(row, f"{why}: {shown(answer)}")

    def add(self, other: Tally) -> None:
        for row, ends in other.rows.items():
            self.rows.setdefault(row, Counter()).update(ends)
        for row, texts in other.wrong.items():
            self.wrong.setdefault(row, []).extend(texts)

    def counts(self) -> tuple[int, int]:
        return (sum(sum(ends.values()) for ends in self.rows.values()), sum(map(len, self.wrong.values())))

    def lines(self) -> Iterator[str]:
        for row in dict.fromkeys([*self.rows, *self.wrong]):
            wrong = self.wrong.get(row, [])
            ends = [f"{count} {end}" for end, count in self.rows.get(row, Counter()).most_common()]
            yield f"{row}: " + ", ".join(ends + [f"{len(wrong)} wrong"] * bool(wrong))
            yield from (f"  {text}" for text in wrong[:SHOWN])
            if len(wrong) > SHOWN:
                yield f"  and {len(wrong) - SHOWN} more"


def shown(answer: Answer) -> str:
    """The answer in one line."""
    parts = [
        f"{name} {beginning(octets)}" for name, octets in (("wrote", answer.output), ("told", answer.errors)) if octets
    ]
    return ", ".join([f"status {answer.status}", *parts])


def beginning(octets: bytes) -> str:
    return ascii(octets[:200].decode(errors="replace")) + (".." if len(octets) > 200 else "")
