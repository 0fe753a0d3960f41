"""The kinds of what is odd, by number and word, each with its document and what to do: the one table of them."""
import functools
from importlib import resources
from typing import Dict, NamedTuple

from ..explaining.said import ODD, Said


class Kind(NamedTuple):
    number: int
    word: str
    document: str
    what: str
    remedy: str


class Odd(NamedTuple):
    """Something odd: the word of its kind, what it's about, and a sentence."""

    word: str
    about: str
    text: str

    def said(self) -> Said:
        return Said(ODD, self.about, f"{self.text} [{kinds()[self.word].document}]")

    def __str__(self) -> str:
        return str(self.said())


@functools.lru_cache(None)
def kinds() -> Dict[str, Kind]:
    """The table by word, in the order of the numbers."""
    lines = resources.files(__package__).joinpath("kinds.tsv").read_text("utf-8").splitlines()[1:]
    rows = (line.split("\t") for line in lines)
    return {word: Kind(int(number), word, *texts) for number, word, *texts in rows}


def rank_of(odd: Odd) -> int:
    """By kind."""
    return kinds()[odd.word].number
