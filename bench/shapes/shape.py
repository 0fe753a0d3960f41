"""What a shape is."""

from __future__ import annotations

from dataclasses import dataclass
from typing import Iterable, Mapping
from typing import Optional


def check(name: str) -> tuple[str, ...]:
    """The words that ask for addresses of the name; the moment is within the times of each signature."""
    return "check", "--moment", "1500", "--name", name, "--type", "1"


def explain(name: str) -> tuple[str, ...]:
    """The same, and why besides."""
    return ("explain", *check(name)[1:])


@dataclass
class Shape:
    """A request and its files."""

    files: Mapping[str, Iterable[bytes]]  # the octets of each option's file, in pieces
    words: tuple[str, ...] = check("www.bench.example.")
    pairs: int = 0  # of a signature and a key that may have made it
    # The statements say `good` of each line that `list` prints from this place on; without it there are none.
    answered_from: Optional[int] = None
    answered_by: bytes = b""  # and of those alone that have these octets
    listed: tuple[str, ...] = ("--moment", "1500")  # for which moment, or which range
