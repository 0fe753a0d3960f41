"""Files of many small parts."""

from __future__ import annotations

from typing import Iterable

from .shape import Shape

NOTHING: dict[str, Iterable[bytes]] = {"capture": [], "anchors": []}


def key_file(lines: int) -> Shape:
    """A file of so many shared keys, a line of 15 octets each."""
    return Shape({**NOTHING, "keys": [b"k%07d. AAAA\n" % number for number in range(lines)]})


def statement(number: int) -> bytes:
    """A line of 23 octets."""
    return b"good 13 %08x 00 00\n" % number


def statements(lines: int) -> Shape:
    """So many short statements, each greater than the one before."""
    return Shape({**NOTHING, "statements": map(statement, range(lines))})


def mixed(count: int) -> Iterable[int]:
    """So many numbers in no order."""
    # The factor is odd, so no two numbers become one.
    return (number * 2_654_435_761 % 2**32 for number in range(count))


def scattered(lines: int) -> Shape:
    """The same in no order."""
    return Shape({**NOTHING, "statements": map(statement, mixed(lines))})


def long_statement(number: int) -> bytes:
    """A line of 399 octets, as one on a signature by ECDSA P-256 over 66 octets."""
    return b"good 13 %s %08x%s %s\n" % (b"5e" * 64, number, b"d5" * 62, b"19" * 64)


def long_statements(lines: int) -> Shape:
    """So many statements of a usual length, each greater than the one before."""
    return Shape({**NOTHING, "statements": map(long_statement, range(lines))})


def long_scattered(lines: int) -> Shape:
    """The same in no order."""
    return Shape({**NOTHING, "statements": map(long_statement, mixed(lines))})


def frames(count: int) -> Shape:
    """A capture of so many messages of one octet, of which the first is refused."""
    return Shape({"capture": [b"\x00\x01\x00" * 1_000] * (count // 1_000)}, ("list", "--moment", "1500"))


def zeros(octets: int) -> Shape:
    """So many zeros as anchors."""
    return Shape({"capture": [], "anchors": [bytes(2**20)] * (octets // 2**20)})


def questions(lines: int) -> Shape:
    """So many questions, each for another name, of a capture without messages."""
    asked = (b"n%07d.example. 1\n" % number for number in range(lines))
    return Shape({**NOTHING, "questions": asked}, ("check", "--moment", "1500"))
