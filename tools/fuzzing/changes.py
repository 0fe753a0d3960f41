"""Octets changed at random, as one seed draws it: by octet, by number, by word, and by the parts that a file has."""

from __future__ import annotations

import random
import re
from dataclasses import dataclass
from typing import Callable, Sequence

SIZE_MOST = 1 << 15
REPEATS = (2, 2, 2, 3, 10, 100, 1000)
# Numbers near to which readers are wrong.
NUMBERS = (0, 1, 2, 3, 12, 63, 64, 127, 128, 191, 192, 255, 256, 0x3FFF, 0x7FFF, 0x8000, 0xC000, 0xFFFF, 0x10000)
LARGE = (0x7FFFFFFF, 0x80000000, 0xFFFFFFFF, 1 << 63, (1 << 64) - 1)
# Words that a reader of text may take for something: blanks, octets that are no text or no blank, what are no numbers,
# and signs.
BLANKS = (b"", b" ", b"\n", b"\r\n", b"\t", b"\0")
NO_TEXT = (b"\xff", b"\xc2", b"\xc2\xa0", b"\xe2\x80\xa8", b"\xed\xb2\x80", b"\xef\xbb\xbf")
NO_NUMBERS = (b"-", b"+1", b"-1", b"00", b"1.5", b"1e999", b"0x10", b"\xc2\xb2", b"\xd9\xa1", b"1_0", b"9" * 5000)
SIGNS = (
    b"\\",
    b"\\000",
    b"\\999",
    b"\\.",
    b".",
    b"..",
    b"(",
    b")",
    b'"',
    b"'",
    b";",
    b"#",
    b"/",
    b"a" * 64,
    b"a." * 130,
)
WORDS = BLANKS + NO_TEXT + NO_NUMBERS + SIGNS
TOKENS = re.compile(rb"[A-Za-z0-9_+./-]+|[ \t]+|.", re.DOTALL)

Draw = random.Random
Change = Callable[[bytes, Draw], bytes]


@dataclass(frozen=True)
class Source:
    """What changes are made of: the inputs at hand, the words of the format, and how an input falls into parts."""

    inputs: Sequence[bytes]
    words: Sequence[bytes]
    parts: Callable[[bytes], list[bytes]]

    def other(self, draw: Draw) -> bytes:
        return draw.choice(self.inputs)

    def word(self, draw: Draw) -> bytes:
        return draw.choice(self.words) if self.words and draw.random() < 0.6 else draw.choice(WORDS)


def piece(octets: bytes, draw: Draw) -> tuple[int, int]:
    """Where a piece begins and ends, mostly a short one."""
    front = draw.randrange(len(octets) + 1)
    return front, min(len(octets), front + draw.choice((1, 1, 2, 4, 16, 40, 300)))


def octet_set(octets: bytes, draw: Draw) -> bytes:
    front, _ = piece(octets, draw)
    old = octets[front : front + 1] or b"\0"
    value = draw.choice((b"\0", b"\xff", draw.randbytes(1), bytes([old[0] ^ 1 << draw.randrange(8)])))
    return octets[:front] + value + octets[front + 1 :]


def number_set(octets: bytes, draw: Draw) -> bytes:
    """A number of one, two, four or eight octets in either order: another one, or one that is a little off."""
    size, order = draw.choice((1, 2, 2, 4, 8)), draw.choice(("big", "big", "little"))
    front, _ = piece(octets, draw)
    old = int.from_bytes(octets[front : front + size], order)  # type: ignore[arg-type]
    value = draw.choice((old + 1, old - 1, old * 2, draw.choice(NUMBERS), draw.choice(LARGE))) % (1 << 8 * size)
    return octets[:front] + value.to_bytes(size, order) + octets[front + size :]  # type: ignore[arg-type]


def piece_out(octets: bytes, draw: Draw) -> bytes:
    front, end = piece(octets, draw)
    return octets[:front] + octets[end:]


def piece_again(octets: bytes, draw: Draw) -> bytes:
    front, end = piece(octets, draw)
    return octets[:end] + octets[front:end] * draw.choice(REPEATS) + octets[end:]


def end_out(octets: bytes, draw: Draw) -> bytes:
    return octets[: draw.randrange(len(octets) + 1)]


ON_OCTETS: tuple[Change, ...] = (octet_set, octet_set, number_set, number_set, piece_out, piece_again, end_out)


def spliced(octets: bytes, source: Source, draw: Draw) -> bytes:
    """A piece of another input in the place of one, or its end behind the beginning of this one."""
    other = source.other(draw)
    front, end = piece(octets, draw)
    start, stop = piece(other, draw)
    return octets[:front] + (other[start:stop] + octets[end:] if draw.random() < 0.7 else other[start:])


def words_changed(octets: bytes, source: Source, draw: Draw) -> bytes:
    """A word is another one, there several times, or not there."""
    tokens = TOKENS.findall(octets)
    if not tokens:
        return source.word(draw)
    place, other = draw.randrange(len(tokens)), TOKENS.findall(source.other(draw)) or [b""]
    new = draw.choice((b"", source.word(draw), source.word(draw), draw.choice(other), draw.choice(tokens)))
    behind = tokens[place + 1 :] if draw.random() < 0.8 else tokens[place:]
    return b"".join([*tokens[:place], new, *behind])


def parts_changed(octets: bytes, source: Source, draw: Draw) -> bytes:
    """A part of the file is left out, there several times, elsewhere, changed, or that of another file."""
    parts = source.parts(octets)
    if not parts:
        return octets
    place, others = draw.randrange(len(parts)), source.parts(source.other(draw)) or [b""]
    part = parts.pop(place)
    choice = draw.randrange(5)
    if choice == 0:
        new = [part] * draw.choice(REPEATS)
    elif choice == 1:
        new = [draw.choice(others), part]
    elif choice == 2:
        new = [draw.choice(ON_OCTETS)(part, draw)]
    else:
        new = [] if choice == 3 else [part]
        place = draw.randrange(len(parts) + 1)
    return b"".join([*parts[:place], *new, *parts[place:]])


def changed(octets: bytes, source: Source, draw: Draw) -> bytes:
    """The input with one to some changes; of a text mostly of words and lines."""
    weights = OF_TEXT if b"\0" not in octets else OF_OCTETS
    for _ in range(draw.choice((1, 1, 1, 2, 3, 8))):
        (way,) = draw.choices(WAYS, weights)
        octets = way(octets, source, draw)[:SIZE_MOST]
    return octets


def octets_changed(octets: bytes, _source: Source, draw: Draw) -> bytes:
    return draw.choice(ON_OCTETS)(octets, draw)


WAYS = (octets_changed, spliced, words_changed, parts_changed)
OF_OCTETS, OF_TEXT = (45, 15, 20, 20), (15, 10, 45, 30)


def lines_of(octets: bytes) -> list[bytes]:
    """The parts of a text."""
    return octets.splitlines(keepends=True)
