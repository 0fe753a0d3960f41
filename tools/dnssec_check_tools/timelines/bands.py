"""A timeline as a band, a piece of it for each interval: as long as that lasts, but never too short to be seen."""
from typing import Dict, List, NamedTuple, Optional, Sequence

from ..asking.moments import moment_text

WIDTH, LEAST = 1000.0, 6.0  # of a band, and of a piece where there is room for all
LETTER_LEAST = 14.0  # of a piece that has its letter
# The class of a verdict and its letter, by which it's known without colours.
KINDS = {
    "Secure": ("secure", "S"),
    "Insecure": ("insecure", "I"),
    "Pending": ("pending", "P"),
    "Bogus": ("bogus", "B"),
    "Indeterminate": ("indeterminate", "N"),
    "refused": ("refused", "R"),
}


class Stay(NamedTuple):
    """A verdict from a moment to another."""

    first: int
    last: int
    word: str


class Piece(NamedTuple):
    """A stay as it's drawn."""

    left: float
    width: float
    kind: str
    letter: str
    title: str


class Mark(NamedTuple):
    """A moment as it's drawn: its place, which end of its text is there, and the text."""

    left: float
    anchor: str
    text: str


class Band(NamedTuple):
    pieces: List[Piece]
    marks: List[Mark]
    label: str


def kind_of(word: str) -> str:
    """The class of a verdict: all that are secure have one."""
    return "Secure" if word.startswith("Secure") else word


def widths_of(stays: Sequence[Stay]) -> List[float]:
    """Shares of the whole by their lengths, none below the least, which is less where there are many."""
    least = min(LEAST, WIDTH / len(stays) / 2)
    lengths = [stay.last - stay.first + 1 for stay in stays]
    room = WIDTH - least * len(stays)
    return [least + room * length / sum(lengths) for length in lengths]


def place_of(moment: int, stays: Sequence[Stay], pieces: Sequence[Piece]) -> Optional[float]:
    """Where a moment is on the band; None where the range doesn't have it."""
    for stay, piece in zip(stays, pieces):
        if stay.first <= moment <= stay.last:
            return piece.left + piece.width * (moment - stay.first + 0.5) / (stay.last - stay.first + 1)
    return None


def band_of(about: str, stays: Sequence[Stay], moments: Dict[str, int]) -> Band:
    """The band of stays that follow one another, with moments that are marked by their names, where it has them."""
    pieces: List[Piece] = []
    left = 0.0
    for stay, width in zip(stays, widths_of(stays)):
        kind, letter = KINDS[kind_of(stay.word)]
        shown = letter if width >= LETTER_LEAST else ""
        front = round(left, 2)
        left += width
        pieces.append(Piece(front, round(round(left, 2) - front, 2), kind, shown, spoken(stay)))
    places = [(place_of(moment, stays, pieces), name) for name, moment in moments.items()]
    marks = [mark_at(place, name) for place, name in places if place is not None]
    return Band(pieces, marks, f"{about}: " + "; ".join(piece.title for piece in pieces))


def mark_at(place: float, name: str) -> Mark:
    """Its text stays within the band."""
    anchor = "start" if place < WIDTH / 10 else "end" if place > WIDTH * 9 / 10 else "middle"
    return Mark(round(place, 2), anchor, name)


def spoken(stay: Stay) -> str:
    return f"{stay.word} from {moment_text(stay.first)} to {moment_text(stay.last)}"
