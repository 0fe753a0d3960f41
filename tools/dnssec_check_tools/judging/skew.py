"""What a verdict would be by a clock that goes wrong: each question is asked at the moments around as well."""
from typing import Iterable, List

from ..asking.kinds import mnemonic_of
from ..asking.moments import MOMENT_MOST, moment_text
from ..asking.questions import Question
from ..explaining.values import distance
from .work import Common, Judged, Row

SECONDS_MOST = 10**9


def skew_of(text: str) -> int:
    """How many seconds a clock may be off; ValueError of what is no such number."""
    if text.isascii() and text.isdigit() and len(text) <= 10 and 0 < int(text) <= SECONDS_MOST:
        return int(text)
    raise ValueError


def around(moments: Iterable[int], seconds: int) -> List[int]:
    """The moments, and behind them those that lie so many seconds before and behind each, none twice."""
    asked = list(moments)
    others = [each for moment in asked for each in beside(moment, seconds)]
    return list(dict.fromkeys(asked + others))


def beside(moment: int, seconds: int) -> List[int]:
    """The moments by a clock that is so many seconds late, and by one that is as many ahead."""
    found = [moment - seconds, moment + seconds] if seconds else []
    return [each for each in found if 0 <= each <= MOMENT_MOST]


def widened(common: Common) -> Common:
    """With the moments around those that are asked for."""
    return common._replace(moments=around(common.moments, common.skew))


def folded(judged: Judged, common: Common) -> Judged:
    """The rows of the moments that are asked for, and a note for each verdict that is another one beside its moment."""
    if not common.skew:
        return judged
    found = {(row.moment, row.question): row for row in judged.rows}
    kept = [row for row in judged.rows if row.moment in set(common.moments)]
    pairs = [(row, found.get((each, row.question), row)) for row in kept for each in beside(row.moment, common.skew)]
    notes = [note_of(row.question, row, other) for row, other in pairs if row.question and other.word != row.word]
    return Judged(kept, judged.notes + notes)


def note_of(question: Question, row: Row, other: Row) -> str:
    about = f"{question.name} {mnemonic_of(question.kind)}"
    seconds = other.moment - row.moment
    clock = f"{distance(abs(seconds))} {'ahead' if seconds > 0 else 'late'}"
    return f"{about} is {other.word} by a clock that is {clock}, at {moment_text(other.moment)}"
