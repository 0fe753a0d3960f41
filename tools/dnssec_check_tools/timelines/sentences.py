"""What ends and begins between the intervals of a timeline, and what has to be signed anew next, in sentences."""
from typing import List

from ..explaining.said import Said
from ..explaining.signatures import about, by
from ..explaining.values import all_of, date, distance, owned
from .pieces import ENDS, Edge, Next
from .spans import window

ENDING, BEGINNING, NEXT = "ENDS", "BEGINS", "NEXT"


def edge(line: Edge, now: int) -> Said:
    """A signature that ends with the moment, or begins at it."""
    span = window((line["inception"], line["expiration"]), line["moment"])
    if line["edge"] == ENDS:
        return Said(ENDING, about(line), f"{by(line)} ends here; it began {on(span.first, now)}")
    return Said(BEGINNING, about(line), f"{by(line)} begins here; it ends {on(span.last, now)}")


def on(moment: int, now: int) -> str:
    text = date(moment, now)
    return ("at " if "T" in text else "on ") + text


def edges(lines: List[Edge], now: int) -> List[Said]:
    return [edge(each, now) for each in lines]


def following(told: Next, now: int) -> Said:
    """Whose signatures end first of those that carry the verdict, and what comes then."""
    names = [owned(*each) for each in told.whose]
    front = "its signature ends" if len(names) == 1 else "their signatures end"
    return Said(NEXT, all_of(names), f"{front} {on(told.moment, now)} (in {distance(told.moment - now)}){then(told)}")


def then(told: Next) -> str:
    if told.then is None:
        return ""
    return ", and others take over" if told.is_taken_over else f", and then it is {told.then}"
