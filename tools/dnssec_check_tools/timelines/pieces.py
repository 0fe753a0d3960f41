"""A timeline as the program tells it: its intervals, and which signatures end and begin between them."""
from typing import Any, Callable, Dict, Iterator, List, NamedTuple, Optional, Tuple

from ..program import Json

REFUSED = "refused"
ENDS = "ends"
Edge = Dict[str, Any]  # as the program has it
Target = Callable[[int], Optional[str]]  # the name that an alias leads to, by its RRset


class Next(NamedTuple):
    """The first end of what carries a verdict now: its last moment, whose signatures end with it, each by owner and
    type, and the verdict behind it, None where the range ends there."""

    moment: int
    whose: List[Tuple[str, int]]
    then: Optional[str]
    is_taken_over: bool  # the same is said behind it


class Stretch(NamedTuple):
    """What a row of a timeline has besides its first moment and its verdict."""

    last: int
    edges: List[Edge]
    has_now: bool
    next: Optional[Next]


class Interval(NamedTuple):
    """Moments at which one thing is said: the object of it, and the signatures that end and begin in front."""

    value: Json
    edges: List[Edge]

    @property
    def first(self) -> int:
        return int(self.value["from"])

    @property
    def last(self) -> int:
        return int(self.value["to"])

    @property
    def status(self) -> int:
        return int(self.value["status"])

    @property
    def word(self) -> str:
        return REFUSED if REFUSED in self.value else str(self.value["verdict"])

    def has(self, moment: int) -> bool:
        return self.first <= moment <= self.last


class Timeline:
    """An object of `timeline --json`."""

    def __init__(self, value: Json) -> None:
        edges: Dict[int, List[Edge]] = {}
        for edge in value["edges"]:
            edges.setdefault(edge["moment"] + (edge["edge"] == ENDS), []).append(edge)
        self.intervals = [Interval(each, edges.get(each["from"], [])) for each in value["intervals"]]

    def at(self, moment: int) -> Optional[Interval]:
        """The interval that has the moment, None where none has."""
        return next((each for each in self.intervals if each.has(moment)), None)

    def shown(self, is_verbose: bool, target: Target) -> List[Interval]:
        """The intervals, those as one that differ in nothing but what carries the verdict, unless all are told."""
        return self.intervals if is_verbose else list(joined(self.intervals, target))


def joined(intervals: List[Interval], target: Target) -> Iterator[Interval]:
    """Neighbours that say the same as one, with what ends and begins in front of the first."""
    whole: Optional[Interval] = None
    for each in intervals:
        if whole and said(whole, target) == said(each, target):
            whole = Interval({**whole.value, "to": each.last}, whole.edges)
            continue
        if whole:
            yield whole
        whole = each
    if whole:
        yield whole


def said(interval: Interval, target: Target) -> Any:
    """What is said of a verdict without what carries it: its kind, the number of a refusal, the unsigned cut, and
    the aliases on the way with the names that they lead to."""
    value = interval.value
    way = [(each["name"], target(each["rrset"])) for each in value.get("aliases", ())]
    return interval.word, value.get(REFUSED), value.get("cut"), way
