"""Verdicts over time: what the evidence proves of a question at each moment of a range, and what ends or begins when
that changes."""
import json
from dataclasses import dataclass
from typing import Any, Dict, Iterator, List, NamedTuple, Optional, Tuple

from .verdict import SECURE, Alias, Denying, Json, known


class Carrying(NamedTuple):
    """A signature that a verdict rests on, by its RRset."""

    rrset: int
    signature: int


class Edge(NamedTuple):
    """A signature whose validity `ends` with the moment, or `begins` at it, where the verdict or what it rests on
    changes.

    `owner` and `type` are those of the RRset that it signs, `signer` is the zone of its key, with the key's `tag` and
    `algorithm`; `inception` and `expiration` are as the signature has them.
    """

    edge: str
    moment: int
    owner: str
    type: int
    rrset: int
    signature: int
    tag: int
    algorithm: int
    signer: str
    inception: int
    expiration: int


@dataclass(frozen=True)
class VerdictInterval:
    """Moments from the first to the last at which one verdict holds, by the same evidence.

    `by` are the signatures that it rests on; all else is as a `Verdict` has it. Where the way of aliases is refused
    there is no verdict, and the number `refused`. A timeline of kinds has the verdict's kind alone.
    """

    first: int
    last: int
    verdict: Optional[str]
    status: int
    aliases: Tuple[Alias, ...] = ()
    rrset: Optional[int] = None
    signature: Optional[int] = None
    records: Tuple[Denying, ...] = ()
    cut: Optional[str] = None
    by: Tuple[Carrying, ...] = ()
    refused: Optional[int] = None

    @property
    def is_secure(self) -> bool:
        return self.verdict in SECURE

    @property
    def seconds(self) -> int:
        """How long it is: 1 where the first moment is the last.

        >>> VerdictInterval(10, 10, "Bogus", 5).seconds
        1
        """
        return self.last - self.first + 1

    def has(self, moment: int) -> bool:
        return self.first <= moment <= self.last


@dataclass(frozen=True)
class Timeline:
    """The verdict on a question at each moment from the first to the last: intervals that follow one another without a
    gap, and the edges between them, in their order."""

    name: str
    type: int
    first: int
    last: int
    intervals: Tuple[VerdictInterval, ...]
    edges: Tuple[Edge, ...] = ()

    def __iter__(self) -> Iterator[VerdictInterval]:
        return iter(self.intervals)

    def at(self, moment: int) -> VerdictInterval:
        """The interval that has the moment; a LookupError says that it isn't in the range."""
        for each in self.intervals:
            if each.has(moment):
                return each
        raise LookupError(f"{moment} isn't from {self.first} to {self.last}")

    def before(self, interval: VerdictInterval) -> List[Edge]:
        """The edges at which the interval begins: what ended just before it, and what begins with it."""
        borders = (("ends", interval.first - 1), ("begins", interval.first))
        return [edge for edge in self.edges if (edge.edge, edge.moment) in borders]


def timeline_of(text: bytes) -> Timeline:
    """What the program's object of a timeline says.

    >>> said = b'{"command":"timeline","name":"a.","type":1,"from":3,"to":9,"intervals":[{"from":3,"to":9,'
    >>> found = timeline_of(said + b'"verdict":"Bogus","status":5,"aliases":[],"by":[]}],"edges":[]}')
    >>> found.at(4).verdict, found.at(4).seconds, found.before(found.at(4))
    ('Bogus', 7, [])
    """
    said: Json = json.loads(text)
    intervals = tuple(map(interval_of, said["intervals"]))
    edges = tuple(Edge(**known(Edge, each)) for each in said["edges"])
    return Timeline(said["name"], said["type"], said["from"], said["to"], intervals, edges)


def interval_of(said: Json) -> VerdictInterval:
    told: Dict[str, Any] = {"verdict": None, **said}
    told["first"], told["last"] = told.pop("from"), told.pop("to")
    told["aliases"] = tuple(Alias(**known(Alias, each)) for each in said.get("aliases", ()))
    told["records"] = tuple(Denying(**known(Denying, each)) for each in said.get("records", ()))
    told["by"] = tuple(Carrying(**known(Carrying, each)) for each in said.get("by", ()))
    return VerdictInterval(**known(VerdictInterval, told))
