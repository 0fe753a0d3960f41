"""Inputs drawn one after another, by one seed and for so many seconds. One by which a reader ends as it never did joins
those that are changed."""

from __future__ import annotations

import math
import random
import time
from dataclasses import dataclass, field
from typing import Callable, Iterator, Optional

from .changes import Draw, Source, changed
from .faults import Fault, shrunk, tried
from .limits import processor_seconds
from .target import Desk, Target

Report = Callable[[Fault, bytes], None]
# Of more that end in ways of their own no more are kept, nor of a kind of fault.
KEPT_MOST = 4000
KINDS_MOST = 20
OF_REFUSED = 0.15  # of the inputs, so many are made of one that was refused


@dataclass
class Tally:
    """What was tried, and what came of it; faults by their kind, each with the input that led to it."""

    tried: int = 0
    taken: int = 0
    ways: set[str] = field(default_factory=set)
    faults: dict[str, tuple[Fault, bytes]] = field(default_factory=dict)


class Loop:
    """The inputs of a target and what came of them."""

    def __init__(self, target: Target, seed: str, desk: Desk, report: Report = lambda *_: None) -> None:
        """Each kind of fault is reported as soon as it's met."""
        self.target, self.desk, self.tally, self.report = target, desk, Tally(), report
        self.draw = random.Random(f"{target.name} {seed}")
        self.inputs = target.inputs()
        self.refused: list[bytes] = []
        self.source = Source(self.inputs, target.words, target.parts)

    def run(self, seconds: float, clock: float = math.inf) -> Tally:
        """The corpus as it is, and then what is made of it, for so many seconds of a processor and no more by the
        clock."""
        end, last = processor_seconds() + seconds, time.monotonic() + clock
        for octets in self.drawn(len(self.inputs)):
            self.take(octets)
            if processor_seconds() >= end or time.monotonic() >= last or len(self.tally.faults) >= KINDS_MOST:
                break
        return self.tally

    def drawn(self, count: int) -> Iterator[bytes]:
        yield from self.inputs[:count]
        while True:
            yield self.made(self.draw)

    def made(self, draw: Draw) -> bytes:
        is_of_refused = bool(self.refused) and draw.random() < OF_REFUSED
        octets = changed(draw.choice(self.refused if is_of_refused else self.inputs), self.source, draw)
        for change in self.target.changes:
            octets = change(octets, draw)
        return octets

    def take(self, octets: bytes) -> None:
        ended, fault = tried(self.target, octets, self.desk)
        self.tally.tried += 1
        if fault:
            self.keep(octets, fault)
        elif ended:
            self.tally.taken += ended.is_taken
            if ended.how not in self.tally.ways and len(self.tally.ways) < KEPT_MOST:
                self.tally.ways.add(ended.how)
                (self.inputs if ended.is_taken else self.refused).append(octets)

    def keep(self, octets: bytes, fault: Fault) -> None:
        """The first input of each kind of fault, as small as it can be had."""
        if fault.kind not in self.tally.faults:
            smaller = shrunk(self.target, octets, fault.kind, self.desk)
            self.desk.taken = 0
            again: Optional[Fault] = tried(self.target, smaller, self.desk)[1]
            self.tally.faults[fault.kind] = again or fault, smaller
            self.report(again or fault, smaller)
