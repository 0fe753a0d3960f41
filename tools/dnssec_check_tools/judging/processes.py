"""Captures judged several at once on this machine, each by a process of its own. Where there are fewer captures than
processes, the questions of each are shared among some, once its signatures are verified."""
import collections
import functools
from typing import Any, Deque, Dict, Iterable, Iterator, List, NamedTuple, Optional, Set, Tuple, Union

from ..asking.captures import Unmade
from ..program import Program

from .skew import folded, widened
from .spread import Answer, Result, Results, Task, answer, answer_of, guarded, judged_task, of_lost, of_unread, read_now
from .work import Common, Judged, Prepared, Row, View, joined, prepared, share_rows, without_verdicts
from .workers import Lost, Workers

SHARE_LEAST = 500  # questions of a share: fewer take less time than it takes to begin with them

Rows = List[List[Row]]  # of each moment


class Share(NamedTuple):
    """Some of the questions of a capture, by its number and the place of the share among all of it."""

    number: int
    place: int
    capture: Prepared


Thing = Union[Task, Share]


def do(common: Common, program: Program, shares: int, thing: Thing) -> Any:
    """What a process makes of a capture or a share."""
    if isinstance(thing, Share):
        return rows_of_share(common, program, thing)
    if shares < 2 or common.span:
        return answer(common, program, thing)
    return guarded(functools.partial(judged_or_prepared, common, program, thing), thing.questions, common)


def rows_of_share(common: Common, program: Program, share: Share) -> Union[Answer, Rows]:
    wide = widened(common)
    found = guarded(lambda: share_rows(share.capture, wide, program), share.capture.asked, wide)
    return by_moment(found.rows, wide) if isinstance(found, Judged) else found


def by_moment(rows: List[Row], common: Common) -> Rows:
    return [[row for row in rows if row.moment == moment] for moment in common.moments]


def judged_or_prepared(common: Common, program: Program, task: Task) -> Union[Judged, Prepared]:
    """The verdicts, or what is needed to ask for them where there are many questions."""
    try:
        octets = read_now(task)
    except (OSError, Unmade) as fault:
        return of_unread(task, fault, common)
    task = task._replace(octets=octets)
    asked = View(octets).every_question() if task.questions is None else task.questions
    if len(asked) < 2 * SHARE_LEAST:
        return judged_task(task, common, program)
    found = prepared(octets, asked, widened(common), program)
    if isinstance(found, Prepared):
        return found
    return without_verdicts(task.questions, common, found.rows[0].evidence)


class Parts:
    """The rows of the shares of a capture, as they come."""

    def __init__(self, task: Task, notes: List[str], count: int) -> None:
        self.task, self.notes = task, notes
        self.rows: List[Optional[Rows]] = [None] * count

    def judged(self, common: Common) -> Optional[Judged]:
        """The verdicts, once all are there."""
        there = [rows for rows in self.rows if rows is not None]
        if len(there) < len(self.rows):
            return None
        by_moments = [[row for rows in of_moment for row in rows] for of_moment in zip(*there)]
        return folded(Judged(joined(by_moments, self.task.questions is None, True), self.notes), common)


class Spread:
    """What the processes have, and what waits for one."""

    def __init__(self, workers: Workers, common: Common, jobs: int, shares: int) -> None:
        self.workers, self.common, self.jobs, self.shares = workers, common, jobs, shares
        self.waiting: Deque[Thing] = collections.deque()
        self.parts: Dict[int, Parts] = {}
        self.lost: Set[Tuple[int, int]] = set()

    def results(self, tasks: Iterable[Task]) -> Iterator[Result]:
        for task in tasks:
            self.waiting.append(task)
            self.give()
            while self.waiting or len(self.workers.busy) >= self.jobs:
                yield from self.done()
        while self.workers.busy:
            yield from self.done()

    def give(self) -> None:
        while self.waiting and len(self.workers.busy) < self.jobs:
            self.workers.give(self.waiting.popleft())

    def done(self) -> Iterator[Result]:
        """What is done. What a process is lost by is given to another one, once."""
        for thing, found in self.workers.done():
            place = thing.number, thing.place if isinstance(thing, Share) else 0
            if not isinstance(found, Lost):
                yield from self.take(thing, answer_of(found))
            elif place in self.lost:
                yield from self.take(thing, self.of_lost(thing, found.how))
            else:
                self.lost.add(place)
                self.waiting.appendleft(thing)
        self.give()

    def of_lost(self, thing: Thing, how: str) -> Union[Judged, Rows]:
        if isinstance(thing, Task):
            return of_lost(thing.questions, self.common, how)
        wide = widened(self.common)
        return by_moment(of_lost(thing.capture.asked, wide, how).rows, wide)

    def take(self, thing: Thing, found: Any) -> Iterator[Result]:
        if isinstance(found, Judged):
            yield thing.number, found
        elif isinstance(thing, Task):
            self.share(thing, found)
        else:
            parts = self.parts[thing.number]
            parts.rows[thing.place] = found
            judged = parts.judged(self.common)
            if judged:
                del self.parts[thing.number]
                yield thing.number, judged

    def share(self, task: Task, capture: Prepared) -> None:
        """Has the questions asked in as many shares as are wanted, none of which is small."""
        count = min(self.shares, len(capture.asked) // SHARE_LEAST)
        size = -(-len(capture.asked) // count)
        pieces = [capture.asked[first : first + size] for first in range(0, len(capture.asked), size)]
        self.parts[task.number] = Parts(task, capture.notes, len(pieces))
        for place, asked in enumerate(pieces):
            self.waiting.append(Share(task.number, place, capture._replace(asked=asked)))


def in_processes(tasks: Iterable[Task], common: Common, program: Program, jobs: int, count: int) -> Results:
    """Each capture's number with its verdicts, as they are done, of so many captures."""
    shares = jobs // max(1, count)
    with Workers(functools.partial(do, common, program, shares)) as workers:
        yield from Spread(workers, common, jobs, shares).results(tasks)
