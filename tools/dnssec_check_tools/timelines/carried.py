"""What carries a verdict now, and which of its signatures ends first."""
from typing import List, Optional

from ..capturing.messages import name_text
from ..judging.work import View
from ..program import INSECURE, SECURE
from .pieces import Interval, Next, Timeline, said
from .spans import window


class End:
    """The last moment of a signature, and the RRset that it signs."""

    def __init__(self, moment: int, owner: str, kind: int) -> None:
        self.moment, self.whose = moment, (owner, kind)


def next_end(timeline: Timeline, now: int, view: View) -> Optional[Next]:
    """The first end of what carries the verdict that something is proved by now; None where nothing is, or where now
    isn't in the range."""
    interval = timeline.at(now)
    if interval is None or interval.status not in (SECURE, INSECURE):
        return None
    ends = ends_of(interval, now, view)
    if not ends:
        return None
    first = min(each.moment for each in ends)
    behind = timeline.at(first + 1)
    whose = list(dict.fromkeys(each.whose for each in ends if each.moment == first))
    return Next(first, whose, behind.word if behind else None, is_same(behind, interval, view))


def is_same(behind: Optional[Interval], interval: Interval, view: View) -> bool:
    """Whether the same is said."""
    target = view.evidence.target
    return behind is not None and said(behind, target) == said(interval, target)


def ends_of(interval: Interval, now: int, view: View) -> List[End]:
    """The ends of the signatures that carry it."""
    found: List[End] = []
    for each in interval.value["by"]:
        times = view.evidence.times(each["rrset"], each["signature"])
        if times:
            rrset = view.evidence.rrsets[each["rrset"] - 1]
            found.append(End(window(times, now).last, name_text(rrset.owner), rrset.kind))
    return found
