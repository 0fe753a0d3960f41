"""The moments of a timeline: those that are told, or those that the signatures of a capture span."""
from typing import List, NamedTuple, Optional, Tuple

from ..asking.moments import MOMENT_MOST
from ..capturing.frames import frames_of
from ..capturing.messages import TYPE_RRSIG, records_of
from ..capturing.octets import Incomplete, number_at

ROUND, HALF = 1 << 32, 1 << 31  # of the clock of signatures, which has 32 bits (RFC 4034 3.1.5)
EXPIRATION, INCEPTION = 8, 12  # where they stand in the RDATA of an RRSIG record (RFC 4034 3.1)
Times = Tuple[int, int]  # the inception and the expiration of a signature, as its record has them


class Range(NamedTuple):
    """All moments from the first to the last."""

    first: int
    last: int

    def words(self) -> List[str]:
        return [f"--from={self.first}", f"--to={self.last}"]

    def has(self, moment: int) -> bool:
        return self.first <= moment <= self.last


class Wish(NamedTuple):
    """The range of all captures, None where it's each one's own; and whether what changes the derivation alone is
    told."""

    range: Optional[Range]
    is_verbose: bool

    def of(self, octets: bytes, now: int) -> Range:
        return self.range or range_of(octets, now)


def times_at(octets: bytes, front: int) -> Times:
    """Those of the RRSIG record whose RDATA begins there."""
    return number_at(octets, front + INCEPTION, 4), number_at(octets, front + EXPIRATION, 4)


def times_of(octets: bytes) -> List[Times]:
    """The times of all signatures of a capture, as far as its messages can be read."""
    found: List[Times] = []
    for message in frames_of(octets)[0]:
        try:
            found += [times_at(message, each.front) for each in records_of(message) if each.kind == TYPE_RRSIG]
        except Incomplete:
            pass
    return found


def range_of(octets: bytes, now: int) -> Range:
    """From the first time in the signatures of a capture to the last, each in the round of the clock in which it's
    nearest to now; now alone where there is no signature. It's shorter than a round, whatever the times."""
    found = [nearest(time, now) for times in times_of(octets) for time in times] or [now]
    return Range(max(0, min(found)), min(MOMENT_MOST, max(found)))


def nearest(time: int, now: int) -> int:
    """The moment that 32 bits say which is nearest to now (RFC 1982)."""
    return now + (time - now + HALF) % ROUND - HALF


def window(times: Times, moment: int) -> Range:
    """The moments around one at which a signature with these times is valid, while it is: where its end comes half a
    round behind its beginning or later, nearer to one of them the other is too far away."""
    since, left = (moment - times[0]) % ROUND, (times[1] - moment) % ROUND
    return Range(moment - min(since, HALF - 1 - left), moment + min(left, HALF - 1 - since))
