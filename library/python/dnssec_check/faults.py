"""What a call raises."""
from typing import Optional


class Unavailable(ImportError):
    """The library isn't there."""


class Misused(ValueError):
    """An argument names nothing, as a moment above 2^48 - 1."""


class Fault(Exception):
    """What was given is at fault: the number says how, as the manual page dnssec_check(1) explains it, and the place
    where. Messages, records and lines are counted from 1.

    >>> str(Refused(502, line=3))
    'refused 502 line 3'
    >>> str(Fault(211, given="capture"))
    'fault 211 capture'
    """

    word = "fault"

    def __init__(
        self,
        number: int,
        message: Optional[int] = None,
        record: Optional[int] = None,
        line: Optional[int] = None,
        given: str = "",
    ) -> None:
        self.number, self.message, self.record, self.line, self.given = number, message, record, line, given
        super().__init__(number, message, record, line, given)

    def __str__(self) -> str:
        """As the program tells it."""
        places = (("message", self.message), ("record", self.record), ("line", self.line))
        told = [f"{word} {number}" for word, number in places if number is not None]
        return " ".join([self.word, str(self.number), *told, *([self.given] if self.given else [])])


class Refused(Fault):
    """What was given is refused."""

    word = "refused"


class OutOfMemory(Fault, MemoryError):
    """Memory is wanting."""
