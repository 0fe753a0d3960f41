"""How many passed and how many failed, by what a guard printed and by the status that it ended with."""

from __future__ import annotations

import re
from typing import Callable, NamedTuple

CLOSING = re.compile(r"^(\d+) passed, (\d+) failed$", re.MULTILINE)
RAN = re.compile(r"^Ran (\d+) tests? in ", re.MULTILINE)
# What unittest counts besides, in its last line. A test that is skipped has shown nothing.
NOT_PASSED = re.compile(r"\b(?:failures|errors|skipped|expected failures|unexpected successes)=(\d+)")


class Count(NamedTuple):
    passed: int
    failed: int

    def __add__(self, other: object) -> Count:
        """The sum, which is no longer tuple."""
        if not isinstance(other, Count):
            return NotImplemented
        return Count(self.passed + other.passed, self.failed + other.failed)

    def __str__(self) -> str:
        return f"{self.passed} passed, {self.failed} failed"


NONE, BROKEN = Count(0, 0), Count(0, 1)
# What a guard printed and its status give its count.
Reading = Callable[[str, int], Count]


def agreed(count: Count, status: int) -> Count:
    """The count, with one more that failed where the guard ended otherwise than its count says, or counted nothing."""
    is_broken = count == NONE or (status != 0 and not count.failed)
    return count + BROKEN if is_broken else count


def of_closing_line(printed: str, status: int) -> Count:
    """By the last line of the form `N passed, M failed`."""
    lines = CLOSING.findall(printed)
    return agreed(Count(*map(int, lines[-1])) if lines else NONE, status)


def of_unittest(printed: str, status: int) -> Count:
    """By what `python3 -m unittest` says at its end."""
    ran, last = RAN.findall(printed), printed.rstrip().split("\n")[-1]
    failed = sum(map(int, NOT_PASSED.findall(last)))
    return agreed(Count(int(ran[-1]) - failed, failed) if ran else NONE, status)


def of_status(_printed: str, status: int) -> Count:
    """By the status alone."""
    return BROKEN if status else Count(1, 0)
