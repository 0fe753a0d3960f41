"""What a reader may take of the machine for one input: behind that it is stopped, and that is a fault."""

from __future__ import annotations

import contextlib
import os
import resource
import signal
import time
from typing import Any, Iterator, NoReturn

SECONDS, MEGABYTES = 5, 300
PAGE = resource.getpagesize()


class TooLong(BaseException):
    """A reader took more processor time than it may. No reader catches it."""


def stop(_number: int, _frame: Any) -> NoReturn:
    raise TooLong(f"more than {SECONDS} seconds of a processor")


@contextlib.contextmanager
def within_time() -> Iterator[None]:
    """TooLong where what is done takes longer, as soon as Python runs again."""
    signal.signal(signal.SIGPROF, stop)
    signal.setitimer(signal.ITIMER_PROF, SECONDS)
    try:
        yield
    finally:
        signal.setitimer(signal.ITIMER_PROF, 0)


def limit_memory() -> None:
    """From now on MemoryError where this process takes so much more than it has."""
    with open("/proc/self/statm", encoding="ascii") as file:
        size = int(file.read().split()[0]) * PAGE
    set_memory(size + MEGABYTES * 1_000_000)


def set_memory(most: int) -> int:
    """Sets the most, and answers what it was."""
    before, ever = resource.getrlimit(resource.RLIMIT_AS)
    resource.setrlimit(resource.RLIMIT_AS, (most, ever))
    return before


@contextlib.contextmanager
def unlimited_memory() -> Iterator[None]:
    """For a program that is begun meanwhile, which would have the limit too."""
    before = set_memory(resource.getrlimit(resource.RLIMIT_AS)[1])
    try:
        yield
    finally:
        set_memory(before)


def processor_seconds() -> float:
    """What this process took, and those that it ran."""
    return time.process_time() + sum(os.times()[2:4])
