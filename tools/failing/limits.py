"""The program under `ulimit -v`, from a limit at which the loader itself fails to one that is ample."""

from __future__ import annotations

from typing import Any, Iterator

from .runs import Answer, Bench, Case, Tried
from .refusals import RIGHT, wanting_memory
from .tally import Tally

# In kilobytes: the first limit, the step, and how far beyond the first right answer it goes.
LEAST, STEP, BEYOND = 2048, 8, 256
MOST = 1 << 20
SPAN = 64
# What the loader says where a library of the program, or what belongs to its one thread, finds no room; the shell's
# status where the program isn't begun.
LOADER = b"error while loading shared libraries", b"cannot allocate TLS data structures"
NOT_BEGUN = (126, 127)


def under(bench: Bench, case: Case, kilobytes: int) -> Answer:
    """What comes of the case's words with no more address space than that."""
    command = ["/bin/sh", "-c", 'ulimit -v "$0" && exec "$@"', str(kilobytes), str(bench.tried.program)]
    return bench.answer_of([*command, *case.words_with()])


def ample(bench: Bench, case: Case) -> int:
    """A limit at which the answer is right, and above it nothing is tried."""
    limit = LEAST
    while limit < MOST and under(bench, case, limit) != case.right:
        limit *= 2
    low, high = limit // 2, limit
    while high - low > STEP:
        middle = (low + high) // 2
        low, high = (low, middle) if under(bench, case, middle) == case.right else (middle, high)
    return high + BEYOND


def jobs(tried: Tried, cases: list[Case]) -> Iterator[tuple[Any, ...]]:
    with Bench(tried) as bench:
        for case in cases:
            yield stepped, case, ample(bench, case)


def stepped(tried: Tried, case: Case, most: int) -> Tally:
    """Each limit up to the most. The loader's own refusals end where the program first says something."""
    tally, row, has_spoken = Tally(), f"limits: {case.name}", False
    with Bench(tried) as bench:
        for limit in range(LEAST, most + 1, STEP):
            answer = under(bench, case, limit)
            end = end_of(case, answer)
            has_spoken = has_spoken or end is not None
            if not has_spoken and is_of_loader(answer):
                end = "refused by the loader"
            tally.take(row, end, f"ulimit -v {limit}", answer)
        tally.take(f"{row}, ample", RIGHT if answer == case.right else None, f"ulimit -v {limit}", answer)
    return tally


def end_of(case: Case, answer: Answer) -> str | None:
    return RIGHT if answer == case.right else wanting_memory(case, answer)


def is_of_loader(answer: Answer) -> bool:
    """Whether the program wasn't begun: the kernel killed it as it laid it out, or the loader or the shell says so."""
    return not answer.output and (answer.status < 0 or is_told_by_loader(answer))


def is_told_by_loader(answer: Answer) -> bool:
    return answer.status in NOT_BEGUN and any(text in answer.errors for text in LOADER)
