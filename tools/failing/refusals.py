"""The program on a machine that refuses it memory, reads or writes."""

from __future__ import annotations

from typing import Any, Iterator, Sequence

from .refusal import Refusal, refused
from .runs import Answer, Asked, Bench, Tried
from .tally import Tally

OUT_OF_MEMORY = Answer(1, b"", b"fault 90\n")
RIGHT = "right answers"
# How many calls are refused in one job.
SPAN = 200
# In how many pieces a text is written, so that a write is refused behind each.
PIECES = 100
OUTPUT, ERRORS = "/dev/stdout", "/dev/stderr"
# What the system itself refuses to write to: a full disk, and a stream that is closed.
BROKEN = ("> /dev/full", ">&-")


def wanting_memory(case: Asked, answer: Answer) -> str | None:
    """How it ends where memory is wanting: nothing is written, or of many questions the whole texts of the first."""
    if answer == OUT_OF_MEMORY:
        return "`fault 90`"
    if answer == OUT_OF_MEMORY._replace(output=answer.output) and answer.output in case.firsts:
        return "`fault 90` behind the first texts"
    return None


def jobs(tried: Tried, kind: str, cases: Sequence[Asked]) -> Iterator[tuple[Any, ...]]:
    """A job for each part of what is refused to each case."""
    if kind == "write":
        yield from ((broken, case) for case in cases)
    with Bench(tried) as bench:
        for case in cases:
            for refusal in KINDS[kind].plan(case):
                answer, calls, _ = refused(bench, case.words_with(), refusal)
                yield none, case, refusal, answer, calls
                for first in range(1, calls + 1, SPAN):
                    yield each, case, refusal, range(first, min(first + SPAN, calls + 1))


def none(_tried: Tried, case: Asked, refusal: Refusal, answer: Answer, calls: int) -> Tally:
    """What came where each call was granted."""
    tally = Tally()
    tally.take(
        row_of(case, refusal), RIGHT if answer == case.right and calls else None, f"{refusal}, {calls} calls", answer
    )
    return tally


def each(tried: Tried, case: Asked, refusal: Refusal, numbers: range) -> Tally:
    """Refuses the call of each of these numbers: alone, and with all that follow."""
    tally, row, kind = Tally(), row_of(case, refusal), KINDS[refusal.kind]
    with Bench(tried) as bench:
        for number in numbers:
            for last in (number, None):
                asked = refusal._replace(first=number, last=last)
                answer, _, count = refused(bench, case.words_with(), asked)
                tally.take(
                    row, kind.end_of(case, asked, answer) if count else None, f"{asked}, {count} refused", answer
                )
    return tally


def broken(tried: Tried, case: Asked) -> Tally:
    """The stream that the answer is written to is none."""
    tally, (status, output, errors) = Tally(), case.right
    with Bench(tried) as bench:
        for how in BROKEN:
            if output:
                take_broken(tally, bench, case, f"1{how}", Answer(1, b"", b"fault 812\n"))
            if errors:
                take_broken(tally, bench, case, f"2{how}", Answer(status, output, b""))
    return tally


def take_broken(tally: Tally, bench: Bench, case: Asked, how: str, wanted: Answer) -> None:
    command = ["/bin/sh", "-c", f'exec "$0" "$@" {how}', str(bench.tried.program), *case.words_with()]
    answer = bench.answer_of(command)
    tally.take(
        f"write: {case.name}, where the system refuses it", "as it should" if answer == wanted else None, how, answer
    )


def row_of(case: Asked, refusal: Refusal) -> str:
    return f"{refusal.kind}: {case.name}" + KINDS[refusal.kind].told(case, refusal)


class Memory:
    """Each call for memory."""

    def plan(self, _case: Asked) -> Iterator[Refusal]:
        yield Refusal("memory")

    def told(self, _case: Asked, _refusal: Refusal) -> str:
        return ""

    def end_of(self, case: Asked, _refusal: Refusal, answer: Answer) -> str | None:
        return RIGHT if answer == case.right else wanting_memory(case, answer)


class Reads:
    """Each read of each file: as the program asks for it, and of an octet at a time where the file is small."""

    def plan(self, case: Asked) -> Iterator[Refusal]:
        for path in case.files.values():
            yield Refusal("read", file=path)
            if path.stat().st_size <= SPAN:
                yield Refusal("read", file=path, size=1)

    def option(self, case: Asked, refusal: Refusal) -> str:
        return next(option for option, path in case.files.items() if path == refusal.file)

    def told(self, case: Asked, refusal: Refusal) -> str:
        return f", {self.option(case, refusal)}" + (", an octet at a time" if refusal.size else "")

    def end_of(self, case: Asked, refusal: Refusal, answer: Answer) -> str | None:
        said = f"fault 210 {self.option(case, refusal)}"
        return f"`{said}`" if answer == Answer(1, b"", f"{said}\n".encode()) else None


class Writes:
    """Each write of both streams: as the program asks for it, and in pieces, down to an octet."""

    def plan(self, case: Asked) -> Iterator[Refusal]:
        for stream, text in ((OUTPUT, case.right.output), (ERRORS, case.right.errors)):
            if text:
                yield Refusal("write", file=stream)
                yield Refusal("write", file=stream, size=max(1, len(text) // PIECES))

    def told(self, _case: Asked, refusal: Refusal) -> str:
        return f", {refusal.file}" + (f", {refusal.size} octets at a time" if refusal.size else "")

    def end_of(self, case: Asked, refusal: Refusal, answer: Answer) -> str | None:
        """What was written is a beginning of the text, of no more than what was taken before."""
        status, output, errors = case.right
        if refusal.file == ERRORS:
            is_right = self.is_begun(refusal, answer.errors, errors) and answer[:2] == (status, output)
            return "a beginning of the text" if is_right else None
        is_right = self.is_begun(refusal, answer.output, output) and answer == (1, answer.output, b"fault 812\n")
        return "`fault 812` behind a beginning" if is_right else None

    def is_begun(self, refusal: Refusal, written: bytes, text: bytes) -> bool:
        taken = ((refusal.first or 1) - 1) * (refusal.size or len(text))
        return text.startswith(written) and len(written) <= min(taken, len(text) - 1)


KINDS: dict[str, Memory | Reads | Writes] = {"memory": Memory(), "read": Reads(), "write": Writes()}
