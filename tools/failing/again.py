"""Calls of the libraries that are refused memory and then made again: rows of `dnsv_rows` that say what came of them.

`add-again` adds a message again that wasn't added for want of memory, and looks at the capture in between; `feed-again`
feeds a framer on. A row that finds something wrong there says so, and that is no right answer here."""

from __future__ import annotations

from typing import Any, Iterator, Union

from .refusal import Refusal, refused
from .runs import Answer, Bench, Case, Tried
from .tally import Tally

# What a row says that was refused memory for its own work; and what is said of a row that names octets (`let`) where it
# was refused memory, which it tells of hex as of a bad digit, and then of the row that asks for these octets.
OWN, UNREAD = b"out of memory\n", b"malformed row\n"
UNNAMED = (OWN + UNREAD, UNREAD + UNREAD)
AGAIN, FOR_EVER = "added again, and then the first answer", "refused from then on, behind a beginning"
GRANTED, OTHERS = "not refused", "refused beside the call"


# A message behind the stream, with its length.
BEHIND = bytes.fromhex("0001aa")


def rows(call: str, pieces: list[bytes]) -> str:
    """Rows that name octets, and one that calls by these names: so want of memory for reading hex has a line of its
    own, and isn't taken for what the call does wrong."""
    named = "".join(f"let P{number} {octets.hex()}\n" for number, octets in enumerate(pieces))
    return f"{named}{call} {' '.join(f'$P{number}' for number in range(len(pieces)))}\n"


class Adding:
    """`add-again`: the first answer, but that one `add` was refused."""

    def __init__(self, name: str, octets: bytes) -> None:
        self.name, self.rows, self.wanted = f"again: add, {name}", rows("add-again", [octets]), AGAIN

    def is_whole(self, text: bytes) -> bool:
        return text.startswith(b"refused 0, ")

    def end_of(self, right: bytes, text: bytes) -> str | None:
        return AGAIN if text == right.replace(b"refused 0, ", b"refused 1, ", 1) else None


class Feeding:
    """`feed-again`, the stream in pieces of this size and a message behind it: a beginning of the messages."""

    def __init__(self, name: str, octets: bytes, size: int) -> None:
        pieces = [octets[place : place + size] for place in range(0, len(octets), size)]
        self.name, self.rows, self.wanted = f"again: feed, {name}", rows("feed-again", [*pieces, BEHIND]), FOR_EVER

    def is_whole(self, text: bytes) -> bool:
        return text.startswith(b"ok, ")

    def end_of(self, right: bytes, text: bytes) -> str | None:
        word, _, told = text.partition(b", ")
        messages = [] if told == b"none\n" else told.split()
        is_beginning = messages == right.split()[1:][: len(messages)]
        return FOR_EVER if word == b"refused 90" and is_beginning else None


Call = Union[Adding, Feeding]


def calls_of(case: Case) -> tuple[Call, ...]:
    """What is tried of its capture."""
    octets = case.files["capture"].read_bytes()
    return (
        Adding(case.name, octets),
        Feeding(case.name, octets, len(octets)),
        Feeding(f"{case.name}, in pieces", octets, 1 + len(octets) // 3),
    )


def jobs(cases: list[Case]) -> Iterator[tuple[Any, ...]]:
    """A job for each row, which is refused some hundred calls for memory."""
    for case in cases:
        yield from ((each, call) for call in calls_of(case))


def each(tried: Tried, call: Call) -> Tally:
    """Refuses each call for memory of the row alone; some of them have to be of the call that is made again."""
    tally, kinds = Tally(), set()
    with Bench(tried) as bench:
        row = bench.file("row", call.rows.encode())
        right, calls, _ = refused(bench, [], Refusal("memory"), row)
        is_right = right.status == 0 and call.is_whole(right.output)
        tally.take(call.name, GRANTED if is_right else None, f"where none of {calls} calls is refused", right)
        for number in range(1, calls + 1):
            asked = Refusal("memory", number, number)
            answer, _, count = refused(bench, [], asked, row)
            end = end_of(call, right.output, answer) if count else None
            kinds.add(end)
            tally.take(call.name, end, f"{asked}, {count} refused", answer)
    if call.wanted not in kinds:
        tally.failed(call.name, f"none was {call.wanted}")
    return tally


def end_of(call: Call, right: bytes, answer: Answer) -> str | None:
    """How the row ended: its own work may be refused too, and the program's, which then ends with status 1."""
    if answer.status:
        return OTHERS if answer.status == 1 and not answer.output else None
    if answer.output == right:
        return GRANTED
    return OTHERS if answer.output in (OWN, *UNNAMED) else call.end_of(right, answer.output)
