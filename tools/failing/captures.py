"""The files of a small question, cut at each place, and its capture with each octet changed to each other value.

The capture has two messages: the key of `example.`, and the address of `Host.Example.`, twice. Its names are compressed
and of mixed case, and the TTL isn't the original one, so that what is signed is told apart from what is received."""

from __future__ import annotations

from typing import Any, Callable, Iterator

from .documented import kind_of
from .runs import Answer, Bench, Case, Tried
from .tally import Tally

# Where the second message begins: behind two octets of length and 84 of the first.
SECOND = 86
# With no message, or the key alone, there is an anchor and no answer.
WITHOUT_ANSWER = Answer(5, b"Bogus host.example. 1\n", b"")
TORN = Answer(7, b"", b"refused 209\n")


def cut_jobs(case: Case) -> Iterator[tuple[Any, ...]]:
    yield cut_captures, case
    for option in ("anchors", "statements"):
        yield cut_texts, case, option


def cut_captures(tried: Tried, case: Case) -> Tally:
    """A beginning of the stream is refused, unless it ends between messages."""
    tally, octets = Tally(), case.files["capture"].read_bytes()
    with Bench(tried) as bench:
        for length in range(len(octets) + 1):
            answer = bench.answer(case.words_with(capture=bench.file("capture", octets[:length])))
            wanted = {0: WITHOUT_ANSWER, SECOND: WITHOUT_ANSWER, len(octets): case.right}.get(length, TORN)
            end = kind_of(answer) if answer == wanted else None
            tally.take(f"cut: {case.name}, capture", end, f"the first {length} octets", answer)
    return tally


def cut_texts(tried: Tried, case: Case, option: str) -> Tally:
    """A beginning of the file is refused, or gives another verdict; the answer needs all but the last newline."""
    tally, octets = Tally(), case.files[option].read_bytes()
    with Bench(tried) as bench:
        for length in range(len(octets) + 1):
            answer = bench.answer(case.words_with(**{option: bench.file(option, octets[:length])}))
            is_whole = length >= len(octets) - 1
            is_right = (answer == case.right) == is_whole and not has_failed(answer)
            end = kind_of(answer) if is_right else None
            tally.take(f"cut: {case.name}, {option}", end, f"the first {length} octets", answer)
    return tally


def has_failed(answer: Answer) -> bool:
    """Whether it tells a failure of the machine, which had memory and files enough."""
    return answer.status == 1


def octet_jobs(case: Case, listing: Case) -> Iterator[tuple[Any, ...]]:
    octets, wanted = case.files["capture"].read_bytes(), signed_data(case.right, listing.right.output)
    for place in range(len(octets)):
        yield changed, case, listing.words_with, octets, place, wanted


def changed(
    tried: Tried, case: Case, listed: Callable[..., list[str]], octets: bytes, place: int, wanted: bytes | None
) -> Tally:
    """The octet at this place as each other value."""
    tally, row = Tally(), f"octets: {case.name}"
    with Bench(tried) as bench:
        for value in range(256):
            if value == octets[place]:
                continue
            capture = bench.file("capture", octets[:place] + bytes([value]) + octets[place + 1 :])
            answer = bench.answer(case.words_with(capture=capture))
            why = f"octet {place} (from 0) as {value}"
            if not answer.output.startswith(b"SecureAnswer "):
                tally.take(row, unsigned_kind(answer), why, answer)
                continue
            data = signed_data(answer, bench.answer(listed(capture=capture)).output)
            tally.take(
                row, kind_of(answer) if data == wanted else None, f"{why}, of signed data {shown_data(data)}", answer
            )
    return tally


def unsigned_kind(answer: Answer) -> str | None:
    """What is told where nothing is proved: neither signature is of a denial or a delegation."""
    kind = kind_of(answer)
    is_proved = kind in ("SecureNoName", "SecureNoData", "Insecure")
    return None if is_proved or has_failed(answer) else kind


def signed_data(answer: Answer, listing: bytes) -> bytes | None:
    """What the signature signs that a secure answer names, by the lines of `list --all`."""
    _, rrset, _, signature = answer.output.splitlines()[-1].split(b" ")
    lines = (line.split(b" ") for line in listing.splitlines())
    return next((fields[3] for fields in lines if fields[:3] == [b"data", rrset, signature]), None)


def shown_data(data: bytes | None) -> str:
    return "none" if data is None else data.decode()
