"""The library in the place of the program, where it's installed: it says the same of a small capture in this process.

A call can't be ended, as a program can. So the program is asked of a capture from which much can be listed, and where
no answers are given, without which each verdict may list it again.

`asked_by` gives what stands in for the program where moments are asked for one by one. Over time `listed_range` and
`timeline` stand in for two runs: they take the program that is asked, and answer None where it has to be run.
"""
import functools
import importlib
import io
import os
from typing import Any, Callable, Generator, Iterator, Optional, Tuple

from .asked import Asked, Memory, Time
from .asking.questions import Question
from .command import VERSION
from .listed import LISTS_LITTLE, Listed
from .program import EXPLAIN, FAILED, NAME_MOST, REFUSED, Files, Manner, Program, Run, program_of

CALLS = "dnssec_check.calls"
Moments = Tuple[int, int]  # the first and the last of a range
ANSWERS, QUESTIONS = "answers", "questions"
# Of one call: behind it the time is looked at, and the text of all of them is in memory.
QUESTIONS_OF_A_CALL = 16


def asked_by(given: Optional[str], tool: str) -> Program:
    """What the tool asks: the library where it's installed, but where a program is named."""
    program = program_of(given, tool)
    return InProcess(program.path) if given is None and calls_of_library() else program


@functools.lru_cache(None)
def calls_of_library() -> Any:
    """The calls of the library of this version, None where it isn't installed."""
    try:
        calls = importlib.import_module(CALLS)
    except ImportError:
        return None
    return calls if calls.version() == VERSION else None


def size_of(number: int) -> int:
    return os.fstat(number).st_size


def octets_of(number: int) -> bytes:
    """What an open file has."""
    return os.pread(number, size_of(number), 0)


class InProcess(Program):
    """The program by its path, which the library stands in for."""

    def listed(self, capture: int, moment: int, most: int) -> Listed:
        calls = calls_of_library()
        if calls is None or size_of(capture) > LISTS_LITTLE:
            return super().listed(capture, moment, most)
        given = calls.Given(octets_of(capture), moment=moment)
        return ListedHere(lambda: told(calls, lambda: calls.listed(given, calls.COMPACT, calls.LINES)), capture, most)

    def judged(self, manner: Manner, files: Files, question: Question) -> Run:
        calls = calls_for(files)
        if calls is None:
            return super().judged(manner, files, question)
        name, why = os.fsencode(question.name[:NAME_MOST]), manner.subcommand == EXPLAIN
        try:
            given = given_of(calls, manner, files)
            return told(calls, lambda: calls.judged(given, name, question.kind, calls.JSON, why))
        except ValueError:  # the program says what is wrong of the words
            return super().judged(manner, files, question)

    def judged_each(self, manner: Manner, files: Files, left: Time, memory: Optional[Memory]) -> Asked:
        calls = calls_for(files)
        if calls is None:
            return super().judged_each(manner, files, left, memory)
        given, why = given_of(calls, manner, files), manner.subcommand == EXPLAIN
        text = octets_of(files[QUESTIONS])
        return AskedHere(text, lambda some: told(calls, lambda: calls.judged_each(given, some, calls.JSON, why)), left)


def listed_range(program: Program, capture: int, span: Moments, most: int) -> Optional[Listed]:
    """The compact list that a verifier has to answer for the moments of a range, of which so many octets are read."""
    calls = calls_of_library() if isinstance(program, InProcess) else None
    if calls is None or size_of(capture) > LISTS_LITTLE:
        return None
    given, within = calls.Given(octets_of(capture)), calls.Interval(*span)
    listing = (calls.COMPACT, calls.LINES)
    return ListedHere(lambda: told(calls, lambda: calls.listed_range(given, within, *listing)), capture, most)


def timeline(program: Program, files: Files, span: Moments, question: Question) -> Optional[Run]:
    """What is said of a question over a range, as an object of JSON."""
    calls = calls_for(files) if isinstance(program, InProcess) else None
    if calls is None:
        return None
    name = os.fsencode(question.name[:NAME_MOST])
    given = calls.Given(**{option: octets_of(number) for option, number in files.items()})
    asked = (calls.Interval(*span), name, question.kind, calls.WORDS, calls.JSON)
    try:
        return told(calls, lambda: calls.timeline(given, *asked))
    except ValueError:  # the program says what is wrong of the words
        return None


def calls_for(files: Files) -> Any:
    """The calls of the library for questions that may be asked by it, and else None."""
    if ANSWERS not in files or size_of(files["capture"]) > LISTS_LITTLE:
        return None
    return calls_of_library()


def given_of(calls: Any, manner: Manner, files: Files) -> Any:
    octets = {name: octets_of(number) for name, number in files.items() if name != QUESTIONS}
    return calls.Given(moment=manner.moment, **octets)


def told(calls: Any, call: Callable[[], Any]) -> Run:
    """What the program would write and end with."""
    try:
        answer = call()
    except calls.Refused as fault:
        return Run(REFUSED, "", f"{fault}\n")
    except calls.Fault as fault:
        return Run(FAILED, "", f"{fault}\n")
    return Run(answer.status, answer.text.decode(), "")


class ListedHere(Listed):
    """What the library lists, of which no more is read than of the program's."""

    def __init__(self, answer: Callable[[], Run], capture: int, most: int) -> None:
        super().__init__([], capture, most)
        self.answer = answer

    def lines(self) -> Generator[str, None, None]:
        done = self.answer()
        yield from self.read(io.BytesIO(done.output.encode()))
        self.errors = done.errors
        self.status = None if self.is_cut else done.status


class AskedHere(Asked):
    """The questions of a text, asked of the library some at a time while there is time."""

    def __init__(self, text: bytes, answer: Callable[[bytes], Run], left: Time) -> None:
        super().__init__([], (), left)
        self.text, self.answer = text.splitlines(keepends=True), answer

    def lines(self) -> Iterator[bytes]:
        for first in range(0, len(self.text), QUESTIONS_OF_A_CALL):
            if self.left.left <= 0:
                self.is_over = True
                return
            done = self.answer(b"".join(self.text[first : first + QUESTIONS_OF_A_CALL]))
            self.status, self.errors = max(self.status, done.status), done.errors
            yield from done.output.encode().splitlines(keepends=True)
            if done.errors:
                return
