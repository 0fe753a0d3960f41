"""The library's calls by ctypes, which lets go of the interpreter's lock while one runs.

The library is that which the environment's DNSSEC_CHECK_LIBRARY names, and none where that is empty; else the system's
`libdnssec_check.so.1`, unless there is one in the folder `lib` in which this module was put.
"""
import ctypes
import operator
import os
import pathlib
from typing import Any, Callable, Dict, List, NamedTuple, Optional, SupportsIndex, Tuple

from .faults import Fault, Misused, OutOfMemory, Refused, Unavailable
from .types import type_number
from .verdict import Interval

NAME, PATH = "libdnssec_check.so.1", "DNSSEC_CHECK_LIBRARY"
FAILED, MISUSED, REFUSED, NULL, ROOM = 1, 2, 7, 9, 10
NO_MEMORY = 90
LINES, JSON = 0, 1
OPEN, COMPACT, ALL = 0, 1, 2
WORDS, KINDS = 0, 1
NOTHING, STATEMENTS, ANSWERS = 0, 1, 2
ROOM_FIRST = 1 << 16
VERIFIED = 3
INPUTS = ("", "capture", "anchors", "statements", "keys", "macs", "questions")


class Octets(ctypes.Structure):
    _fields_ = [("data", ctypes.c_char_p), ("length", ctypes.c_size_t)]


class CaseOctets(ctypes.Structure):
    _fields_ = [
        ("capture", Octets),
        ("anchors", Octets),
        ("verified", Octets),
        ("verified_form", ctypes.c_uint32),
        ("moment", ctypes.c_uint64),
        ("keys", ctypes.POINTER(Octets)),
        ("macs", ctypes.POINTER(Octets)),
    ]


class Outcome(ctypes.Structure):
    _fields_ = [
        ("length", ctypes.c_size_t),
        ("message", ctypes.c_size_t),
        ("record", ctypes.c_size_t),
        ("line", ctypes.c_size_t),
        ("number", ctypes.c_uint32),
        ("input", ctypes.c_uint32),
    ]


class Answer(NamedTuple):
    """The program's exit status, and the text."""

    status: int
    text: bytes


class Given(NamedTuple):
    """What is given to a call, as the files that the program reads: statements or answers, or neither."""

    capture: bytes
    anchors: bytes = b""
    moment: int = 0
    statements: Optional[bytes] = None
    keys: Optional[bytes] = None
    macs: Optional[bytes] = None
    answers: Optional[bytes] = None


_PLACE: List[Any] = [ctypes.c_void_p, ctypes.c_size_t, ctypes.POINTER(Outcome)]
_CASE, _OCTETS, _NUMBER = ctypes.POINTER(CaseOctets), ctypes.POINTER(Octets), ctypes.c_uint32
_RANGE: List[Any] = [ctypes.c_uint64, ctypes.c_uint64]
# What each call takes, as the header has it.
TAKEN: Dict[str, List[Any]] = {
    "version": [],
    "show": [_OCTETS, *_PLACE],
    "list": [_CASE, _NUMBER, _NUMBER, *_PLACE],
    "list_range": [_CASE, *_RANGE, _NUMBER, _NUMBER, *_PLACE],
    "timeline": [_CASE, *_RANGE, ctypes.c_char_p, _NUMBER, _NUMBER, _NUMBER, *_PLACE],
    "check": [_CASE, ctypes.c_char_p, _NUMBER, _NUMBER, *_PLACE],
    "explain": [_CASE, ctypes.c_char_p, _NUMBER, _NUMBER, *_PLACE],
    "check_each": [_CASE, _OCTETS, _NUMBER, *_PLACE],
    "explain_each": [_CASE, _OCTETS, _NUMBER, *_PLACE],
}


def library() -> ctypes.CDLL:
    path = os.environ.get(PATH, NAME)
    if not path:
        raise Unavailable(f"{PATH} is empty")
    here = pathlib.Path(__file__).resolve().parent  # as lib/python3.N/site-packages/dnssec_check
    beside = (here / "../../..").resolve() / NAME
    try:
        found = ctypes.CDLL(path if path != NAME or not beside.exists() else str(beside))
        for name, types in TAKEN.items():
            getattr(found, f"dnssec_check_{name}").argtypes = types
    except (OSError, AttributeError) as fault:  # the latter where it lacks a call, as an older one does
        raise Unavailable(str(fault)) from fault
    found.dnssec_check_version.restype = ctypes.c_char_p
    return found


LIBRARY = library()


def octets_of(octets: bytes) -> Octets:
    return Octets(octets, len(octets))


def maybe(octets: Optional[bytes]) -> "Optional[ctypes._Pointer[Octets]]":
    return None if octets is None else ctypes.pointer(octets_of(octets))


def case_of(given: Given) -> CaseOctets:
    form, verified = verified_of(given)
    return CaseOctets(
        octets_of(given.capture),
        octets_of(given.anchors),
        octets_of(verified),
        form,
        moment_of(given.moment),
        maybe(given.keys),
        maybe(given.macs),
    )


def moment_of(seconds: SupportsIndex) -> int:
    """The moment, which is a whole number: a TypeError says that it's none.

    >>> moment_of(1795348800)
    1795348800
    """
    moment = operator.index(seconds)
    if not 0 <= moment < 1 << 48:
        raise Misused("a moment is a number of seconds from 0 to 2^48 - 1")
    return moment


def range_of(span: Interval) -> Tuple[int, int]:
    return moment_of(span.first), moment_of(span.last)


def verified_of(given: Given) -> Tuple[int, bytes]:
    """What says which signatures were verified, and in which form."""
    if given.answers is not None:
        if given.statements is not None:
            raise Misused("statements and answers don't go together")
        return ANSWERS, given.answers
    return (NOTHING, b"") if given.statements is None else (STATEMENTS, given.statements)


def version() -> str:
    """The version of the library.

    >>> version().count(".")
    2
    """
    return str(LIBRARY.dnssec_check_version().decode("ascii"))


def show(capture: bytes) -> Answer:
    return answer(lambda *place: LIBRARY.dnssec_check_show(ctypes.byref(octets_of(capture)), *place))


def listed(given: Given, listing: int, form: int) -> Answer:
    case = case_of(given)
    return answer(lambda *place: LIBRARY.dnssec_check_list(ctypes.byref(case), listing, form, *place), given)


def listed_range(given: Given, span: Interval, listing: int, form: int) -> Answer:
    case, moments = case_of(given), range_of(span)
    call = LIBRARY.dnssec_check_list_range
    return answer(lambda *place: call(ctypes.byref(case), *moments, listing, form, *place), given)


def timeline(given: Given, span: Interval, name: bytes, kind: int, detail: int, form: int) -> Answer:
    if given.keys is not None:
        raise Misused("a timeline takes no keys: a message that is signed by one opens within minutes only")
    case, moments, asked = case_of(given), range_of(span), question_of(name, kind)
    call = LIBRARY.dnssec_check_timeline
    return answer(lambda *place: call(ctypes.byref(case), *moments, *asked, detail, form, *place), given)


def question_of(name: bytes, kind: int) -> Tuple[bytes, int]:
    if b"\0" in name:
        raise Misused("a name has an octet 0, which is written `\\000`")
    return name, type_number(kind)


def judged(given: Given, name: bytes, kind: int, form: int, why: bool) -> Answer:
    call = LIBRARY.dnssec_check_explain if why else LIBRARY.dnssec_check_check
    case, asked = case_of(given), question_of(name, kind)
    return answer(lambda *place: call(ctypes.byref(case), *asked, form, *place), given)


def judged_each(given: Given, questions: bytes, form: int, why: bool) -> Answer:
    call = LIBRARY.dnssec_check_explain_each if why else LIBRARY.dnssec_check_check_each
    case, each = case_of(given), octets_of(questions)
    return answer(lambda *place: call(ctypes.byref(case), ctypes.byref(each), form, *place), given)


def answer(call: Callable[..., int], given: Given = Given(b"")) -> Answer:
    """What the call answers, with some room and else with enough; raises the fault that it tells."""
    room = ROOM_FIRST
    while True:
        buffer, outcome = ctypes.create_string_buffer(room), Outcome()
        status = call(buffer, room, ctypes.byref(outcome))
        if status != ROOM:
            break
        room = outcome.length
    if outcome.number:
        raise fault_of(status, outcome, given)
    if status in (MISUSED, NULL):
        raise Misused("an argument names nothing, as a name that isn't UTF-8")
    return Answer(status, ctypes.string_at(buffer, outcome.length))


def fault_of(status: int, outcome: Outcome, given: Given) -> Fault:
    if outcome.number == NO_MEMORY:
        return OutOfMemory(outcome.number)
    place = (outcome.message or None, outcome.record or None, outcome.line or None)
    kind = Refused if status == REFUSED else Fault
    is_by_number = outcome.input == VERIFIED and given.answers is not None
    return kind(outcome.number, *place, given="answers" if is_by_number else INPUTS[outcome.input])
