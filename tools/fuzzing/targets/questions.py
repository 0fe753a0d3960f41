"""Files of questions, one a line."""

from __future__ import annotations

from dnssec_check_tools.asking.faults import Refusal
from dnssec_check_tools.asking.questions import Question, name_of, question_of_line, questions_of_file, spelled

from ..target import EXAMPLES, Desk, Ended, Said, Target, given, must, refused

MOST = 65535
OF_NAMES = range(101, 106)  # by which the program refuses a name


def run(octets: bytes, desk: Desk) -> Ended:
    """Each question can be a program's argument, and written as a line it's read as the same."""
    with given(octets):
        try:
            questions = questions_of_file("-")
        except Refusal as refusal:
            return refused(refusal)
    for question in questions:
        must(0 <= question.kind <= MOST, f"the type: {question.kind}")
        must(name_of(question.name) == question.name and "\0" not in question.name, f"the name: {question.name!r}")
        question.name.encode()
        must(
            question_of_line(f"{question.name} {question.kind}") == question,
            f"written as a line it is read as another: {question}",
        )
        check_spelled(question)
    if questions and desk.is_turn():
        said = ask(questions[0].name[:4096], questions[0].kind, desk)
        must(
            (said.number in OF_NAMES) == (spelled(questions[0]) is None),
            f"a name that the program takes otherwise: {said}",
        )
    return Ended(bool(questions), f"{len(questions)} {sorted({each.kind for each in questions})[:3]}")


def check_spelled(question: Question) -> None:
    """Written as the program does, a name stays as it is."""
    found = spelled(question)
    must(found is None or spelled(found) == found, f"spelled again it is another: {found}")


def ask(name: str, kind: int, desk: Desk) -> Said:
    files = {
        "capture": (EXAMPLES / "bind-www-a" / "capture").read_bytes(),
        "anchors": (EXAMPLES / "anchors").read_bytes(),
    }
    return desk.ask("check", files, ["--moment", "1795348800", f"--name={name}", f"--type={kind}"])


WORDS = (
    b"A",
    b"AAAA",
    b"NSAP-PTR",
    b"nsap_ptr",
    b"TYPE65535",
    b"TYPE65536",
    b"65535",
    b"65536",
    b"NONE",
    b"ANY",
    b"28",
    b" #",
)
TARGET = Target("questions", run, list, WORDS)
