"""How the program is asked for the timelines of a capture: what has to be verified for all moments is listed once."""
import json
from typing import List, Optional

from ..asked import Asked, Time
from ..asking.questions import Question, spelled
from ..listed import Listed
from ..program import (
    FAILED,
    LIST,
    MORE_OCTETS,
    NAME_MOST,
    TIMELINE,
    Files,
    OtherAnswer,
    Program,
    Run,
    Told,
    memory_for,
    named,
    of_late,
    told_without_verdict,
)
from .spans import Range

OF_ALL = 0  # the status of a timeline, whatever its verdicts


def listed_for(program: Program, capture: int, span: Range, most: int) -> Listed:
    """The compact list that a verifier has to answer for a range, of which so many octets are read."""
    words = [program.path, LIST, *named({"capture": capture}), *span.words(), "--compact"]
    return Listed(words, capture, most)


class Asking:
    """The timelines of a capture, by the files of each run, in the time that is left."""

    def __init__(self, program: Program, files: Files, span: Range, left: Time, octets: int) -> None:
        self.program, self.files, self.span, self.left, self.octets = program, files, span, left, octets

    def told(self, question: Question) -> Told:
        """The object of a question, or what is said in its place."""
        asked = [f"--name={question.name[:NAME_MOST]}", f"--type={question.kind}", "--json"]
        words = [self.program.path, TIMELINE, *named(self.files), *self.span.words(), *asked]
        run = Asked(words, self.files.values(), self.left, memory_for(self.files, self.octets))
        lines = list(run.lines())
        return self.without_object(run) or of_object(question, lines)

    def without_object(self, run: Asked) -> Optional[Told]:
        """What is told where a run didn't come to its end; None where it did."""
        if run.is_over:
            return of_late(self.left)
        if run.is_full and run.memory:
            said = f"its timeline takes more memory than the {run.memory.most:,} octets that it may; {MORE_OCTETS}"
            return Told(FAILED, "fault", None, f"- {said}")
        return None if run.status == OF_ALL else told_without_verdict(Run(run.status, "", run.errors), TIMELINE)


def of_object(question: Question, lines: List[bytes]) -> Told:
    """The object of the one line that is the timeline of the question, or of what is no answer to it."""
    if len(lines) != 1:
        raise OtherAnswer(f"{len(lines)} lines in place of a timeline of {question.name} {question.kind}")
    value = json.loads(lines[0])
    if (value["name"], value["type"]) != spelled(question):
        raise OtherAnswer(f"{value['name']} {value['type']} in place of {question.name} {question.kind}")
    return Told(OF_ALL, TIMELINE, value, "")
