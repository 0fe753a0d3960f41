"""The program `dnssec_check`, and the one way in which the tools ask it: where it is, the words that it's called with,
its statuses, and the JSON that it prints."""
import itertools
import json
import os
import pathlib
import shutil
import signal
from dataclasses import dataclass
from typing import Any, Dict, Iterator, List, NamedTuple, Optional

from .asked import Asked, Memory, Time
from .asking.faults import Failure
from .asking.questions import Question, spelled
from .listed import LISTS_LITTLE, MEMORY_BESIDES, Listed
from .started import Process, content_of, nameless

NAME = "dnssec_check"
PACKAGE = pathlib.Path(__file__).resolve().parent
BUILT = os.path.join("crates", NAME, "out", NAME)
# Characters of a name that the program gets. No name has more, its 255 octets at four each: by these a longer one is
# refused as by all of it, which may be more than a system takes for an argument.
NAME_MOST = 4096
QUESTIONS_MOST = 1 << 20  # that a file of questions may have
SECURE, INSECURE, PENDING, BOGUS, INDETERMINATE, REFUSED, FAILED, WRONG = 0, 3, 4, 5, 6, 7, 1, 2
ODD = 8  # of a verdict that is secure, where something odd of it is to fail
VERDICTS = (SECURE, INSECURE, PENDING, BOGUS, INDETERMINATE)
FROM_BEST = (SECURE, ODD, *VERDICTS[1:], REFUSED, FAILED)
LIST, CHECK, EXPLAIN, TIMELINE = "list", "check", "explain", "timeline"

MORE_TIME, MORE_OCTETS = "--budget-questions SECONDS gives more", "--budget-octets OCTETS gives more"
# What the program takes of memory at most for an octet of a file; what it takes for a capture is a part of the rest.
OF_FILES = 8
TODO, BEHIND = b'"todo":[', b"}]"  # where what is to be verified begins and ends in the object of an answer
OPEN = "/proc/self/fd"  # where a process finds the files that it has open

Json = Dict[str, Any]
Files = Dict[str, int]


class Run(NamedTuple):
    """The exit status, the output and errors as text, and how many seconds of a processor it took."""

    status: int
    output: str
    errors: str
    seconds: float = 0


class Told(NamedTuple):
    """What the program says of a question: its status, the verdict's word with the object of it, or `refused` or
    `fault` with the words behind it."""

    status: int
    word: str
    value: Optional[Json]
    said: str


class OtherAnswer(Exception):
    """The program answers another question than the one that was asked."""


class Unlisted(Exception):
    """LIST failed; `said` is the words behind `fault`."""

    def __init__(self, said: str) -> None:
        super().__init__(said)
        self.said = said


class Manner(NamedTuple):
    """How questions are judged: by CHECK or EXPLAIN, at a moment."""

    subcommand: str
    moment: int

    def words(self, files: Files) -> List[str]:
        return [self.subcommand, *named(files), f"--moment={self.moment}", "--json"]


@dataclass(frozen=True)
class Program:
    """The program by its path. What it reads is open here: files by the options that name them, each by its number."""

    path: str

    def run(self, words: List[str], files: Files) -> Run:
        try:
            return self.ended([self.path, *words], files)
        except OSError as fault:
            raise Failure(f"{self.path}: {fault.strerror}") from fault

    @staticmethod
    def ended(command: List[str], files: Files) -> Run:
        with nameless() as output, nameless() as errors:
            with Process(command, output.fileno(), errors.fileno(), files.values()) as process:
                status = process.wait()
            texts = content_of(output).decode(), content_of(errors).decode("utf-8", "replace")
            return Run(status, *texts, process.seconds)

    def listed(self, capture: int, moment: int, most: int) -> Listed:
        """The compact list that a verifier has to answer at the moment, of which so many octets are read."""
        words = [self.path, LIST, *named({"capture": capture}), f"--moment={moment}", "--compact"]
        return Listed(words, capture, most)

    def told(
        self,
        subcommand: str,
        files: Files,
        moment: int,
        questions: List[Question],
        left: Time,
        octets: Optional[int] = None,
    ) -> Iterator[Told]:
        """What CHECK or EXPLAIN says of each question, in their order, while there is time. One run answers all, but
        for those whose names no file of questions can have; an answer takes so many octets of memory."""
        asking = Asking(self, Manner(subcommand, moment), files, left, octets)
        together = list(map(spelled, questions))
        answers = asking.together([each for each in together if each])
        for question, each in zip(questions, together):
            yield from itertools.islice(answers, 1) if each else [asking.alone(question)]

    def judged(self, manner: Manner, files: Files, question: Question) -> Run:
        """What is said of a question, in a run of its own."""
        words = [*manner.words(files), f"--name={question.name[:NAME_MOST]}", f"--type={question.kind}"]
        return self.run(words, files)

    def judged_each(self, manner: Manner, files: Files, left: Time, memory: Optional[Memory]) -> Asked:
        """What is said of each question of a file, which is one of the files."""
        return Asked([self.path, *manner.words(files)], files.values(), left, memory)


class Asking(NamedTuple):
    """How questions are asked: the manner and the files of each run, and for how many octets of answers it has
    memory."""

    program: Program
    manner: Manner
    files: Files
    left: Time
    octets: Optional[int]

    def alone(self, question: Question) -> Told:
        if self.left.left <= 0:
            return of_late(self.left)
        done = self.program.judged(self.manner, self.files, question)
        self.left.spend(done.seconds)
        if done.status in VERDICTS and done.output:
            return told_by(json.loads(done.output))
        return told_without_verdict(done, self.manner.subcommand)

    def together(self, questions: List[Question]) -> Iterator[Told]:
        for first in range(0, len(questions), QUESTIONS_MOST):
            yield from self.of_file(questions[first : first + QUESTIONS_MOST])

    def of_file(self, questions: List[Question]) -> Iterator[Told]:
        """Where a run ends before its last answer, how it ended is told of the next question, and another run begins
        behind that; what is refused, or too late, is so for all that are left."""
        while questions:
            count = 0
            with nameless("".join(map(line_of, questions)).encode()) as file:
                run = self.run(file.fileno())
                for line in run.lines():
                    yield told_of(questions[count], json.loads(without_todo(line)))
                    count += 1
            questions = questions[count:]
            end = self.end_of(run)
            ended = questions if run.is_over or end.status == REFUSED else questions[:1]
            yield from (end for _ in ended)
            questions = questions[len(ended) :]

    def run(self, questions: int) -> Asked:
        files = {**self.files, "questions": questions}
        memory = None if self.octets is None else memory_for(files, self.octets)
        return self.program.judged_each(self.manner, files, self.left, memory)

    def end_of(self, run: Asked) -> Told:
        """What is told of a question that the run didn't answer."""
        if run.is_over:
            return of_late(self.left)
        if run.is_full and run.memory:
            said = f"its answer takes more memory than the {run.memory.most:,} octets that it may; {MORE_OCTETS}"
            return Told(FAILED, "fault", None, f"- {said}")
        return told_without_verdict(Run(run.status, "", run.errors), self.manner.subcommand)


def memory_for(files: Files, octets: int) -> Optional[Memory]:
    """What a run may take of memory whose answers take so many octets of it: what the other files take, and what all
    else does. A capture of which little can be listed needs no limit."""
    sizes = {name: os.fstat(number).st_size for name, number in files.items()}
    if sizes.pop("capture") <= LISTS_LITTLE:
        return None
    return Memory(octets + MEMORY_BESIDES + OF_FILES * sum(sizes.values()), octets)


def without_todo(line: bytes) -> bytes:
    """The object of an answer with nothing in place of each signature that is to be verified, which has digits and no
    brace: parsed they would take some times as much again, and only how many there are is told."""
    front = line.find(TODO + b"{")
    if front < 0:
        return line
    front += len(TODO)
    end = line.index(BEHIND, front) + 1
    return line[:front] + b",".join([b"null"] * line.count(b"{", front, end)) + line[end:]


def line_of(question: Question) -> str:
    """Its line in a file of questions, where a line that begins with `#` is a comment."""
    front = "\\" if question.name.startswith("#") else ""
    return f"{front}{question.name} {question.kind}\n"


def named(files: Files) -> List[str]:
    return [f"--{option}={OPEN}/{number}" for option, number in files.items()]


def told_of(question: Question, value: Json) -> Told:
    """What an object says of the question; it's the answer to this one, or none."""
    if (value["name"], value["type"]) != question:
        raise OtherAnswer(f"{value['name']} {value['type']} in place of {question.name} {question.kind}")
    if "refused" in value:
        return Told(REFUSED, "refused", None, str(value["refused"]))
    return told_by(value)


def told_by(value: Json) -> Told:
    """What an object says that has a verdict. Of what is to be verified only the count is kept, since each question
    has all of it again."""
    if "todo" in value:
        value["todo"] = [None] * len(value["todo"])
    return Told(value["status"], value["verdict"], value, "")


def of_late(left: Time) -> Told:
    """What is told of a question behind the end of the time."""
    said = f"not asked: the {left.seconds} seconds for the questions of a capture are over; {MORE_TIME}"
    return Told(FAILED, "fault", None, f"- {said}")


def told_without_verdict(done: Run, subcommand: str) -> Told:
    """What a run says that has no verdict: its line of what is refused or failed, or else how it ended."""
    first = (done.errors.splitlines() or [f"{NAME} {subcommand} {ending(done.status)}"])[0]
    word, _, rest = first.partition(" ")
    if word in ("refused", "fault") and done.status in (REFUSED, FAILED):
        return Told(done.status, word, None, rest)
    return Told(FAILED, "fault", None, f"- {first}")


def refuse_unlisted(listed: Listed) -> None:
    """Unlisted where LIST, all of which was read, failed. Where something is refused, whatever is asked then says so
    too."""
    if listed.status:
        told = told_without_verdict(Run(listed.status, "", listed.errors), LIST)
        if told.word != "refused":
            raise Unlisted(told.said)


def ending(status: int) -> str:
    """How a process ended, by its status, which is below 0 where a signal ended it."""
    if status >= 0:
        return f"ended with status {status}"
    try:
        return f"was ended by {signal.Signals(-status).name}"
    except ValueError:  # a signal without a name
        return f"was ended by signal {-status}"


def program_of(given: Optional[str], tool: str) -> Program:
    """The one that is named, else on the path, beside the tool, beside the package as installed, or as built."""
    if given is not None:
        path = shutil.which(given)
        if path is None:
            raise Failure(f"{given}: there is no such program")
        return Program(os.path.abspath(path))
    above = os.path.join(PACKAGE, "..")
    beside = (
        os.path.join(os.path.dirname(os.path.realpath(tool)), NAME),
        os.path.join(above, "..", "..", "bin", NAME),
        os.path.join(above, "..", BUILT),
    )
    path = shutil.which(NAME) or next((path for path in beside if os.access(path, os.X_OK)), None)
    if path is None:
        raise Failure(f"{NAME} isn't on the path, and not where the tool was installed; name it by --program")
    return Program(os.path.abspath(path))
