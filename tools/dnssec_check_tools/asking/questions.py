"""Questions as people write them, and the files of them."""
import os
import re
from typing import Dict, List, NamedTuple, Optional, Tuple

from ..capturing.messages import name_text
from ..command import read, shown

from .faults import Refusal, WrongLine
from .kinds import type_of
from .names import labels_of

LIST = "questions"  # the file beside the captures of `capture --split` that lists what each may be asked
LINE = re.compile(r"(.*)(?:/|[ \t])[ \t]*(\S+)", re.DOTALL)


class Question(NamedTuple):
    name: str
    kind: int


Questions = Optional[List[Question]]  # None, all that a capture has


def spelled(question: Question) -> Optional[Question]:
    """The question with its name as the program writes it, None where the program refuses the name."""
    labels = labels_of(question.name)
    return None if labels is None else Question(name_text(labels), question.kind)


def name_of(text: str) -> str:
    """The name with a dot at its end, but for one that ends within an escape, which the program refuses; octets that no
    argument or no text can have are written `\\DDD`."""
    name = "".join(
        f"\\{ord(each) & 0xFF:03}" if each == "\0" or "\udc80" <= each <= "\udcff" else each for each in text
    )
    return name if is_escaping(name) or (name.endswith(".") and not is_escaping(name[:-1])) else name + "."


def is_escaping(front: str) -> bool:
    """Whether what comes next is an octet of a label, since a backslash is before it that is none itself."""
    return (len(front) - len(front.rstrip("\\"))) % 2 == 1


def question_of_word(word: str) -> Optional[Question]:
    """The question that a word of the command line is, None where it's no question."""
    name, slash, kind = word.rpartition("/")
    if not slash or not name or word.startswith("/") or os.path.lexists(word):
        return None
    number = type_of(kind)
    return None if number is None else Question(name_of(name), number)


def question_of_line(line: str) -> Optional[Question]:
    """The question of a line `NAME/TYPE` or `NAME TYPE`, None where it's none."""
    match = LINE.fullmatch(line)
    number = type_of(match[2]) if match else None
    if match is None or number is None or not match[1].strip():
        return None
    return Question(name_of(match[1].rstrip(" \t")), number)


def lines_of(path: str) -> List[Tuple[int, str]]:
    """Each line that isn't empty or a comment, with its number."""
    lines = read(path).decode("utf-8", "surrogateescape").split("\n")
    stripped = ((number, line.strip(" \t\r")) for number, line in enumerate(lines, 1))
    return [(number, line) for number, line in stripped if line and not line.startswith("#")]


def questions_of_file(path: str) -> List[Question]:
    questions = []
    for number, line in lines_of(path):
        question = question_of_line(re.sub(r"[ \t]#.*", "", line).rstrip(" \t"))
        if question is None:
            raise Refusal(f"line {number} of {shown(path)} is no question: write NAME/TYPE or NAME TYPE")
        questions.append(question)
    return questions


def questions_of_split(folder: str) -> Dict[str, List[Question]]:
    """By the name of a capture its own questions, as `capture --split` lists them; none where there is no list."""
    path = os.path.join(folder, LIST)
    questions: Dict[str, List[Question]] = {}
    if not os.path.isfile(path):
        return questions
    for number, line in lines_of(path):
        name, _, rest = line.partition(" ")
        question = question_of_line(rest)
        if question is None:
            raise Refusal(f"line {number} of {shown(path)} isn't one of `capture --split`: CAPTURE NAME TYPE")
        questions.setdefault(name + ".cap", []).append(question)
    return questions


def wrong_word(word: str) -> WrongLine:
    """Why a word is neither a question nor a capture."""
    name, slash, kind = word.rpartition("/")
    if word.startswith("/"):
        return WrongLine(f"{shown(word)}: there is no such file")
    if slash and name:
        return WrongLine(f"{shown(word)}: there is no such file, and it's no question, since {kind!r} is no type")
    return WrongLine(f"{shown(word)}: there is no such file; a question is written NAME/TYPE, as www.example.com/AAAA")
