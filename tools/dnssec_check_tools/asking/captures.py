"""The captures and questions that the words of a command line name."""
import functools
import itertools
import os
import stat
import sys
from typing import BinaryIO, Iterable, Iterator, List, NamedTuple, Optional, Tuple

from ..capturing.answers import Answers
from ..capturing.entries import Entry, Found, Note, PassedOver
from ..capturing.entries import Refusal as Unmakable
from ..capturing.frames import FRAME_SIZE_MOST, MESSAGES_MOST, framed, frames_of
from ..capturing.sources import entries_in, other_kind_of
from ..command import shown, tell

from .faults import Refusal, WrongLine, escaped
from .questions import Question, Questions, question_of_word, questions_of_file, questions_of_split, wrong_word

# Octets of a file that are read: all of a capture, and one message more, by which the program refuses it.
SIZE_MOST = (MESSAGES_MOST + 1) * FRAME_SIZE_MOST
# Octets of a file of another kind, of which a capture is made: packets, text or JSON. Each of them may take thirty of
# memory, so of what is packed no more are unpacked. In hex all of a capture has so many.
OTHER_MOST, PORTS = 2 * SIZE_MOST, {53}
# What a read may wait for, or never end with; who means one names it.
UNREAD_KINDS = {stat.S_IFIFO: "a FIFO", stat.S_IFSOCK: "a socket", stat.S_IFCHR: "a device", stat.S_IFBLK: "a device"}


class Unmade(Refusal):
    """A file of another kind of which no capture can be made."""


class Capture(NamedTuple):
    """A capture with the questions that are its own, where its folder lists some."""

    path: str
    own: List[Question]


def told_apart(words: List[str]) -> Tuple[List[str], List[Question]]:
    """The paths of captures, and the questions, in their order."""
    paths, questions = [], []
    for word in words:
        question = question_of_word(word)
        if question is not None:
            questions.append(question)
        elif word == "-" or os.path.lexists(word):
            paths.append(word)
        else:
            raise wrong_word(word)
    return paths, questions


def is_capture(name: str) -> bool:
    return name == "capture" or name.endswith(".cap")


def raised(fault: OSError) -> None:
    """A folder that can't be read isn't passed over: nobody would know that its captures weren't judged."""
    raise fault


def unread_kind(path: str) -> Optional[str]:
    """What isn't read of a folder, None for a file; what can't be looked at is told where it's read."""
    try:
        return UNREAD_KINDS.get(stat.S_IFMT(os.stat(path).st_mode))
    except OSError:
        return None


@functools.lru_cache(None)
def is_passed_over(path: str) -> bool:
    """Whether it's no file, which is told once, however often the folder is gone through."""
    kind = unread_kind(path)
    if kind:
        tell(f"passed over {escaped(path)}: {kind}")
    return kind is not None


def captures_of_folder(folder: str, are_own_asked: bool) -> List[Capture]:
    """Its captures and those of the folders in it, by name; what they may be asked is listed beside them."""
    found = []
    for place, folders, names in os.walk(folder, onerror=raised):
        folders.sort()
        captures = [name for name in sorted(names) if is_capture(name)]
        chosen = [name for name in captures if not is_passed_over(os.path.join(place, name))]
        own = questions_of_split(place) if chosen and are_own_asked else {}
        found += [Capture(os.path.join(place, name), own.get(name, [])) for name in chosen]
    if not found:
        raise Refusal(f"{escaped(folder)}: no capture is in this folder; captures are called `capture` or `..cap`")
    return found


def captures_of(paths: List[str], are_own_asked: bool = False) -> List[Capture]:
    """The captures; the list of questions beside them is another's file where it isn't asked for, and isn't read."""
    captures = []
    for path in paths:
        captures += captures_of_folder(path, are_own_asked) if os.path.isdir(path) else [Capture(path, [])]
    return captures


def without_questions(words: List[str], question_files: List[str], option: str) -> List[Tuple[str, Questions]]:
    """The captures, for an option that asks what they have, and so goes without questions."""
    paths, questions = told_apart(words)
    if questions or question_files:
        raise WrongLine(f"{option} asks what captures have, and goes without questions")
    if not paths:
        raise WrongLine("no capture is named")
    return [(capture.path, None) for capture in captures_of(paths)]


def all_of(words: List[str], question_files: List[str]) -> List[Tuple[str, Questions]]:
    """The captures, each with its questions."""
    paths, questions = told_apart(words)
    for path in question_files:
        questions += questions_of_file(path)
    if not paths:
        raise WrongLine("no capture is named")
    if question_files and not questions:
        raise Refusal(f"no question is in {', '.join(map(shown, question_files))}")
    is_asked = bool(questions)
    captures = captures_of(paths, not is_asked)
    if is_asked:
        return [(capture.path, questions) for capture in captures]
    asked: List[Tuple[str, Questions]] = [(capture.path, capture.own) for capture in captures if capture.own]
    alone = [path for path in paths if not os.path.isdir(path)]  # a list of questions is a folder's
    if alone or not asked:
        raise WrongLine(
            f"no question is asked of {escaped((alone or paths)[0])}; write NAME/TYPE, as www.example.com/AAAA, or "
            "name a file by --questions"
        )
    return asked


def octets_of(path: str) -> bytes:
    """What the file has; of more than a capture may have, its messages up to the one that is too many."""
    octets, is_other = taken(path)
    messages = frames_of(octets)[0] if len(octets) == SIZE_MOST and not is_other else []
    return framed(messages[: MESSAGES_MOST + 1]) if len(messages) > MESSAGES_MOST else octets


def taken(path: str) -> Tuple[bytes, bool]:
    """As much of a capture as is read of any, or the capture that is made of a file of another kind; which of these."""
    if path != "-":
        with open(path, "rb") as file:
            return taken_of(file, path)
    if sys.stdin is None:
        raise OSError("the standard input is closed")
    return taken_of(sys.stdin.buffer, path)


def taken_of(file: BinaryIO, path: str) -> Tuple[bytes, bool]:
    octets = read_most(file)
    kind = other_kind_of(octets)
    if kind is None:
        return octets, False
    octets += file.read(OTHER_MOST + 1 - len(octets)) if len(octets) == SIZE_MOST else b""
    if len(octets) > OTHER_MOST:
        raise Unmade(f"it is no capture, and has more than {OTHER_MOST:,} octets; dnssec_check-capture makes one of it")
    return capture_of(octets, kind, path), True


def capture_of(octets: bytes, kind: str, path: str) -> bytes:
    """The capture that is made of packets, text or JSON, as dnssec_check-capture makes it."""
    answers = Answers(True, lambda _: None)
    notes: List[Note] = []
    try:
        found = entries_in(octets, kind, shown(path), PORTS, OTHER_MOST)
        answers.take_all(without_notes(found, notes), itertools.repeat(b""))
    except Unmakable as fault:
        raise Unmade(str(fault)) from fault
    if not answers.kept:
        raise Unmade("no answer is in it; dnssec_check-capture says what else is")
    for note in notes:
        tell(f"{escaped(path)}: {note.text}")
    return framed(octets for octets, _ in answers.kept)


def without_notes(found: Iterable[Found], notes: List[Note]) -> Iterator[Entry]:
    """The messages, and what is dropped of them, one after another; notes are put into the list."""
    for each in found:
        if isinstance(each, Note):
            notes.append(each)
        elif not isinstance(each, PassedOver):
            yield each


def shown_of(path: str) -> bytes:
    """The octets of a capture whose records are shown; where there are more than one may have, that's told."""
    octets, is_other = taken(path)
    if len(octets) == SIZE_MOST and not is_other:
        tell(f"{escaped(path)}: more than a capture may have; of what is behind {SIZE_MOST:,} octets nothing is shown")
    return octets


def read_most(file: BinaryIO) -> bytes:
    return file.read(SIZE_MOST)
