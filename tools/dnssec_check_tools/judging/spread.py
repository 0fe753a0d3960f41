"""A capture as it's handed to whoever judges it, and what comes back, whatever becomes of it."""
from typing import Callable, Generator, NamedTuple, Optional, Tuple, TypeVar, Union

from ..asking.captures import Unmade, octets_of
from ..asking.faults import Failure
from ..asking.questions import Questions
from ..program import REFUSED, Program
from ..timelines.judged import judged as timelines

from .skew import folded, widened
from .work import Common, Judged, judged, without_verdicts

MEMORY_OUT, OPEN_FAILED, READ_FAILED = 90, 811, 210

Result = Tuple[int, Judged]  # by the number of the capture
Results = Generator[Result, None, None]
Answer = Union[Judged, Failure]
Found = TypeVar("Found")


class Task(NamedTuple):
    """A capture by its place among all, with its octets, or the fault of reading it, and its questions. Without octets
    it's read by its path where it's judged."""

    number: int
    path: str
    octets: Optional[bytes]
    fault: Optional[Exception]
    questions: Questions


def of_unread(task: Task, fault: Exception, common: Common) -> Judged:
    """The verdicts of a capture that can't be read, or that can't be made of a file of another kind."""
    if isinstance(fault, Unmade):
        return of_unmade(task, fault, common)
    if not isinstance(fault, OSError):
        return of_met(task.questions, fault, common)
    number = READ_FAILED if is_of_read(fault) else OPEN_FAILED
    return without_verdicts(task.questions, common, {"number": number, "file": "capture"})


def of_met(questions: Questions, fault: Exception, common: Common) -> Judged:
    """The rows of a capture by which this tool fails, which is no other capture's fault."""
    if isinstance(fault, MemoryError):
        return without_verdicts(questions, common, {"number": MEMORY_OUT})
    return without_verdicts(questions, common, {"said": f"{type(fault).__name__}: {fault}"})


def of_unmade(task: Task, fault: Unmade, common: Common) -> Judged:
    """The rows of a file of another kind of which no capture can be made."""
    failed = without_verdicts(task.questions, common, {"said": str(fault)})
    return Judged([row._replace(status=REFUSED, word="refused") for row in failed.rows], [])


def is_of_read(fault: OSError) -> bool:
    """Whether it's one of a read: that of an open has the file's name, but for a folder's, which the program can
    open."""
    return isinstance(fault, IsADirectoryError) or (fault.errno is not None and fault.filename is None)


def judged_task(task: Task, common: Common, program: Program) -> Judged:
    """The verdicts of a capture, which is read where it wasn't."""
    try:
        octets = read_now(task)
    except (OSError, Unmade) as fault:
        return of_unread(task, fault, common)
    if common.span:
        return timelines(octets, task.questions, common, program)
    return folded(judged(octets, task.questions, widened(common), program), common)


def read_now(task: Task) -> bytes:
    return octets_of(task.path) if task.octets is None else task.octets


def answer(common: Common, program: Program, task: Task) -> Answer:
    """The verdicts, or what ends all."""
    return guarded(lambda: judged_task(task, common, program), task.questions, common)


def guarded(judge: Callable[[], Found], questions: Questions, common: Common) -> Union[Found, Answer]:
    """What comes of it. A fault that a capture leads to, of whatever kind, is no other capture's."""
    try:
        return judge()
    except Failure as fault:
        return fault
    except Exception as fault:  # pylint: disable=broad-exception-caught
        return of_met(questions, fault, common)


def answer_of(found: Union[Found, Failure]) -> Found:
    if isinstance(found, Failure):
        raise found
    return found


def of_lost(questions: Questions, common: Common, how: str) -> Judged:
    """The verdicts of a capture, or a share of it, by which two processes were lost."""
    said = f"the process that judged it {how}, the second that was lost by it"
    return without_verdicts(questions, common, {"said": said})
