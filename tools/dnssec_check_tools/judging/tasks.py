"""The tasks that captures are, read as late as can be."""
import os
from typing import Container, Iterable, Iterator, List, Optional, Tuple

from ..asking.captures import octets_of
from ..asking.faults import Failure
from ..asking.questions import Questions

from .page import Page
from .report import Report
from .spread import Task, of_unread
from .work import Common

Asked = List[Tuple[str, Questions]]  # captures with their questions


def tasks_of(asked: Asked, page: Optional[Page], is_read_here: bool, kept: Container[int] = ()) -> Iterator[Task]:
    """A task for each capture but for those whose rows are there, read when it's its turn: by whoever judges it, or
    here, as is what is no file."""
    for number, (path, questions) in enumerate(asked):
        if number in kept:
            continue
        task = Task(number, path, None, None, questions)
        if not (page or is_read_here) and path != "-" and os.path.isfile(path):
            yield task
            continue
        try:
            task = task._replace(octets=octets_of(path))
        except Failure:
            raise
        except Exception as fault:  # pylint: disable=broad-exception-caught
            yield task._replace(fault=fault)
            continue
        if page:
            page.read(number, path, task.octets or b"")
        yield task


def readable(tasks: Iterable[Task], report: Report, common: Common) -> Iterator[Task]:
    """The tasks that can be judged; of the others the fault is reported."""
    for task in tasks:
        if task.fault is None:
            yield task
        else:
            report.take(task.number, of_unread(task, task.fault, common))
