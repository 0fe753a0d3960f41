"""What the program says of many questions, line by line as it comes, within a time of a processor."""
import contextlib
import math
import resource
import signal
import time
from typing import BinaryIO, Callable, Iterable, Iterator, List, NamedTuple, Optional

from .asking.faults import Failure
from .listed import NO_MEMORY, peak_of
from .started import Process, content_of, nameless, pipe

# Between what the system counts for a process and what it limits it by there may be some ticks of its clock.
TICKS = 0.1


class Time:
    """Processor time that is left to the thread that made it, and to the programs that it runs."""

    def __init__(self, seconds: int, clock: Callable[[], float] = time.thread_time) -> None:
        self.seconds, self.clock, self.end = seconds, clock, clock() + seconds

    @property
    def left(self) -> float:
        return self.end - self.clock()

    def spend(self, seconds: float) -> None:
        """What a program has had."""
        self.end -= seconds


class Memory(NamedTuple):
    """The octets of memory that a run may take, and those of them that are for its answers."""

    most: int
    answers: int


class Asked:
    """A run of the program, which is ended where the time is over."""

    def __init__(self, command: List[str], kept: Iterable[int], left: Time, memory: Optional[Memory] = None) -> None:
        """Files that are open are kept so under their numbers."""
        self.command, self.kept, self.left, self.memory = command, kept, left, memory
        self.status, self.errors = 0, ""
        self.is_over = left.left <= 0
        self.is_full = False  # its answers took more memory than they may

    def lines(self) -> Iterator[bytes]:
        """The whole lines, to be asked for once."""
        if self.is_over:
            return
        with nameless() as errors, pipe() as (output, back):
            with self.started(back, errors) as process:
                back.close()
                limit = limited(process, self.left.left)
                if self.memory:
                    lower(process, resource.RLIMIT_AS, self.memory.most)
                try:
                    yield from self.read(output)
                    peak = 0 if self.is_over else peak_of(process)
                    self.status = process.status or 0
                finally:
                    process.end()
                    self.left.spend(process.seconds)
            self.is_over = self.is_over or (self.status == -signal.SIGKILL and process.seconds > limit - TICKS)
            self.errors = content_of(errors).decode("utf-8", "replace")
            is_much = self.memory is not None and peak > self.memory.answers
            self.is_full = is_much and self.errors.startswith(NO_MEMORY)

    def started(self, output: BinaryIO, errors: BinaryIO) -> Process:
        try:
            return Process(self.command, output.fileno(), errors.fileno(), self.kept)
        except OSError as fault:
            raise Failure(f"{self.command[0]}: {fault.strerror}") from fault

    def read(self, output: BinaryIO) -> Iterator[bytes]:
        while (line := output.readline()).endswith(b"\n"):
            yield line
            if self.left.left <= 0:
                self.is_over = True
                return


def limited(process: Process, seconds: float) -> int:
    """Has the system end the process behind the time, and answers how much that is: in whole seconds, one at least."""
    limit = max(1, math.ceil(seconds))
    lower(process, resource.RLIMIT_CPU, limit)
    return limit


def lower(process: Process, kind: int, limit: int) -> None:
    """Sets a limit of the process. One that is there already and is lower stays, since nobody may raise one."""
    with contextlib.suppress(ProcessLookupError):  # it has ended
        _, most = resource.prlimit(process.pid, kind)
        if most == resource.RLIM_INFINITY or most > limit:
            resource.prlimit(process.pid, kind, (limit, limit))
