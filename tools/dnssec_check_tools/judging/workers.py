"""Processes of which each does one thing at a time, so that it's known what a process did that ended; and how all of
them end."""
import contextlib
import os
import signal
import sys
import time
from multiprocessing import connection, get_context
from typing import Any, Callable, Dict, Iterator, List, NamedTuple, Tuple

from ..command import BY_SIGNAL, ENDING
from ..program import ending

SECONDS_TO_END = 1.0  # behind which a process that was asked to end is killed
FORK = get_context("fork")  # a process that is begun otherwise may be another's child, and needs what it does by name


class Lost(NamedTuple):
    """A process ended while it did something."""

    how: str


@contextlib.contextmanager
def undisturbed() -> Iterator[None]:
    """Signals that end the tool wait: between the start of a process and the note of it they would leave it behind."""
    old = signal.pthread_sigmask(signal.SIG_BLOCK, ENDING)
    try:
        yield
    finally:
        signal.pthread_sigmask(signal.SIG_SETMASK, old)


def work(end: Any, others: List[Any], do: Callable[[Any], Any]) -> None:
    """Does what comes, until the other end is closed; a copy of that, or of another's, would keep it open."""
    for each in others:
        each.close()
    for number in ENDING:
        signal.signal(number, signal.SIG_IGN)
    signal.signal(signal.SIGTERM, lambda number, _: sys.exit(BY_SIGNAL + number))
    signal.pthread_sigmask(signal.SIG_UNBLOCK, ENDING)
    with contextlib.suppress(EOFError, OSError):
        while True:
            end.send(do(end.recv()))


class Worker:
    """A process. With the programs that it runs it's a process group, so that none of them is left behind."""

    def __init__(self, others: List["Worker"], do: Callable[[Any], Any]) -> None:
        self.connection, end = FORK.Pipe()
        inherited = [self.connection, *(each.connection for each in others)]
        self.process = FORK.Process(target=work, args=(end, inherited, do))
        self.process.start()
        end.close()
        with contextlib.suppress(ProcessLookupError):
            os.setpgid(self.process.pid or 0, 0)

    def kill(self) -> str:
        """Kills what is left of the group, and tells how the process ended."""
        with contextlib.suppress(ProcessLookupError):
            os.killpg(self.process.pid or 0, signal.SIGKILL)
        self.process.join()
        self.connection.close()
        return ending(self.process.exitcode or 0)


class Workers:
    """The processes, which end with the block."""

    def __init__(self, do: Callable[[Any], Any]) -> None:
        self.do = do
        self.all: List[Worker] = []
        self.idle: List[Worker] = []
        self.busy: Dict[Any, Tuple[Worker, Any]] = {}  # by connection, with what it was given

    def __enter__(self) -> "Workers":
        return self

    def give(self, thing: Any) -> None:
        """Has one that is idle, or a new one, do it."""
        worker = self.idle.pop() if self.idle else self.new()
        try:
            worker.connection.send(thing)
        except OSError:  # it ended meanwhile, and it wasn't by this
            self.drop(worker)
            self.give(thing)
            return
        self.busy[worker.connection] = worker, thing

    def new(self) -> Worker:
        with undisturbed():
            self.all.append(Worker(self.all, self.do))
        return self.all[-1]

    def drop(self, worker: Worker) -> str:
        with undisturbed():
            self.all.remove(worker)
            return worker.kill()

    def done(self) -> Iterator[Tuple[Any, Any]]:
        """What was given with what came of it, of those that are ready; waits for one."""
        for each in connection.wait(list(self.busy)):
            worker, thing = self.busy.pop(each)
            try:
                found = worker.connection.recv()
            except (EOFError, OSError):
                yield thing, Lost(self.drop(worker))
                continue
            self.idle.append(worker)
            yield thing, found

    def __exit__(self, *_: Any) -> None:
        """Asks them to end, by which they close what they have open, and kills those that don't."""
        with undisturbed():
            for worker in self.all:
                worker.process.terminate()
            self.wait_for_ends()
            for worker in self.all:
                worker.kill()

    def wait_for_ends(self) -> None:
        last, left = time.monotonic() + SECONDS_TO_END, {worker.process.sentinel for worker in self.all}
        while left and time.monotonic() < last:
            left.difference_update(connection.wait(left, max(0, last - time.monotonic())))
