"""Captures that are handed out to the workers of a Dask scheduler, each to a worker that is chosen here: so it's known
what one had that is lost. Each of its captures is judged again by a worker that has nothing else meanwhile, and one by
which that is lost too is named."""
import collections
import queue
import uuid
from typing import Any, Counter, Dict, Iterator, List, NamedTuple, Optional, Set, Tuple

from ..asking.faults import Failure

from .spread import Result, Task, answer_of, of_lost
from .work import Common, Judged

AHEAD = 2  # captures for each thread of a worker: what it judges, and what comes next
LOOK_SECONDS = 0.5
GATHER_SECONDS = 10
LOST = "was lost with its worker"


class Handed(NamedTuple):
    task: Task
    future: Any
    worker: str


class HandedOut:
    """The captures that workers have, and those that have to be judged alone."""

    def __init__(self, dask: Any, client: Any, judge: Any, common: Common) -> None:
        self.dask, self.client, self.judge, self.common = dask, client, judge, common
        self.name, self.count = uuid.uuid4().hex, 0
        self.handed: Dict[str, Handed] = {}
        self.again: List[Task] = []
        self.alone: Set[int] = set()  # those of `again` that are handed out, by their numbers
        self.lost: Set[int] = set()  # those by which a worker may have been lost
        self.threads: Dict[str, int] = {}
        self.finished: "queue.Queue[Any]" = queue.Queue()
        self.is_cut_off = False  # from a scheduler that was lost

    def is_over(self) -> bool:
        return not self.handed and not self.again

    def give(self, task: Task) -> bool:
        """Hands it to a worker that has room, but for while others are judged alone."""
        worker, load = self.least()
        if worker is None or load >= AHEAD or self.again or self.alone:
            return False
        self.hand(task, worker)
        return True

    def least(self) -> Tuple[Optional[str], float]:
        """The worker that has the least captures for each of its threads, and how many."""
        counts: Counter[str] = collections.Counter(each.worker for each in self.handed.values())
        loads = {worker: counts[worker] / max(1, number) for worker, number in self.threads.items()}
        worker = min(loads, key=lambda each: loads[each], default=None)
        return worker, loads.get(worker or "", 0)

    def hand(self, task: Task, worker: str) -> None:
        """A key is used once, so that no verdict is taken twice."""
        self.count += 1
        key = f"dnssec_check-{self.name}-{self.count}"
        given = task.octets, task.questions, self.common
        future = self.client.submit(self.judge, *given, key=key, pure=False, workers=[worker])
        self.handed[key] = Handed(task, future, worker)
        future.add_done_callback(self.finished.put)

    def hand_alone(self) -> None:
        while self.again:
            worker, load = self.least()
            if worker is None or load:
                return
            task = self.again.pop(0)
            self.alone.add(task.number)
            self.hand(task, worker)

    def results(self) -> Iterator[Result]:
        """What is done within a moment."""
        self.hand_alone()
        try:
            future = self.finished.get(timeout=LOOK_SECONDS)
        except queue.Empty:
            return
        handed = self.handed.pop(future.key, None)
        if handed:  # else it was a lost worker's
            yield from self.result(future.key, handed)

    def result(self, key: str, handed: Handed) -> Iterator[Result]:
        task, future, _ = handed
        try:
            found: Judged = answer_of(future.result(timeout=GATHER_SECONDS))
        except self.dask.CancelledError:
            self.is_cut_off = True
            self.once_more(task)
        except self.dask.KilledWorker:
            yield from self.lose(handed)
        except self.dask.TimeoutError:  # the worker has it, and may be lost meanwhile
            self.handed[key] = handed
            future.add_done_callback(self.finished.put)
        except Failure:
            raise
        except Exception as fault:  # whatever a worker met: each would meet it
            raise Failure(f"a worker failed: {type(fault).__name__}: {fault}") from fault
        else:
            future.release()
            self.alone.discard(task.number)
            yield task.number, found

    def look(self) -> Iterator[Result]:
        """Takes back what workers had that aren't there any more."""
        self.threads = self.client.nthreads()
        for key, handed in list(self.handed.items()):
            if handed.worker not in self.threads and handed.future.status != "cancelled":
                del self.handed[key]
                handed.future.cancel()
                yield from self.lose(handed)

    def take_back(self) -> None:
        """Takes back all of them, from a scheduler that was lost; that's no capture's fault."""
        for handed in self.handed.values():
            self.once_more(handed.task)
        self.handed.clear()
        self.is_cut_off = False

    def lose(self, handed: Handed) -> Iterator[Result]:
        task = handed.task
        if task.number in self.lost:
            self.alone.discard(task.number)
            yield task.number, of_lost(task.questions, self.common, LOST)
        else:
            self.lost.add(task.number)
            self.once_more(task)

    def once_more(self, task: Task) -> None:
        self.alone.discard(task.number)
        self.again.append(task)
