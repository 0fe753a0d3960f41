"""Captures judged by the workers of a Dask scheduler. What a worker gets is octets, and the tools' own modules."""
import contextlib
import io
import logging
import os
import shutil
import tempfile
import time
import zipfile
from typing import Any, Iterable, Iterator

from ..asking.faults import Failure, lacking
from ..asking.questions import Questions
from ..program import NAME, PACKAGE, Program

from .handed_out import LOOK_SECONDS, HandedOut
from .spread import Answer, Result, Results, Task, answer
from .work import Common

MODULES = f"{PACKAGE.name}.zip"
WAIT_SECONDS = 30
SECONDS_TO_CLOSE = 1
RUNNING = "running"  # what a client is that has its scheduler


def library() -> Any:
    """Imported where it's asked for, so that one machine needs none."""
    try:
        import distributed
    except ImportError as fault:
        raise lacking("distributed", "--scheduler", fault) from fault
    return distributed


def modules() -> bytes:
    """The package, as a file that Python imports from."""
    octets = io.BytesIO()
    files = [file for file in sorted(PACKAGE.rglob("*")) if file.is_file() and file.suffix != ".pyc"]
    with zipfile.ZipFile(octets, "w") as archive:
        for file in files:
            archive.writestr(str(file.relative_to(PACKAGE.parent)), file.read_bytes())
    return octets.getvalue()


def at_worker(octets: bytes, questions: Questions, common: Common) -> Answer:
    """The verdicts on a capture, by the program on the worker's own path."""
    path = shutil.which(NAME)
    if path is None:
        return Failure(f"{NAME} isn't on the path of a worker")
    task = Task(0, "-", octets, None, questions)
    return answer(common, Program(path), task)


def send_modules(client: Any) -> None:
    with tempfile.TemporaryDirectory() as folder:
        path = os.path.join(folder, MODULES)
        with open(path, "wb") as file:
            file.write(modules())
        client.upload_file(path)


def by_workers(tasks: Iterable[Task], common: Common, address: str, wait: int) -> Results:
    """Each capture's number with its verdicts, as they are done."""
    dask = library()
    logging.disable()  # of this process: what comes of a fault is told in a line
    with client_of(dask, address, wait) as client:
        handed = HandedOut(dask, client, at_worker, common)
        watch = Watch(client, handed, address, wait)
        for task in tasks:
            yield from watch.look()
            while not handed.give(task):
                yield from handed.results()
                yield from watch.look()
        while not handed.is_over():
            yield from handed.results()
            yield from watch.look()


class Watch:
    """Looks now and then for workers and a scheduler, without which nothing would ever be done."""

    def __init__(self, client: Any, handed: HandedOut, address: str, wait: int) -> None:
        self.client, self.handed, self.address, self.wait = client, handed, address, wait
        self.last, self.next = time.monotonic(), 0.0  # when a worker was there, and when to look again

    def look(self) -> Iterator[Result]:
        if time.monotonic() < self.next:
            return
        if self.client.status != RUNNING or self.handed.is_cut_off:
            self.wait_for_scheduler()
        with contextlib.suppress(OSError):  # the scheduler's, whose end the client will have met next time
            yield from self.handed.look()
            if self.handed.threads:
                self.last = time.monotonic()
        if time.monotonic() - self.last > self.wait:
            raise Failure(without_worker(self.address, self.wait))
        self.next = time.monotonic() + LOOK_SECONDS

    def wait_for_scheduler(self) -> None:
        """Waits for one in place of one that was lost; the client looks for it by itself."""
        last = time.monotonic() + self.wait
        while self.client.status != RUNNING:
            if time.monotonic() > last:
                raise Failure(f"the scheduler at {self.address} was lost, and none answered for {self.wait} seconds")
            time.sleep(LOOK_SECONDS)
        self.handed.take_back()
        send_modules(self.client)
        self.last = time.monotonic()


def without_worker(address: str, wait: int) -> str:
    return f"the scheduler at {address} has no worker, and got none for {wait} seconds"


@contextlib.contextmanager
def client_of(dask: Any, address: str, wait: int) -> Iterator[Any]:
    """A client of the scheduler, which has a worker, with the tools sent to it."""
    last = time.monotonic() + wait
    try:
        client = dask.Client(address, timeout=wait)
    except (OSError, ValueError, dask.TimeoutError) as fault:
        raise Failure(f"no scheduler answers at {address}: {fault}") from fault
    try:
        wait_for_worker(dask, client, last - time.monotonic(), without_worker(address, wait))
        send_modules(client)
        yield client
    finally:
        with contextlib.suppress(dask.TimeoutError):
            client.close(timeout=SECONDS_TO_CLOSE)


def wait_for_worker(dask: Any, client: Any, seconds: float, told: str) -> None:
    try:
        client.wait_for_workers(1, timeout=max(LOOK_SECONDS, seconds))
    except dask.TimeoutError as fault:
        raise Failure(told) from fault
