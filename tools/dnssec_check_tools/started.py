"""Programs that a tool runs by the thousand: begun by one call of the system, with what they write in files without a
name."""
import contextlib
import fcntl
import functools
import os
import signal
from typing import BinaryIO, Dict, Iterable, Iterator, List, Optional, Tuple

# What Python ignores, and a program doesn't expect to be ignored.
DEFAULT = [number for number in (signal.SIGPIPE, getattr(signal, "SIGXFSZ", None)) if number is not None]
FIRST_OTHER = 3  # behind the standard input, output and error


def processors() -> int:
    return len(os.sched_getaffinity(0)) if hasattr(os, "sched_getaffinity") else os.cpu_count() or 1


def beyond_standard(number: int) -> int:
    """The open file under a number that is none of the standard ones, which a process may have closed."""
    if number >= FIRST_OTHER:
        return number
    other = fcntl.fcntl(number, fcntl.F_DUPFD_CLOEXEC, FIRST_OTHER)
    os.close(number)
    return other


def nameless(octets: bytes = b"") -> BinaryIO:
    """A file with these octets that has no name and no place on a disk, and is gone with whoever has it open."""
    # pylint: disable-next=consider-using-with
    file = open(beyond_standard(os.memfd_create("dnssec_check")), "w+b", buffering=0)
    write_all(file, octets)
    return file


def write_all(file: BinaryIO, octets: bytes) -> None:
    """Writes all of them to a file without a buffer, where the system may take a part at a time."""
    left = memoryview(octets)
    while left:
        left = left[file.write(left) :]


@functools.lru_cache(None)
def environment() -> Dict[bytes, bytes]:
    """That of this process when it begins its first program: to read it again would take longer than the rest."""
    return dict(os.environb)


def content_of(file: BinaryIO) -> bytes:
    file.seek(0)
    return file.read()


class Process:
    """A program that runs, with nothing on its standard input. It is ended with the block, if not before."""

    def __init__(self, command: List[str], output: int, errors: int, kept: Iterable[int] = ()) -> None:
        """Begins it; files that are open go to its output and errors, and some are kept open under their numbers."""
        actions = [
            (os.POSIX_SPAWN_OPEN, 0, os.devnull, os.O_RDONLY, 0),
            (os.POSIX_SPAWN_DUP2, output, 1),
            (os.POSIX_SPAWN_DUP2, errors, 2),
            *((os.POSIX_SPAWN_DUP2, number, number) for number in kept),
        ]
        self.status: Optional[int] = None  # below 0 where a signal ended it
        self.memory = 0  # octets that it had at most
        self.seconds = 0.0  # of a processor
        self.pid = os.posix_spawn(command[0], command, environment(), file_actions=actions, setsigdef=DEFAULT)

    def wait(self) -> int:
        """Its exit status, once it has ended."""
        if self.status is None:
            _, status, usage = os.wait4(self.pid, 0)
            self.status, self.memory = os.waitstatus_to_exitcode(status), usage.ru_maxrss * 1024
            self.seconds = usage.ru_utime + usage.ru_stime
        return self.status

    def end(self) -> None:
        """Ends it, where it hasn't ended."""
        if self.status is None:
            os.kill(self.pid, signal.SIGKILL)
            self.wait()

    def __enter__(self) -> "Process":
        return self

    def __exit__(self, *_: object) -> None:
        self.end()


@contextlib.contextmanager
def pipe() -> Iterator[Tuple[BinaryIO, BinaryIO]]:
    """Its end to read from and the one to write to."""
    front, back = (beyond_standard(number) for number in os.pipe())
    with open(front, "rb") as reading, open(back, "wb", buffering=0) as writing:
        yield reading, writing
