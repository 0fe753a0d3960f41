"""The lines of `dnssec_check list` as they come: no more of them is read, and none is in memory, than is asked for."""
import os
import resource
from typing import BinaryIO, Generator, Iterator, List, Optional

from .asking.faults import Failure
from .started import Process, content_of, nameless, pipe

# The program has all that it lists in memory before it writes. So it gets no more memory than for what is read, and
# what it may need besides; but for captures from which, with 48 keys of one tag, 16 signatures of an RRset and owners
# that are pointers to long names, no more than some 70 MB can be made.
LISTS_LITTLE = 4096
MEMORY_BESIDES = 100_000_000
LIMITED = ("/bin/sh", "-c", 'ulimit -v "$0" && exec "$@"')
NO_MEMORY = "fault 90"


class Listed:
    """What the program lists of a capture, up to so many octets: behind them it is ended."""

    def __init__(self, command: List[str], capture: int, most: int) -> None:
        """The capture is an open file, by its number."""
        self.capture, self.most = capture, most
        self.is_limited = os.fstat(capture).st_size > LISTS_LITTLE
        self.command = [*LIMITED, str((most + MEMORY_BESIDES) // 1024), *command] if self.is_limited else command
        self.octets, self.is_cut = 0, False
        self.status: Optional[int] = None  # of the program, where it came to its end within the limits
        self.errors = ""
        self.seconds = 0.0  # of a processor

    def lines(self) -> Generator[str, None, None]:
        """The lines, to be asked for once; closed before its end it ends the program."""
        with nameless() as errors:
            with pipe() as (output, back):
                with self.started(back, errors) as process:
                    back.close()
                    yield from self.read(output)
                    peak = 0 if self.is_cut else peak_of(process)
            self.seconds = process.seconds
            self.errors = content_of(errors).decode("utf-8", "replace")
        is_full = self.is_limited and peak > self.most  # else the memory is lacking for another reason
        self.is_cut = self.is_cut or (is_full and self.errors.startswith(NO_MEMORY))
        self.status = None if self.is_cut else process.status

    def started(self, output: BinaryIO, errors: BinaryIO) -> Process:
        try:
            return Process(self.command, output.fileno(), errors.fileno(), [self.capture])
        except OSError as fault:
            raise Failure(f"{self.command[0]}: {fault.strerror}") from fault

    def read(self, output: BinaryIO) -> Iterator[str]:
        """The whole lines."""
        while line := output.readline(self.most - self.octets + 1):
            if self.octets + len(line) > self.most:
                self.is_cut = True
                return
            self.octets += len(line)
            if line.endswith(b"\n"):
                yield line[:-1].decode("ascii", "replace")


def peak_of(process: Process) -> int:
    """Waits for its end, and answers how many octets of memory it had at most; 0 where that isn't more than this
    process had, which the system counts for it too, from before it became another program."""
    process.wait()
    own = resource.getrusage(resource.RUSAGE_SELF).ru_maxrss * 1024
    return process.memory if process.memory > own else 0
