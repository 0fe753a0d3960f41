"""A reader as the fuzzer tries it: where its corpus lies, what its inputs are made of, and what it has to do."""

from __future__ import annotations

import contextlib
import io
import os
import re
import subprocess
import sys
import tempfile
from dataclasses import dataclass, field
from pathlib import Path
from typing import Callable, Iterator, NamedTuple, Optional, Sequence

from dnssec_check_tools.command import shown

from .changes import Change, lines_of
from .limits import unlimited_memory

TREE = Path(__file__).resolve().parent.parent.parent
DATA = TREE / "tools" / "tests" / "data"
EXAMPLES = TREE / "examples"
PROGRAM = TREE / "crates" / "dnssec_check" / "out" / "dnssec_check"
# Of the inputs that a reader takes, one of so many is given to the program too.
EVERY = 20
ENDS = (0, 3, 4, 5, 6, 7)


class Broken(Exception):
    """A reader took an input, and what came of it isn't what has to come."""


class Ended(NamedTuple):
    """How a reader ended: it took the input, or it refused it by its own words."""

    is_taken: bool
    how: str


class Said(NamedTuple):
    """What the program says: its status, its output, and the number of what it refuses, 0 where it refuses nothing."""

    status: int
    output: str
    number: int


@dataclass
class Desk:
    """Where a target has the program, and room for its files; without a program nothing is asked of it."""

    room: Path
    program: Optional[Path] = None
    taken: int = 0
    asked: int = 0

    def is_turn(self) -> bool:
        """Whether the program is asked about this input, which the reader took."""
        self.taken += 1
        return self.program is not None and self.taken % EVERY == 1

    def ask(self, subcommand: str, files: dict[str, bytes], words: Sequence[str] = ()) -> Said:
        """What the program says of files by their options; Broken where it ends otherwise than its manual page says."""
        self.asked += 1
        for name, octets in files.items():
            (self.room / name).write_bytes(octets)
        options = [word for name in files for word in (f"--{name}", name)]
        command = [str(self.program), subcommand, *options, *words]
        with unlimited_memory():
            done = subprocess.run(command, cwd=self.room, capture_output=True, check=False)
        errors = done.stderr.decode()
        must(done.returncode in ENDS, f"{subcommand} ended with status {done.returncode}: {shown(errors)}")
        number = errors.split(" ")[1] if errors.startswith("refused ") else "0"
        return Said(done.returncode, done.stdout.decode(), int(number))


def must(holds: bool, what: str) -> None:
    if not holds:
        raise Broken(what)


@dataclass(frozen=True)
class Target:
    """A reader with what it is given."""

    name: str
    run: Callable[[bytes, Desk], Ended]
    corpus: Callable[[], list[bytes]]
    words: Sequence[bytes] = ()
    parts: Callable[[bytes], list[bytes]] = lines_of
    changes: Sequence[Change] = field(default=())

    def inputs(self) -> list[bytes]:
        """Those of its corpus: files of its own, and files that other tests have."""
        own = sorted((DATA / "fuzz" / self.name).glob("*"))
        return [*(path.read_bytes() for path in own), *self.corpus()]


def kind_of(text: str) -> str:
    """A text without what differs from one input to another: numbers, and what is quoted."""
    return re.sub(r"'[^']*'|\"[^\"]*\"", "Q", re.sub(r"[0-9]+", "N", text))[:200]


def refused(refusal: Exception) -> Ended:
    """The end by the tool's own refusal, which has to be one line that a terminal can be shown."""
    must(str(refusal).isprintable(), f"a refusal that can't be shown: {str(refusal)!r}")
    return Ended(False, place_of(refusal))


def place_of(fault: BaseException) -> str:
    """Where a fault began, in the code."""
    first = fault.__cause__ or fault
    while first.__cause__:
        first = first.__cause__
    last = first.__traceback__
    while last and last.tb_next:
        last = last.tb_next
    where = f" at {os.path.basename(last.tb_frame.f_code.co_filename)} {last.tb_lineno}" if last else ""
    return type(first).__name__ + where


@contextlib.contextmanager
def given(octets: bytes) -> Iterator[list[str]]:
    """The input on the standard input; the lines that were told on the standard error, once that is over. Each has to
    be one that a terminal can be shown."""
    lines: list[str] = []
    old, front = (sys.stdin, sys.stderr), f"{os.path.basename(sys.argv[0])}: "
    errors = io.StringIO()
    sys.stdin, sys.stderr = io.TextIOWrapper(io.BytesIO(octets)), errors
    try:
        yield lines
    finally:
        sys.stdin, sys.stderr = old
    for line in errors.getvalue().split("\n")[:-1]:
        must(line.startswith(front) and line.isprintable(), f"a line that can't be shown: {shown(line)}")
        lines.append(line[len(front) :])


@contextlib.contextmanager
def desk_of(program: Optional[Path]) -> Iterator[Desk]:
    with tempfile.TemporaryDirectory(prefix="dnssec_check-fuzz-") as room:
        yield Desk(Path(room), program)
