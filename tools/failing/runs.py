"""Runs of the program: its words, the files that they name, and what came of it."""

from __future__ import annotations

import os
import pathlib
import signal
import tempfile
from typing import NamedTuple, Union

from cases import Example, examples_of, named

SMALL = pathlib.Path(__file__).resolve().parent / "keys-and-host"
# No run takes a hundredth of that, but where the machine has much else to do; one that takes as long is ended.
SECONDS = 120
# Files that are written anew again and again wait for a disk; where there is memory for them, they are kept there.
ROOMS = "/dev/shm" if os.access("/dev/shm", os.W_OK | os.X_OK) else None


class Answer(NamedTuple):
    """The exit status, below 0 the signal that ended it; and both streams' octets."""

    status: int
    output: bytes
    errors: bytes


class Tried(NamedTuple):
    """What is tried: the program, and the library that refuses it its calls."""

    program: pathlib.Path
    library: pathlib.Path


class Case:
    """A command line with the files that it names, and what has to come, as an example has them."""

    def __init__(self, example: Example) -> None:
        self.name, self.words, self.files = example.name, list(example.words), example.files
        self.right = Answer(example.status, example.output, example.errors)
        self.firsts = firsts_of(example.output) if example.asks_many else frozenset()

    def words_with(self, **others: pathlib.Path) -> list[str]:
        """The command line, with these files in the place of its own."""
        paths, words = {**self.files, **others}, list(self.words)
        for option, path in paths.items():
            words[words.index(f"--{option}") + 1] = str(path)
        return words


def firsts_of(output: bytes) -> frozenset[bytes]:
    """The beginnings of what is told of many questions that are the whole texts of the first of them: of one at least,
    and not of all. A text begins with its verdict, with how it is refused, or as an object."""
    lines = output.splitlines(keepends=True)
    fronts = [place for place, line in enumerate(lines) if line[:1].isupper() or line.startswith((b"refused ", b"{"))]
    return frozenset(b"".join(lines[:place]) for place in fronts[1:])


def case_of(name: str) -> Case:
    """The example of this name."""
    (example,) = named(name)
    return Case(example)


def small_cases() -> list[Case]:
    """What `list` and `check` say of the small capture, which is of examples/ and has made-up signatures."""
    return [Case(example) for example in examples_of(SMALL)]


class Spoken:
    """A command line that names no file, and what the program says to it where nothing is refused."""

    files: dict[str, pathlib.Path] = {}
    firsts: frozenset[bytes] = frozenset()

    def __init__(self, name: str, words: list[str], right: Answer) -> None:
        self.name, self.words, self.right = name, words, right

    def words_with(self) -> list[str]:
        return self.words


Asked = Union[Case, Spoken]


class Bench:
    """Where the program is run, and the files that its runs are given: a folder that goes at the end."""

    def __init__(self, tried: Tried) -> None:
        self.tried = tried
        self.folder = tempfile.TemporaryDirectory(dir=ROOMS)  # pylint: disable=consider-using-with
        self.room = pathlib.Path(self.folder.name)
        self.output, self.errors = self.room / "output", self.room / "errors"

    def __enter__(self) -> Bench:
        return self

    def __exit__(self, *_: object) -> None:
        self.folder.cleanup()

    def file(self, name: str, octets: bytes) -> pathlib.Path:
        """The path of a file with these octets."""
        path = self.room / name
        path.write_bytes(octets)
        return path

    def answer(
        self, words: list[str], environment: dict[str, str] | None = None, given: str | pathlib.Path = os.devnull
    ) -> Answer:
        """What comes of these words, and of the file that it is given as its input."""
        return self.answer_of([str(self.tried.program), *words], environment, given)

    def answer_of(
        self, command: list[str], environment: dict[str, str] | None = None, given: str | pathlib.Path = os.devnull
    ) -> Answer:
        created = os.O_WRONLY | os.O_CREAT | os.O_TRUNC
        streams = [(0, str(given), os.O_RDONLY), (1, str(self.output), created), (2, str(self.errors), created)]
        opened = [(os.POSIX_SPAWN_OPEN, number, path, flags, 0o600) for number, path, flags in streams]
        process = os.posix_spawn(command[0], command, environment or {}, file_actions=opened)
        return Answer(waited(process), self.output.read_bytes(), self.errors.read_bytes())


def waited(process: int) -> int:
    """The exit status of the process, or the signal that ended it."""
    former = signal.signal(signal.SIGALRM, lambda *_: os.kill(process, signal.SIGKILL))
    signal.setitimer(signal.ITIMER_REAL, SECONDS)
    try:
        _, ended = os.waitpid(process, 0)
    finally:
        signal.setitimer(signal.ITIMER_REAL, 0)
        signal.signal(signal.SIGALRM, former)
    return -os.WTERMSIG(ended) if os.WIFSIGNALED(ended) else os.WEXITSTATUS(ended)
