"""The library that refuses a program its calls (`refuse.c`): how it is built, and what it is asked for."""

from __future__ import annotations

import os
import pathlib
import shutil
import struct
import subprocess
from typing import NamedTuple

from .runs import Answer, Bench

SOURCE = pathlib.Path(__file__).resolve().parent.parent / "refuse.c"
FLAGS = ("-std=c11", "-O2", "-Wall", "-Wextra", "-shared", "-fPIC")


class Unbuilt(Exception):
    """There is no library, for the reason that is told."""


def built(folder: pathlib.Path) -> pathlib.Path:
    """The library, built in the folder."""
    library = folder / "refuse.so"
    compiler = shutil.which("cc")
    if compiler is None:
        raise Unbuilt("there is no C compiler `cc`, which the package gcc has")
    ran = subprocess.run(
        [compiler, *FLAGS, "-o", str(library), str(SOURCE), "-ldl"],
        stdout=subprocess.PIPE,
        stderr=subprocess.STDOUT,
        check=False,
    )
    if ran.returncode:
        raise Unbuilt(ran.stdout.decode(errors="replace"))
    return library


class Refusal(NamedTuple):
    """Which calls of a kind are refused, from the first to the last; of one file, so many octets at a time."""

    kind: str
    first: int | None = None
    last: int | None = None
    file: str | pathlib.Path | None = None
    size: int | None = None

    def environment(self) -> dict[str, str]:
        values = {
            "REFUSE": self.kind,
            "REFUSE_FIRST": self.first,
            "REFUSE_LAST": self.last,
            "REFUSE_FILE": self.file,
            "REFUSE_SIZE": self.size,
        }
        return {name: str(value) for name, value in values.items() if value is not None}

    def __str__(self) -> str:
        return " ".join(f"{name}={value}" for name, value in self.environment().items())


def refused(
    bench: Bench, words: list[str], refusal: Refusal, given: str | pathlib.Path = os.devnull
) -> tuple[Answer, int, int]:
    """What comes of the words and the input, and how many calls there were and were refused."""
    counts = bench.file("counts", bytes(16))
    environment = {**refusal.environment(), "LD_PRELOAD": str(bench.tried.library), "REFUSE_COUNTS": str(counts)}
    answer = bench.answer(words, environment, given)
    calls, count = struct.unpack("=QQ", counts.read_bytes())
    return answer, calls, count
