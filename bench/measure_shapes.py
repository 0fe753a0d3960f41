#!/usr/bin/env python3
"""Measures the built program on requests that are made to cost much for what they weigh.

Each is made at a size and at four times as much, and what is printed are the rows of the tables in docs/STRANGERS.md
and of the one on timelines in docs/PERFORMANCE.md. Without a shape all are measured; with a beginning, as
`timeline-`, all shapes whose names begin so; with sizes, the shape at these. Instructions are counted by valgrind's
callgrind, a growth is their number by that of the row above, and peak memory and processor time are those that GNU
time tells. It needs the built program (make), valgrind, GNU time and PYTHONPATH=tools. The largest rows take a GiB of
memory, and all together some minutes of processor time.

exit status: 0, all is measured; 1, a run failed; 2, the command line is wrong; 130, it was interrupted.
"""

from __future__ import annotations

import pathlib
import re
import subprocess
import sys
import tempfile
from typing import Iterable, NamedTuple

from shapes import SHAPES
from shapes.shape import Shape

from dnssec_check_tools import command

PROGRAM = pathlib.Path(__file__).resolve().parent.parent / "crates" / "dnssec_check" / "out" / "dnssec_check"
GROWTH = 4
VERDICTS_AND_REFUSALS = (0, 3, 4, 5, 6, 7)


class Costs(NamedTuple):
    octets: int
    pairs: int
    instructions: int
    peak: int
    seconds: float
    answer: str


def write_files(shape: Shape, room: pathlib.Path) -> None:
    """Writes the shape's files, and its statements as the lines of `list` begin."""
    for option, pieces in shape.files.items():
        with open(room / option, "wb") as file:
            file.writelines(pieces)
    if shape.answered_from is not None:
        words = [str(PROGRAM), "list", "--capture", str(room / "capture"), *shape.listed]
        todo = subprocess.run(words, check=True, stdout=subprocess.PIPE).stdout.splitlines(keepends=True)
        asked = [line for line in todo[shape.answered_from :] if shape.answered_by in line]
        good = [line.replace(b"todo", b"good", 1) for line in asked]
        (room / "statements").write_bytes(b"".join(good))


def words_of(shape: Shape, room: pathlib.Path) -> list[str]:
    files = [word for path in sorted(room.iterdir()) for word in (f"--{path.name}", str(path))]
    return [str(PROGRAM), *shape.words, *files]


def run(words: list[str]) -> tuple[str, str]:
    """What it prints and what it complains of; any verdict and any refusal will do, a fault of the machine won't."""
    done = subprocess.run(words, capture_output=True, check=False)
    if done.returncode not in VERDICTS_AND_REFUSALS:
        raise SystemExit(f"{' '.join(words)}: status {done.returncode}: {done.stderr.decode()}")
    return done.stdout.decode(), done.stderr.decode()


def costs_of(shape: Shape) -> Costs:
    with tempfile.TemporaryDirectory() as name:
        room, log = pathlib.Path(name) / "files", pathlib.Path(name) / "log"
        room.mkdir()
        write_files(shape, room)
        octets, words = sum(path.stat().st_size for path in room.iterdir()), words_of(shape, room)
        output, errors = run(["/usr/bin/time", "-q", "-f", "%M %U %S", "-o", str(log), *words])
        peak, user, system = log.read_text().split()
        valgrind = ["valgrind", "--tool=callgrind", "--callgrind-out-file=/dev/null"]
        counted = re.findall(r"refs: *([0-9,]+)", run([*valgrind, *words])[1])[0]
        answer = (output or errors).split("\n")[0]
        return Costs(octets, shape.pairs, int(counted.replace(",", "")), int(peak), float(user) + float(system), answer)


def row(name: str, size: int, costs: Costs, before: Costs | None) -> str:
    pairs = f"{costs.pairs:,}" if costs.pairs else ""
    growth = f"{costs.instructions / before.instructions:.1f}" if before else ""
    return (
        f"| `{name}` | {size:,} | {costs.octets:,} | {pairs} | {costs.instructions:,} | {growth} "
        f"| {costs.peak:,} KiB | {costs.seconds:.2f} |"
    )


def measure(name: str, sizes: Iterable[int]) -> None:
    make = SHAPES[name][0]
    before: Costs | None = None
    for size in sizes:
        costs = costs_of(make(size))
        print(row(name, size, costs, before), flush=True)
        print(f"{name} {size}: {costs.answer[:70]}", file=sys.stderr)
        before = costs


def main(words: list[str]) -> int:
    parser = command.parser_of(__doc__)
    parser.add_argument("shape", metavar="SHAPE", nargs="?", default="", help=", ".join(SHAPES))
    parser.add_argument("sizes", metavar="SIZE", type=int, nargs="*", help="sizes in place of the usual two")
    options = parser.parse_args(words)
    named = [options.shape] if options.shape in SHAPES else [name for name in SHAPES if name.startswith(options.shape)]
    if not named:
        parser.error(f"there is no shape {options.shape}")
    for name in named:
        _, size = SHAPES[name]
        measure(name, options.sizes or (size, GROWTH * size))
    return 0


if __name__ == "__main__":
    command.run(main)
