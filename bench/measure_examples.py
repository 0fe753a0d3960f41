#!/usr/bin/env python3
"""Measures `check` and `explain` of the same question over cases of examples/, and prints the rows of the tables in
docs/PERFORMANCE.md: the instructions of each, counted by valgrind's callgrind for the whole process, and how many times
those of `check` the other takes. Without a case, those of the tables are measured. It needs the built program (make),
valgrind and PYTHONPATH=tools.

exit status: 0, all is measured; 1, a run failed; 2, the command line is wrong; 130, it was interrupted.
"""

from __future__ import annotations

import re
import subprocess
from typing import Sequence

from cases import Example, named
from measure_shapes import PROGRAM

from dnssec_check_tools import command

SECURE = ("bind-www-a", "bind-nosuch", "bind-wild-a")
BROKEN = (
    "expired-www-a",
    "denial3-of-another",
    "roll-gone",
    "stripped-all",
    "cut-proof-expired",
    "island-proof-expired",
)
COUNT = ("valgrind", "--tool=callgrind", "--callgrind-out-file=/dev/null")
COUNTED = re.compile(r"refs: *([0-9,]+)")


def asked(name: str) -> Example:
    """The first question of the case that is put in lines."""
    return next(it for it in named(name) if it.stem in ("check", "explain") and not it.is_json)


def instructions(example: Example, request: str) -> int:
    words = [*COUNT, str(PROGRAM), request, *example.words[1:]]
    done = subprocess.run(words, cwd=example.folder, capture_output=True, check=False)
    if done.returncode != example.status:
        raise SystemExit(f"{example.name}: {request} ended with {done.returncode}, and not {example.status}")
    return int(COUNTED.findall(done.stderr.decode())[0].replace(",", ""))


def row(name: str, check: int, explain: int) -> str:
    return f"| `{name}` | {check:,} | {explain:,} | {explain / check:.2f} times |"


def main(words: Sequence[str]) -> int:
    parser = command.parser_of(__doc__)
    parser.add_argument("case", metavar="CASE", nargs="*", help="folders of examples/")
    for name in parser.parse_args(words).case or SECURE + BROKEN:
        example = asked(name)
        print(row(name, *(instructions(example, request) for request in ("check", "explain"))), flush=True)
    return 0


if __name__ == "__main__":
    command.run(main)
