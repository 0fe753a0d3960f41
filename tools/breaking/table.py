"""The table of the incidents: the first sentence that each capture leads to, beside what other programs say."""

from __future__ import annotations

import re
from pathlib import Path
from typing import NamedTuple

from .incidents import Incident
from .others import OTHERS
from .servers import resolver
from .ways import WAYS, judged

MARKS = ("FAIL", "WHY")
HEAD = ("Incident", "`dnssec_check-judge`", *(f"`{name}`" for name in OTHERS))
# What changes from run to run: moments, and numbers but for extended DNS errors and those within words and addresses.
DATE = r"\d{4}-\d\d-\d\d(?:T[\d:]+Z| [\d:]+\+00:00)?"
VARYING = re.compile(rf"{DATE}|(?<!EDE )(?<![\w.-])\d+(?![\w.-]*\w)")
BASE64 = re.compile(r"[A-Za-z0-9+/]{40,}=*")


class Row(NamedTuple):
    """What is said of an incident, with `..` for what changes from run to run."""

    what: str
    sentences: dict[str, str]
    others: list[str]

    def cells(self) -> list[str]:
        return [self.what, self.own(), *self.others]

    def own(self) -> str:
        """The sentence; where the ways don't lead to the same, each behind its ways."""
        ways: dict[str, list[str]] = {}
        for way, text in self.sentences.items():
            ways.setdefault(text, []).append(way)
        if len(ways) == 1:
            return next(iter(ways))
        return "; ".join(f"by {' and '.join(names)}: {text}" for text, names in ways.items())


def masked(text: str) -> str:
    return VARYING.sub("..", BASE64.sub("..", text)).replace("|", "\\|")


def sentence(lines: list[str]) -> str:
    """The first sentence of what fails; of what is insecure, the last that says why, which tells the records."""
    told = [line.strip() for line in lines if line.strip().startswith(MARKS)]
    if not told:
        return lines[0] if lines else "nothing"
    chosen = told[0] if told[0].startswith(MARKS[0]) else told[-1]
    return chosen.split(" ", 1)[1]


def row_of(incident: Incident, folder: Path) -> Row:
    sentences = {way: masked(sentence(judged(incident, folder, way)[1])) for way in WAYS}
    with resolver(folder):
        others = [masked(say(incident, folder)) for say in OTHERS.values()]
    return Row(incident.what, sentences, others)


def line_of(cells: list[str]) -> str:
    return f"| {' | '.join(cells)} |"


def head() -> str:
    return f"{line_of(list(HEAD))}\n|{'---|' * len(HEAD)}"
