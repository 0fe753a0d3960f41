"""The answers of a proof file: where each stands, which lean on it, and the file without some of them."""

from __future__ import annotations

import re
from dataclasses import dataclass
from typing import Collection

HEAD = re.compile(r"(?:abbrev )?(?:pub )?(?!use )(\S+) :(?:\s|$)")
SECTION = re.compile(r"module _\b")
ANSWER = re.compile(r"(?:abbrev )?(?:pub )?\S+ :\s+goal\.")
INNER = re.compile(r"\s+(?:abbrev )?(?:pub )?([^\s(){}]+) :(?:\s|$)")
STEP = re.compile(r"\bc\.([A-Za-z]\w*)")
BRANCHES = re.compile(r"(use \S+\.Goals\.)\{(.*)\}$")


@dataclass(frozen=True)
class Part:
    """A declaration, or a section of some: the names that it declares, its lines, and the number of the first."""

    names: frozenset[str]
    first: int
    lines: tuple[str, ...]

    @property
    def text(self) -> str:
        return "\n".join(self.lines)

    def mentions(self, names: Collection[str]) -> bool:
        return any(re.search(rf"(?<![\w+-]){re.escape(name)}(?![\w+-])", self.text) for name in names)


def parts_of(text: str) -> list[Part]:
    """The declarations of a file, from its first line; what stands before them, as its `use` lines, is in none."""
    lines = text.split("\n")
    heads = [number for number, line in enumerate(lines) if HEAD.match(line) or SECTION.match(line)]
    return [part_of(lines, head, end) for head, end in zip(heads, heads[1:] + [len(lines)])]


def part_of(lines: list[str], head: int, end: int) -> Part:
    own = tuple(lines[head:end])
    name = HEAD.match(own[0])
    inner = [] if name else [INNER.match(line) for line in own[1:]]
    names = [name[1]] if name else [found[1] for found in inner if found]
    return Part(frozenset(names), head + 1, own)


def standing_at(text: str, line: int) -> frozenset[str]:
    """The names that the declaration at the line declares; none where the line stands in none."""
    around = (part.names for part in parts_of(text) if part.first <= line < part.first + len(part.lines))
    return next(around, frozenset())


def leaning_on(text: str, names: Collection[str]) -> set[str]:
    """The names with those of all declarations that mention them, directly or not."""
    parts, all_names = parts_of(text), set(names)
    while True:
        more = {name for part in parts if part.mentions(all_names) for name in part.names} - all_names
        if not more:
            return all_names
        all_names |= more


def without(text: str, names: Collection[str]) -> str:
    """The file without these declarations; "" where no answer is left."""
    parts = parts_of(text)
    start = parts[0].first - 1 if parts else 0
    kept = [part for part in parts if not part.names & set(names)]
    if not any(ANSWER.match(part.text) for part in kept):
        return ""
    head = [line for line in text.split("\n")[:start] for line in still_cited(line, kept)]
    return "\n".join(head + [line for part in kept for line in part.lines])


def still_cited(line: str, parts: list[Part]) -> list[str]:
    """The line, if anything is left of it, without those branches of a goal that no declaration mentions any more:
    where the goal has no answer, its branches have no names either."""
    found = BRANCHES.match(line)
    if not found:
        return [line]
    cited = [name for name in found[2].split(", ") if any(part.mentions({name}) for part in parts)]
    return [f"{found[1]}{{{', '.join(cited)}}}"] if cited else []


def steps_of(text: str, name: str) -> set[str]:
    """The steps of the body, as its calls, that the answer cites or that its goal is named by, without their
    numbers."""
    cited = {step for part in parts_of(text) if name in part.names for step in STEP.findall(part.text)}
    return cited | set(name.split("-"))


def has_answer(text: str, name: str) -> bool:
    return any(name in part.names for part in parts_of(text))
