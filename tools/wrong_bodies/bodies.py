"""Wrong bodies: what their files say, and which of them one check can try."""

from __future__ import annotations

import re
from dataclasses import dataclass
from pathlib import Path
from typing import Optional
from typing import TYPE_CHECKING, Collection, Iterable

if TYPE_CHECKING:
    from .judge import Trial

FUNCTION = re.compile(r"^( *)(?:pub(?:\([a-z]+\))? )?(?:const )?fn (\w+)")
# How the text shows the steps of a body that proofs name otherwise than it does.
SIGNS = {
    "if": r"\bif\b",
    **dict.fromkeys(("from_residual", "branch"), r"\?"),
    **dict.fromkeys(("index", "bounds", "slice_bounds"), r"\["),
    **dict.fromkeys(("deref", "deref_mut"), r"\w\("),
    "overflow_add": r"\+",
    "overflow_sub": r" -",
    "overflow_mul": r" \* ",
    "overflow_cast": r"\bas\b",
}


@dataclass(frozen=True)
class Function:
    """A function of a crate: its module's path, the block that it is of, or "", and its name."""

    module: str
    of: str
    name: str

    @property
    def path(self) -> str:
        return "::".join(part for part in (self.module, self.of, self.name) if part)

    def path_in(self, paths: Collection[str]) -> str:
        """Which of the paths it is told by: a method of a type by the type's module, wherever its block stands."""
        others = [path for path in paths if self.of and path.endswith(f"::{self.of}::{self.name}")]
        return others[0] if self.path not in paths and len(others) == 1 else self.path


@dataclass(frozen=True)
class Edit:
    """A wrong body: a file of texts to be replaced, each of which stands once in the file that the line before
    names."""

    file: Path
    pairs: tuple[tuple[str, str, str], ...]
    function: Optional[Function]

    @property
    def name(self) -> str:
        return self.file.stem

    @property
    def is_of_definitions(self) -> bool:
        return all(path.startswith("specs/") for path, _, _ in self.pairs)

    @staticmethod
    def read(folder: Path, file: Path) -> Edit:
        pairs, path, old = [], "", ""
        for line in file.read_text().split("\n"):
            word, _, text = line.partition(":")
            if word == "file":
                path = text.strip()
            elif word == "old":
                old = text[1:]
            elif word == "new":
                pairs.append((path, old, text[1:]))
        functions = {function_at(folder, path, old) for path, old, _ in pairs}
        return Edit(file, tuple(pairs), functions.pop() if len(functions) == 1 else None)

    def recounts(self, step: str) -> bool:
        """Whether the wrong body has more or fewer of such steps, as calls of one name: the others may have new
        numbers."""
        sign = SIGNS.get(step, rf"\b{re.escape(step)}(?:::<[^(]*>)?\(")
        old, new = ("\n".join(pair[place] for pair in self.pairs) for place in (1, 2))
        return len(re.findall(sign, old)) != len(re.findall(sign, new))

    def apply(self, folder: Path) -> bool:
        """Changes the crate, if each text stands there once; returns whether."""
        texts = {path: (folder / path).read_text() for path, _, _ in self.pairs}
        for path, old, new in self.pairs:
            if texts[path].count(old) != 1:
                return False
            texts[path] = texts[path].replace(old, new)
        for path, text in texts.items():
            (folder / path).write_text(text)
        return True


def function_at(folder: Path, path: str, text: str) -> Function | None:
    """The function in whose body the text stands; `None` where it stands in none."""
    lines = (folder / path).read_text().split("\n")
    place = next((number for number, line in enumerate(lines) if text in line), -1)
    heads = [number for number in range(place + 1) if FUNCTION.match(lines[number])]
    if not heads:
        return None
    indent, name = FUNCTION.findall(lines[heads[-1]])[0]
    opening = re.compile(rf"{indent}(\S.*)?\{{")
    bodies = [number for number in range(heads[-1], len(lines)) if opening.fullmatch(lines[number])]
    ends = [number for number in range(heads[-1], len(lines)) if lines[number] == indent + "}"]
    if not bodies or not ends or not bodies[0] < place < ends[0]:
        return None
    return Function(module_of(path), block_at(lines, heads[-1]) if indent else "", name)


def module_of(path: str) -> str:
    parts = Path(path).with_suffix("").parts[1:]
    return "::".join(part for part in parts if part not in ("lib", "main"))


def block_at(lines: list[str], place: int) -> str:
    """How a check tells the `impl` block around the line: its type, the trait, and what the trait is of, in one
    word."""
    head = next(line for line in reversed(lines[:place]) if re.match(r"(?:pub )?(?:impl|trait)\b", line))
    head = re.sub(r"^(?:pub )?(?:impl|trait)(?:<[^<>]*(?:<[^<>]*>[^<>]*)*>)? *", "", head)
    trait, _, owner = head.rpartition(" for ")
    name, rest = (re.findall(r"^(?:\w+::)*(\w*)(.*)", text)[0] for text in (owner, trait))
    words = re.findall(r"(?<!')\b[A-Za-z]\w+", rest[1])
    return name[0] + rest[0] + "".join(word[0].upper() + word[1:] for word in words)


def without_bodies(text: str) -> list[str]:
    """The text without the functions' bodies and without comments: what it states."""
    kept: list[str] = []
    indent: str | None = None
    end: str | None = None
    for line in text.split("\n"):
        if end is not None:
            end = None if line == end else end
            continue
        head = FUNCTION.match(line)
        indent = head[1] if head else indent
        if indent is not None and re.fullmatch(rf"{indent}(\S.*)?\{{", line):
            end = indent + "}"
            indent = None
        kept.append(line)
    return [line for line in kept if not line.lstrip().startswith("//")]


def batches_of(trials: Iterable[Trial], size: int) -> list[list[Trial]]:
    """Cuts what is to be tried into batches of at most so many, no two of one function."""
    batches: list[list[Trial]] = []
    for trial in trials:
        fits = (
            batch for batch in batches if len(batch) < size and all(trial.function != other.function for other in batch)
        )
        batch = next(fits, None)
        if batch is None:
            batches.append([trial])
        else:
            batch.append(trial)
    return batches
