"""What a check tells of a wrong body: whether goals of its own function refuse it.

An answer was written for the right body. It may fail at a goal of the wrong one for what the goal says now, or only
because it doesn't fit any more: it names what isn't there, or counts calls that have other numbers, or its goal is
trivial or gone. Either way it is taken out, and the goal is left to `search`. So a body ends as one of three:

refused    `search` didn't prove a goal that had no answer, or one whose answer had failed for what the goal says
proved     every goal is proved: the contract lets this body through
unsettled  a goal is open whose answer was taken out because it didn't fit, or that asks only whether a new step is
           safe: a person has to look

An edit of definitions alone changes what lemmas say, and nothing tries `search` at a lemma. So it is refused where a
proof of one fails for what is said now, and doesn't only name what isn't there.
"""

from __future__ import annotations

import re
from dataclasses import dataclass, field
from enum import Enum
from typing import Callable, Iterable, Iterator

from .answers import has_answer, leaning_on, standing_at, steps_of
from .bodies import Edit, Function

# How antt says that a term or a tactic meets its goal and fails.
FAILS = re.compile(
    r"the two (?:types|indices|values|sides)|but this has type|found no proof|no proof of|the goal does not follow"
)
# The shape of a term is wrong for its goal, or what it names isn't there.
UNFIT = re.compile(r"has no field|is not in scope|has no `|was not admitted|nearest: |Goals`|is checked against")
# What says that the body didn't reach the prover, or met a limit of the prover's own.
NO_VERDICT = re.compile(r"\berror\[[\w-]+\]|ran out of|memory limit|step limit|could not tell")
OPEN = re.compile(r"`search` did not prove ((?:`[^`]*`(?:, )?)+)")


class Kind(Enum):
    REFUSED = "refused"
    PROVED = "proved"
    UNSETTLED = "unsettled"
    NONE = "no verdict"


@dataclass(frozen=True)
class Verdict:
    kind: Kind
    reason: str


@dataclass(frozen=True)
class Error:
    """What antt refuses in a proof file: where, and what it says of it."""

    file: str
    line: int
    text: str

    @property
    def first_line(self) -> str:
        return self.text.split("\n")[0]

    @property
    def is_unfit(self) -> bool:
        return not FAILS.search(self.text) or bool(UNFIT.search(self.first_line))


@dataclass
class Trial:
    """A wrong body, and the answers that were taken out so far: by file and name, each with the error."""

    edit: Edit
    taken: dict[tuple[str, str], Taken] = field(default_factory=dict)

    @property
    def function(self) -> Function | None:
        return self.edit.function

    @property
    def files(self) -> set[str]:
        return {file for file, _ in self.taken}

    def names_in(self, file: str) -> set[str]:
        return {name for other, name in self.taken if other == file}


class Told:
    """What a check tells, by lines."""

    def __init__(self, crate: str, output: str) -> None:
        self.output = output
        self.said = dict(re.findall(rf"(?m)^fn {crate}::(\S+): (.*)$", output))
        found = re.findall(r"(?m)^\./(proofs/\S+?):(\d+):\d+: error: (.*(?:\n  .*)*)", output)
        self.errors = [Error(file, int(line), text) for file, line, text in found]

    def blames_others(self, trials: Iterable[Trial]) -> bool:
        """Whether it tells an open goal of a function that has no wrong body: then a proof that several share is at
        fault."""
        own = {trial.function.path_in(self.said) for trial in trials if trial.function}
        others = {path: said for path, said in self.said.items() if path not in own}
        return any(OPEN.search(said) or self.errors_of(path) for path, said in others.items())

    def errors_of(self, path: str) -> list[Error]:
        folder = f"proofs/{path.replace('::', '/')}/"
        return [error for error in self.errors if error.file.startswith(folder)]

    @property
    def last_words(self) -> str:
        """Why there is no verdict."""
        lines = [line for line in self.output.split("\n") if line]
        return next((line for line in lines if NO_VERDICT.search(line)), lines[-1] if lines else "it says nothing")

    def open_goals(self, paths: Iterable[str]) -> Iterator[tuple[str, str]]:
        """The goals that `search` did not prove, of these functions, each with its file of answers."""
        for path in paths:
            unproved = OPEN.search(self.said[path])
            for name in re.findall(r"`([^`]*)`", unproved[1]) if unproved else ():
                yield f"proofs/{path.replace('::', '/')}/Answers.antt", name

    def own(self, trial: Trial, is_alone: bool) -> list[str]:
        """The functions by whose goals the body is judged: its own one, or all where it is tried alone."""
        if is_alone:
            return list(self.said)
        path = trial.function.path_in(self.said) if trial.function else ""
        return [path] if path in self.said else []


@dataclass(frozen=True)
class Taken:
    """Why an answer was taken out, and whether it only didn't fit."""

    reason: str
    is_unfit: bool


# The check didn't settle the body: again with the answers taken out that it found, or with fewer other bodies beside
# it.
AGAIN, UNTOLD = "again", "untold"


def judged(trial: Trial, told: Told, text_of: Callable[[str], str], is_alone: bool) -> Verdict | str:
    """The verdict that a check with the body gives, or what to do next; `text_of` gives a proof file as it was
    checked."""
    paths = told.own(trial, is_alone)
    errors = told.errors if is_alone else [error for path in paths for error in told.errors_of(path)]
    fresh = taken_by(trial, errors, text_of)
    opened = list(told.open_goals(paths))
    plain = plainly_open(trial, fresh, opened, errors, text_of)
    trial.taken.update(fresh)
    if plain:
        return Verdict(Kind.REFUSED, f"`search` did not prove `{plain[0]}`")
    if fresh:
        return AGAIN
    if errors:
        return of_other_errors(trial, errors)
    if opened:
        return of_open_goals(trial, opened)
    is_proved = paths and all(told.said[path] in ("proved", "no holes") for path in paths)
    if is_proved and is_alone:
        return Verdict(Kind.PROVED, "the crate is proved with it")
    return UNTOLD


def of_other_errors(trial: Trial, errors: list[Error]) -> Verdict:
    """What errors come to for which no answer can be taken out, as those of lemmas."""
    failed = [error for error in errors if not error.is_unfit] if trial.edit.is_of_definitions else []
    told = (failed or errors)[0]
    kind = Kind.REFUSED if failed else Kind.UNSETTLED
    return Verdict(kind, f"{told.file}:{told.line}: {told.first_line}")


def taken_by(trial: Trial, errors: list[Error], text_of: Callable[[str], str]) -> dict[tuple[str, str], Taken]:
    """The answers that antt refuses, and those that lean on them, each with the reason."""
    taken: dict[tuple[str, str], Taken] = {}
    for error in errors:
        text = text_of(error.file) if error.file.endswith("/Answers.antt") else ""
        at_fault = standing_at(text, error.line)
        is_unfit = error.is_unfit or any(
            trial.edit.recounts(step) for name in at_fault for step in steps_of(text, name)
        )
        for name in leaning_on(text, at_fault):
            earlier = taken.get((error.file, name))
            taken[error.file, name] = Taken(error.first_line, is_unfit or bool(earlier and earlier.is_unfit))
    return taken


def plainly_open(
    trial: Trial,
    fresh: dict[tuple[str, str], Taken],
    opened: list[tuple[str, str]],
    errors: list[Error],
    text_of: Callable[[str], str],
) -> list[str]:
    """The goals that are open and needed no answer in the right body; none where an answer is left over, which may be
    one of theirs."""
    taken = {**trial.taken, **fresh}
    if any("Goals`" in why.reason for why in taken.values()) or any(
        error.file.endswith("/Invariants.antt") for error in errors
    ):
        return []
    plain = [name for file, name in opened if (file, name) not in taken and not has_answer(text_of(file), name)]
    return [name for name in plain if not is_of_new_step(trial, name)]


def is_of_new_step(trial: Trial, name: str) -> bool:
    """Whether the goal asks that a step is safe which the right body may not have: then nobody had to answer it."""
    is_of_contract = name.startswith(("returns", "loop", "invariant"))
    return not is_of_contract and any(trial.edit.recounts(step) for step in name.split("-"))


def of_open_goals(trial: Trial, opened: list[tuple[str, str]]) -> Verdict:
    reasons = [(name, trial.taken.get((file, name))) for file, name in opened]
    failed = [(name, why) for name, why in reasons if why and not why.is_unfit]
    if failed:
        name, why = failed[0]
        return Verdict(Kind.REFUSED, f"`search` did not prove `{name}`, and its answer fails: {why.reason}")
    name, own = reasons[0]
    taken = own or next(iter(trial.taken.values()), None)
    missing = "nothing answers it, as the right body may not have its step"
    cause = f"an answer doesn't fit: {taken.reason}" if taken else missing
    return Verdict(Kind.UNSETTLED, f"`{name}` is open, and {cause}")
