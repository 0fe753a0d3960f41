"""What has to be verified of a capture, answered entry by entry of its compact list, within the budget."""
import contextlib
from typing import Dict, Iterable, Iterator, List, NamedTuple, Set

from ..listed import Listed
from ..program import LIST, NAME, Program, Unlisted, refuse_unlisted
from ..verifying.compact import Entry, digest_of_capture, entries_of, heading
from ..verifying.entries import Lacking, Refusal
from ..verifying.verifier import OPEN, Budget, Kept, Spent, Verifier

ANSWERS = "answers"
KEPT = Kept()  # for all captures that a process judges


class Answered(NamedTuple):
    """A file of answers, and how many entries it leaves open."""

    octets: bytes
    left: int


class Verified(NamedTuple):
    """The files of answers of a capture, by moment, and why signatures aren't verified. Where not all is listed at a
    moment, no entry can be answered by its number."""

    by_moment: Dict[int, Answered]
    notes: List[str]


class Answers:
    """The answers to entries, and why some are left open."""

    def __init__(self, budget: Budget, kept: Kept) -> None:
        self.verifier = Verifier(budget.seconds, kept)
        self.left: Set[bytes] = set()
        self.reasons: Dict[str, int] = {}

    def to(self, entries: Iterable[Entry]) -> Iterator[str]:
        """That to each entry. What is left open at several moments counts once."""
        for entry in entries:
            try:
                yield self.verifier.answer_to(entry)
            except (Lacking, Spent) as why:
                if entry.digest not in self.left:
                    self.left.add(entry.digest)
                    self.reasons[str(why)] = self.reasons.get(str(why), 0) + 1
                yield OPEN

    def to_all(self, listed: Listed) -> List[str]:
        """Those to what is listed. Unlisted where the program failed, or lists what it never does."""
        try:
            with contextlib.closing(listed.lines()) as lines:
                said = list(self.to(entries_of(lines, line_of_list)))
        except Refusal as why:
            raise Unlisted(f"- {why}") from why
        if not listed.is_cut:
            refuse_unlisted(listed)
        return said

    def notes(self) -> List[str]:
        return [f"{count} signatures aren't verified: {why}" for why, count in self.reasons.items()]


def answers_on(
    octets: bytes, capture: int, moments: List[int], budget: Budget, program: Program, kept: Kept = KEPT
) -> Verified:
    """The answers on a capture, which is an open file too. Unlisted where the program failed."""
    answers, notes = Answers(budget, kept), []
    found: Dict[int, Answered] = {}
    digest = digest_of_capture(octets)
    for moment in moments:
        listed = program.listed(capture, moment, budget.octets)
        said = answers.to_all(listed)
        if listed.is_cut:
            notes.append(cut_note(budget, listed.octets))
            break
        if listed.status == 0:
            found[moment] = answered(heading(digest, moment), said)
    return Verified(found, answers.notes() + notes)


def line_of_list(number: int) -> str:
    return f"{NAME} {LIST}: line {number}"


def answered(front: str, said: List[str]) -> Answered:
    return Answered((front + "".join(f"{each}\n" for each in said)).encode(), said.count(OPEN))


def cut_note(budget: Budget, read: int) -> str:
    return (
        f"more is listed to be verified than the {budget.octets:,} octets of the budget: the program was ended behind "
        f"{read:,} of them, and none of it is verified; --budget-octets OCTETS gives more"
    )
