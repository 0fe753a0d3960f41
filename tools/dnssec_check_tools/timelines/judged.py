"""A capture judged at all moments of a range: verified once, asked for the timeline of each question, and at the first
moment of each interval that isn't secure for why."""
import contextlib
from typing import Dict, List, NamedTuple, Optional, Set, Tuple

from ..asked import Time
from ..asking.questions import Question, Questions
from ..judging.answers import ANSWERS, KEPT, Answered, Answers, answered, cut_note
from ..judging.every import NOTHING, has_too_many
from ..judging.work import Common, Judged, Row, Rows, View, as_one, of_fault, opened, without_verdicts
from ..program import SECURE, Files, Program, Told, Unlisted
from ..started import nameless
from ..verifying.compact import digest_of_capture, heading
from .asked import Asking, listed_for
from .carried import next_end
from .pieces import REFUSED, Interval, Stretch, Timeline
from .spans import Range, Wish

Place = Tuple[int, Question]  # an interval by its first moment


class Found(NamedTuple):
    """What is told of a question: its timeline, or what is said in its place."""

    question: Question
    told: Told
    timeline: Optional[Timeline]


def judged(octets: bytes, questions: Questions, common: Common, program: Program) -> Judged:
    """The rows of all questions, one for each interval."""
    view = View(octets)
    asked = view.every_question() if questions is None else questions
    (now,), wish = common.moments, common.span or Wish(None, False)
    with contextlib.ExitStack() as stack:
        files = opened(stack, octets, common)
        files["anchors"] = stack.enter_context(nameless(common.anchors[now])).fileno()
        case = Case(view, files, common, program, span_of(octets, wish, now))
        try:
            verified = case.verified()
        except Unlisted as fault:
            return without_verdicts(questions, common, of_fault(fault.said))
        if verified:
            files[ANSWERS] = stack.enter_context(nameless(verified.octets)).fileno()
        rows = case.rows(asked or [NOTHING], now, wish.is_verbose)
    is_refused = questions is None and all(row.stretch is None for row in rows)
    return Judged(as_one(rows, bool(asked)) if is_refused else rows, case.notes())


def span_of(octets: bytes, wish: Wish, now: int) -> Range:
    """The range of a capture; of one that is refused by its number of records, none of which is read, now alone."""
    return wish.of(b"" if has_too_many(octets) else octets, now)


class Case:
    """A capture with its files, which are open, and the answers to what has to be verified of it."""

    def __init__(self, view: View, files: Files, common: Common, program: Program, span: Range) -> None:
        self.view, self.files, self.common, self.program, self.span = view, files, common, program, span
        self.budget = common.budget
        self.answers = Answers(self.budget, KEPT)
        self.digest = digest_of_capture(view.octets)
        self.is_listed = True  # all that has to be verified
        self.more_notes: List[str] = []

    def verified(self) -> Optional[Answered]:
        """The file of answers to the list of the range; None where not all is listed."""
        listed = listed_for(self.program, self.files["capture"], self.span, self.budget.octets)
        said = self.answers.to_all(listed)
        if listed.is_cut:
            self.is_listed = False
            self.more_notes.append(cut_note(self.budget, listed.octets))
        return answered(heading(self.digest, *self.span), said) if listed.status == 0 else None

    def notes(self) -> List[str]:
        return self.answers.notes() + self.more_notes

    def rows(self, asked: List[Question], now: int, is_verbose: bool) -> List[Row]:
        left = Time(self.budget.questions)
        asking = Asking(self.program, self.files, self.span, left, self.budget.octets)
        found = [found_of(question, asking.told(question)) for question in asked]
        shown = {each.question: each.timeline.shown(is_verbose, self.target) for each in found if each.timeline}
        explained = self.explained(shown, left)
        rows: List[Row] = []
        for each in found:
            if each.timeline is None:
                rows.append(self.view.row(now, each.question, each.told))
                continue
            following = next_end(each.timeline, now, self.view)
            for interval in shown[each.question]:
                row = self.row(each.question, interval, explained.get((interval.first, each.question)))
                stretch = Stretch(interval.last, interval.edges, interval.has(now), None)
                rows.append(row._replace(stretch=stretch._replace(next=following if stretch.has_now else None)))
        return rows

    def target(self, rrset: int) -> Optional[str]:
        """The name that an alias leads to."""
        return self.view.evidence.target(rrset)

    def row(self, question: Question, interval: Interval, why: Optional[Row]) -> Row:
        """That of an interval, by what its first moment is explained by, or where nothing has to be, or could be."""
        if interval.word == REFUSED:
            evidence = of_fault(str(interval.value[REFUSED]))
            return Row(interval.first, question, interval.status, REFUSED, evidence, None)
        if why and (why.word, why.status) == (interval.word, interval.status):
            return why
        evidence = self.view.evidence_with_aliases(interval.value, {})
        return Row(interval.first, question, interval.status, interval.word, evidence, None)

    def explained(self, shown: Dict[Question, List[Interval]], left: Time) -> Dict[Place, Row]:
        """The rows of the first moments that have to be explained, while there is time."""
        wanted: Dict[int, List[Question]] = {}
        for question, intervals in shown.items():
            for each in intervals:
                if each.status != SECURE and each.word != REFUSED:
                    wanted.setdefault(each.first, []).append(question)
        found: Dict[Place, Row] = {}
        late: Set[int] = set()
        for moment, questions in wanted.items():
            if left.left <= 0:
                late.add(moment)
                continue
            for row in self.at(moment, questions, left):
                if row.question:
                    found[moment, row.question] = row
        if late:
            self.more_notes.append(late_note(len(late), left))
        return found

    def at(self, moment: int, questions: List[Question], left: Time) -> List[Row]:
        """What is told of the questions at a moment; what is to be verified there was verified for the range."""
        common = self.common._replace(anchors={moment: next(iter(self.common.anchors.values()))})
        files = {"capture": self.files["capture"]}
        return Rows(self.view, files, self.answers_at(moment, left), common, self.program).at(moment, questions, left)

    def answers_at(self, moment: int, left: Time) -> Dict[int, Answered]:
        """The file of answers to what has to be verified at the moment, which is among what has to be in the range."""
        if not self.is_listed:
            return {}
        listed = self.program.listed(self.files["capture"], moment, self.budget.octets)
        said = self.answers.to_all(listed)
        left.spend(listed.seconds)
        return {moment: answered(heading(self.digest, moment), said)} if listed.status == 0 else {}


def found_of(question: Question, told: Told) -> Found:
    return Found(question, told, Timeline(told.value) if told.value else None)


def late_note(count: int, left: Time) -> str:
    return (
        f"the {left.seconds} seconds for the questions of a capture are over: why nothing is secure isn't said of "
        f"{count} moments; --budget-questions SECONDS gives more"
    )
