"""A capture judged: verified once, and asked each question at each moment. All that it reads is octets."""
import contextlib
import itertools
import json
from typing import Dict, List, NamedTuple, Optional, Tuple, Union

from ..asked import Time
from ..asking.questions import Question, Questions
from ..capturing.frames import frames_of
from ..explaining.explanation import Explanation
from ..explaining.keys import Keys
from ..explaining.replies import Reply
from ..explaining.sentences import FAILING
from ..odd.found import Oddities, Wish
from ..odd.kinds import Odd
from ..program import EXPLAIN, FAILED, ODD, PENDING, SECURE, Json, Program, Told, Unlisted
from ..started import nameless
from ..timelines.pieces import Stretch
from ..timelines.spans import Wish as Span
from ..verifying.verifier import Budget

from .answers import ANSWERS, Answered, answers_on
from .every import NOTHING, every_question, has_too_many
from .evidence import Evidence, keys_of
from .replies import replies_of

DENYING = {47: "NSEC", 50: "NSEC3"}
Signers = Dict[Tuple[int, int], Tuple[str, int]]  # the signer and the key tag, by RRset and signature
HOLDS = "holds"  # all that is said of what is secure, but on a page: rows of many questions are to fit into memory


class Common(NamedTuple):
    """What is the same for all captures; `anchors` has octets by moment, of those too that lie the skew around. A page
    wants explanations whole."""

    anchors: Dict[int, bytes]
    keys: Optional[bytes]
    macs: Optional[bytes]
    moments: List[int]
    budget: Budget = Budget()
    is_page: bool = False
    skew: int = 0
    wish: Optional[Wish] = None  # what is odd, where that is to be looked for
    span: Optional[Span] = None  # where timelines are asked for; the one moment is then the one that is now


class Row(NamedTuple):
    """A verdict: its word, what carries it by name, and the object that says why, None where there is none; where it
    isn't secure, with how the messages of the capture answer what was asked. Without a question it's what is told of
    the capture as a whole."""

    moment: int
    question: Optional[Question]
    status: int
    word: str
    evidence: Json
    explained: Optional[Json]
    replies: Optional[Tuple[Reply, ...]] = None
    keys: Optional[Keys] = None
    odd: Optional[Tuple[Odd, ...]] = None  # None where nobody looked
    is_failing: bool = False  # for something odd, though it's secure
    stretch: Optional[Stretch] = None  # of a timeline: the moment is the first of those that have the verdict

    def told(self) -> Optional[Explanation]:
        return Explanation(self.explained, self.replies, self.keys) if self.explained else None

    @property
    def ending(self) -> int:
        """The exit status of the verdict."""
        return ODD if self.is_failing and self.status == SECURE else self.status


class Judged(NamedTuple):
    """The verdicts of a capture, and why signatures could not be verified."""

    rows: List[Row]
    notes: List[str]


class Prepared(NamedTuple):
    """A capture whose signatures are verified and whose questions aren't asked yet."""

    octets: bytes
    asked: List[Question]
    answers: Dict[int, Answered]
    notes: List[str]


def judged(octets: bytes, questions: Questions, common: Common, program: Program) -> Judged:
    """The verdicts on the questions, by moment."""
    view = View(octets, common.is_page, common.wish)
    asked = view.every_question() if questions is None else questions
    with contextlib.ExitStack() as stack:
        files = opened(stack, octets, common)
        try:
            verified = answers_on(octets, files["capture"], common.moments, common.budget, program)
        except Unlisted as fault:
            return without_verdicts(questions, common, of_fault(fault.said))
        rows = Rows(view, files, verified.by_moment, common, program).of(asked or [NOTHING])
    return Judged(joined(rows, questions is None, bool(asked)), verified.notes)


def prepared(octets: bytes, asked: List[Question], common: Common, program: Program) -> Union[Prepared, Judged]:
    """The capture, to be asked by several processes; where the program fails, the rows that say so."""
    with contextlib.ExitStack() as stack:
        files = opened(stack, octets, common)
        try:
            verified = answers_on(octets, files["capture"], common.moments, common.budget, program)
        except Unlisted as fault:
            return without_verdicts(asked, common, of_fault(fault.said))
    return Prepared(octets, asked, verified.by_moment, verified.notes)


def share_rows(capture: Prepared, common: Common, program: Program) -> List[List[Row]]:
    """The rows of a capture that is prepared, of each moment."""
    with contextlib.ExitStack() as stack:
        files = opened(stack, capture.octets, common)
        view = View(capture.octets, common.is_page, common.wish)
        rows = Rows(view, files, capture.answers, common, program).of(capture.asked)
    return rows


def opened(stack: contextlib.ExitStack, octets: bytes, common: Common) -> Dict[str, int]:
    """What all runs of the program read, by the options that name it."""
    given = {"capture": octets, "macs": common.macs, "keys": common.keys}
    there = {name: content for name, content in given.items() if content is not None}
    return {name: stack.enter_context(nameless(content)).fileno() for name, content in there.items()}


class Rows(NamedTuple):
    """The rows of a capture: what its records say, the files that are open, and the answers of each moment."""

    view: "View"
    files: Dict[str, int]
    answers: Dict[int, Answered]
    common: Common
    program: Program

    def of(self, asked: List[Question]) -> List[List[Row]]:
        """Those of each moment."""
        left = Time(self.common.budget.questions)
        return [self.at(moment, asked, left) for moment in self.common.moments]

    def at(self, moment: int, asked: List[Question], left: Time) -> List[Row]:
        answered = self.answers.get(moment)
        with contextlib.ExitStack() as stack:
            given = {**self.files, "anchors": stack.enter_context(nameless(self.common.anchors[moment])).fileno()}
            if answered:
                given[ANSWERS] = stack.enter_context(nameless(answered.octets)).fileno()
            told = self.program.told(EXPLAIN, given, moment, asked, left, self.common.budget.octets)
            rows = [self.view.row(moment, question, with_left(each, answered)) for each, question in zip(told, asked)]
        return rows


def with_left(told: Told, answered: Optional[Answered]) -> Told:
    """What is told of a question, and where its verdict hangs on them how many entries are left open: the program
    doesn't list again what answers leave open by number."""
    if answered and told.value and told.status == PENDING:
        told.value.setdefault("todo", [None] * answered.left)
    return told


def joined(by_moment: List[List[Row]], is_of_all: bool, is_asked: bool) -> List[Row]:
    """The rows of all moments; of all that a capture has, what is refused of it as a whole is one."""
    rows = [as_one(each, is_asked) for each in by_moment] if is_of_all else by_moment
    return list(itertools.chain.from_iterable(rows))


def as_one(rows: List[Row], is_asked: bool) -> List[Row]:
    """The rows of what a capture has; what is refused of all of them, and so of the capture, in one. Where nothing was
    to be asked for, no verdict counts."""
    said = {(row.status, row.word, json.dumps(row.evidence)) for row in rows if row.explained is None}
    if len(said) == 1 and all(row.explained is None for row in rows):
        return [rows[0]._replace(question=None)]
    return rows if is_asked else []


class View:
    """What the records of a capture say of verdicts."""

    def __init__(self, octets: bytes, is_whole: bool = False, wish: Optional[Wish] = None) -> None:
        self.octets, self.is_whole = octets, is_whole
        self.oddities = Oddities(wish) if wish else None
        self.kept: Optional[Evidence] = None
        self.kept_replies: Optional[Tuple[Reply, ...]] = None
        self.kept_keys: Optional[Keys] = None

    @property
    def evidence(self) -> Evidence:
        """Read where a verdict needs it."""
        if self.kept is None:
            self.kept = Evidence(self.octets)
        return self.kept

    def every_question(self) -> List[Question]:
        """All that the capture can be asked; nothing where it's refused, however much it has."""
        return [] if has_too_many(self.octets) else every_question(self.evidence)

    @property
    def replies(self) -> Tuple[Reply, ...]:
        """Read where a verdict fails."""
        if self.kept_replies is None:
            self.kept_replies = replies_of(frames_of(self.octets)[0])
        return self.kept_replies

    @property
    def keys(self) -> Keys:
        """Read where a verdict fails, or a page has a picture."""
        if self.kept_keys is None:
            self.kept_keys = keys_of(self.evidence)
        return self.kept_keys

    def row(self, moment: int, question: Question, told: Told) -> Row:
        if told.value is None:
            return Row(moment, question, told.status, told.word, of_fault(told.said), None)
        evidence = self.evidence_with_aliases(told.value, signers_of(told.value))
        odd = self.oddities.of(lambda: self.evidence, Explanation(told.value)) if self.oddities else None
        if told.status == SECURE and not self.is_whole:
            told.value["why"] = [line for line in told.value["why"] if line["line"] == HOLDS]
        replies = self.replies if told.word in FAILING else None
        keys = self.keys if self.is_whole or told.word in FAILING else None
        is_failing = bool(self.oddities and self.oddities.is_failing(odd or ()))
        return Row(moment, question, told.status, told.word, evidence, told.value, replies, keys, odd, is_failing)

    def evidence_with_aliases(self, value: Json, signers: Signers) -> Json:
        aliases = [self.of_alias(each, signers) for each in value["aliases"]]
        return {**({"aliases": aliases} if aliases else {}), **self.evidence_of(value, signers)}

    def evidence_of(self, value: Json, signers: Signers) -> Json:
        """What carries the verdict, besides the aliases."""
        if "rrset" in value:
            return self.of_signature(value["rrset"], value["signature"], signers)
        if "records" in value:
            return {"records": [[each["owner"], DENYING.get(each["type"], each["type"])] for each in value["records"]]}
        if "cut" in value:
            return {"cut": value["cut"]}
        return {"todo": len(value["todo"])} if "todo" in value else {}

    def of_signature(self, rrset: int, signature: int, signers: Signers) -> Json:
        """The numbers, and who signed: by the lines that say why, else by the capture, which then has to be read."""
        found: Json = {"rrset": rrset, "signature": signature}
        signed = signers.get((rrset, signature)) or self.evidence.signature(rrset, signature)
        return {**found, "signer": signed[0], "key": signed[1]} if signed else found

    def of_alias(self, alias: Json, signers: Signers) -> Json:
        """The same, between the name and its target."""
        target = self.evidence.target(alias["rrset"])
        found = {"name": alias["name"], **self.of_signature(alias["rrset"], alias["signature"], signers)}
        return {**found, "target": target} if target else found


def signers_of(value: Json) -> Signers:
    """Who signed what, by the lines of what holds."""
    lines = [line for line in value["why"] if line["line"] in ("signed", "trusted")]
    return {(line["rrset"], line["signature"]): (line.get("signer") or line["zone"], line["tag"]) for line in lines}


def without_verdicts(questions: Questions, common: Common, evidence: Json) -> Judged:
    """The rows of a capture that a fault, which the evidence tells, leaves without verdicts."""
    row = Row(0, None, FAILED, "fault", evidence, None)
    asked = [row] if questions is None else [row._replace(question=each) for each in questions]
    return Judged([each._replace(moment=moment) for moment in common.moments for each in asked], [])


def of_fault(line: str) -> Json:
    """The number of what is refused or failed, and where: `message`, `record`, `line` or `file`."""
    number, *words = line.split(" ")
    if not number.isdigit():
        return {"said": line.lstrip("- ")}
    found: Json = {"number": int(number)}
    if len(words) == 1:
        return {**found, "file": words[0]}
    return {**found, **{name: int(value) if value.isdigit() else value for name, value in zip(words[::2], words[1::2])}}
