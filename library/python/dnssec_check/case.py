"""Questions to a capture, judged in process."""
import json
import threading
from typing import Callable, Dict, Iterable, List, Optional, Tuple, Union

from . import calls
from .faults import Misused
from .timelines import Timeline, timeline_of
from .types import type_number
from .verdict import Interval, Json, Unverified, Verdict, unverified_of, verdict_of

Verifier = Callable[[int, bytes, bytes, bytes], Optional[bool]]
Kind = Union[str, int]
Text = Union[bytes, str]


class Case:
    """A capture with trust anchors at a moment, and what is known of its signatures.

    `capture` has DNS messages, each behind its length in two octets, `anchors` lines as the program reads them, and
    `at` is the moment in seconds since 1970. What was verified is told by `statements` or by `answers`, lines as the
    program reads them, or by a `verifier`: it is called with the algorithm, the key, the data and the signature of each
    signature that counts, once, and answers whether that is good, or None where it can't tell. `keys` and `macs` open
    messages that are signed by shared keys (TSIG).

    Threads may share a case: while one asks the verifier, the others wait. A case can be pickled where its verifier
    can.

    The attribute `verifier` is that which was given, and `given` has all else; what the verifier said so far stands in
    `given.statements`, behind those that were given.

    >>> Case(b"", b"", at=0).judge("www.example.com", "A").verdict
    'Indeterminate'
    """

    def __init__(
        self,
        capture: bytes,
        anchors: Text,
        *,
        at: int,
        statements: Optional[Text] = None,
        answers: Optional[Text] = None,
        verifier: Optional[Verifier] = None,
        keys: Optional[Text] = None,
        macs: Optional[Text] = None,
    ) -> None:
        if answers is not None and (statements is not None or verifier is not None):
            raise Misused("answers say all that was verified: they go without statements and a verifier")
        self.verifier = verifier
        self.given = calls.Given(
            bytes(capture),
            octets_of(anchors),
            calls.moment_of(at),
            maybe(statements),
            maybe(keys),
            maybe(macs),
            maybe(answers),
        )
        self._known: Dict[Unverified, Optional[bool]] = {}
        self._is_verified = verifier is None
        self._lock = threading.RLock()

    def __getstate__(self) -> Json:
        """All but the lock, as it is while no thread asks the verifier."""
        with self._lock:
            return {**self.__dict__, "_known": dict(self._known), "_lock": None}

    def __setstate__(self, state: Json) -> None:
        self.__dict__.update(state, _lock=threading.RLock())

    def judge(self, name: str, kind: Kind = "A") -> Verdict:
        """The verdict on a name, which may go without its last dot, and a type: `"AAAA"`, `"TYPE65"` or a number."""
        return self._judged(name, kind, False)

    def explain(self, name: str, kind: Kind = "A") -> Verdict:
        """The same, with why it stands or fails.

        >>> Case(b"", b"", at=0).explain("www.example.com", "A").reasons[0]["word"]
        'no-anchor'
        """
        return self._judged(name, kind, True)

    def judge_all(self, questions: Iterable[Tuple[str, Kind]], *, explain: bool = False) -> List[Verdict]:
        """The verdict on each question, in their order, by `explain` with why it stands or fails. The capture is read
        once for all of them. A name that is none refuses the whole call, by the number of its line: that of the first
        question is 1.

        >>> [each.verdict for each in Case(b"", b"", at=0).judge_all([("www.example.com", "A"), ("#", "AAAA")])]
        ['Indeterminate', 'Indeterminate']
        """
        text = "".join(line_of(absolute(name), type_number(kind)) for name, kind in questions)
        self.verify()
        answer = calls.judged_each(self.given, octets_of(text), calls.JSON, explain)
        return [verdict_of(line) for line in answer.text.splitlines()]

    def timeline(self, name: str, kind: Kind = "A", *, first: int, last: int, kinds: bool = False) -> Timeline:
        """The verdict on a question at each moment from the first to the last, whichever the case is of, and what ends
        or begins where it changes. With `kinds` neighbours of one kind are one interval. The verifier is asked once for
        all moments; answers are those to the list of just this range; and a case with keys has no timeline.

        >>> found = Case(b"", b"", at=0).timeline("www.example.com", "A", first=10, last=19)
        >>> [(each.first, each.last, each.verdict) for each in found]
        [(10, 19, 'Indeterminate')]
        """
        span, asked = Interval(first, last), octets_of(absolute(name))
        self._ask(lambda: self.todo(first=first, last=last))
        detail = calls.KINDS if kinds else calls.WORDS
        return timeline_of(calls.timeline(self.given, span, asked, type_number(kind), detail, calls.JSON).text)

    def todo(self, *, first: Optional[int] = None, last: Optional[int] = None) -> List[Unverified]:
        """The signatures that a verifier still has to check at the moment, or at those from the first to the last; by
        answers nothing is told of these.

        >>> Case(b"", b"", at=0).todo(), Case(b"", b"", at=0).todo(first=10, last=19)
        ([], [])
        """
        if (first is None) != (last is None):
            raise Misused("a range has a first moment and a last one")
        given = self.given._replace(answers=None)
        if first is None or last is None:
            listed = calls.listed(given, calls.OPEN, calls.JSON)
        else:
            listed = calls.listed_range(given, Interval(first, last), calls.OPEN, calls.JSON)
        return [unverified_of(entry) for entry in json_of(listed)["todo"]]

    def verify(self) -> None:
        """Asks the verifier of each signature that counts, and keeps what it says. Judging does so by itself.

        >>> case = Case(b"", b"", at=0, verifier=lambda *entry: None)
        >>> case.verify()
        >>> case.todo()
        []
        """
        with self._lock:
            if not self._is_verified:
                self._ask(self.todo)
                self._is_verified = True

    def _ask(self, todo: Callable[[], List[Unverified]]) -> None:
        """Asks the verifier of those that it wasn't asked of before, and keeps what it says."""
        if self.verifier is None:
            return
        with self._lock:
            fresh = {entry: self.verifier(*entry) for entry in dict.fromkeys(todo()) if entry not in self._known}
            self._known.update(fresh)
            said = "".join(statement_of(entry, is_good) for entry, is_good in fresh.items() if is_good is not None)
            self.given = self.given._replace(statements=lines_of(self.given.statements or b"") + said.encode("ascii"))

    def messages(self) -> str:
        """Every message with its question and records, as the program shows them.

        >>> Case(b"", b"", at=0).messages()
        ''
        """
        return calls.show(self.given.capture).text.decode("ascii")

    def _judged(self, name: str, kind: Kind, why: bool) -> Verdict:
        self.verify()
        asked = octets_of(absolute(name))
        return verdict_of(calls.judged(self.given, asked, type_number(kind), calls.JSON, why).text)


def octets_of(text: Text) -> bytes:
    return text.encode("utf-8") if isinstance(text, str) else bytes(text)


def maybe(text: Optional[Text]) -> Optional[bytes]:
    return None if text is None else octets_of(text)


def lines_of(text: bytes) -> bytes:
    """The text with the end of its last line.

    >>> lines_of(b""), lines_of(b"# none"), lines_of(b"# none\\n")
    (b'', b'# none\\n', b'# none\\n')
    """
    return text if text.endswith(b"\n") or not text else text + b"\n"


def absolute(name: str) -> str:
    """The name with its last dot, which a backslash before it would make an octet of a label. No text is no name.

    >>> absolute("www.example.com"), absolute("example.com."), absolute("a\\\\."), absolute("")
    ('www.example.com.', 'example.com.', 'a\\\\..', '')
    """
    if not name:
        return name
    backslashes = len(name) - 1 - len(name[:-1].rstrip("\\")) if name.endswith(".") else 1
    return name if backslashes % 2 == 0 else name + "."


def line_of(name: str, kind: int) -> str:
    """The line of a question, in which a name that begins with `#` isn't a comment.

    >>> line_of("www.example.com.", 1), line_of("#.", 28)
    ('www.example.com. 1\\n', '\\\\#. 28\\n')
    """
    if "\n" in name:
        raise Misused("a name has an end of a line, which is written `\\010`")
    return ("\\" if name.startswith("#") else "") + f"{name} {kind}\n"


def statement_of(entry: Unverified, is_good: bool) -> str:
    fields = (part.hex() or "-" for part in (entry.key, entry.data, entry.signature))
    return " ".join(["good" if is_good else "bad", str(entry.algorithm), *fields]) + "\n"


def timeline(
    capture: bytes,
    anchors: Text,
    name: str,
    kind: Kind = "A",
    *,
    first: int,
    last: int,
    kinds: bool = False,
    statements: Optional[Text] = None,
    answers: Optional[Text] = None,
    verifier: Optional[Verifier] = None,
) -> Timeline:
    """What a capture proves of a question at each moment from the first to the last, as `Case.timeline` says it.

    >>> timeline(b"", "DS . 1 8 2 " + "00" * 32, "www.example.com", "AAAA", first=10, last=19).at(12).verdict
    'Bogus'
    """
    case = Case(capture, anchors, at=first, statements=statements, answers=answers, verifier=verifier)
    return case.timeline(name, kind, first=first, last=last, kinds=kinds)


def json_of(answer: calls.Answer) -> Json:
    found: Json = json.loads(answer.text)
    return found
