"""What is said of a question: its verdict, what carries that, and why it stands or fails."""
import json
from dataclasses import dataclass
from typing import Any, Dict, List, NamedTuple, Optional, Tuple

Json = Dict[str, Any]
SECURE = ("SecureAnswer", "SecureNoName", "SecureNoData")


class Alias(NamedTuple):
    """An alias on the way from the question's name, by its RRset and the signature that carries it."""

    name: str
    rrset: int
    signature: int


class Denying(NamedTuple):
    """A record that denies."""

    owner: str
    type: int


class Unverified(NamedTuple):
    """A signature that is still to be verified: by the key, over the data."""

    algorithm: int
    key: bytes
    data: bytes
    signature: bytes


class Interval(NamedTuple):
    """From the first moment to the last at which a verdict holds, so far as that is a matter of signatures' times."""

    first: int
    last: int


@dataclass(frozen=True)
class Verdict:
    """What the evidence proves of a question at a moment.

    `rrset` and `signature` are those of a secure answer, `records` those that deny, `cut` the name from which on
    nothing may be signed, `todo` what the verdict depends on. A question that is refused by itself has no verdict and
    the number `refused`. `why` has the lines of an explanation, each as `line` of docs/schema.json has it. Where none
    was asked for it is None, and `reasons`, `holds` and `rrsets` are empty.
    """

    name: str
    type: int
    moment: int
    verdict: Optional[str]
    status: int
    aliases: Tuple[Alias, ...] = ()
    rrset: Optional[int] = None
    signature: Optional[int] = None
    records: Tuple[Denying, ...] = ()
    cut: Optional[str] = None
    todo: Tuple[Unverified, ...] = ()
    refused: Optional[int] = None
    why: Optional[Tuple[Json, ...]] = None

    @property
    def is_secure(self) -> bool:
        return self.verdict in SECURE

    @property
    def reasons(self) -> List[Json]:
        """Of an explanation, what has to be mended at least so that the question is answered or denied. Each is a line
        `reason` of docs/schema.json, with its `word`, its extended DNS error `ede`, and what it speaks of.

        >>> said = {"line": "reason", "word": "no-anchor", "ede": 5, "zone": "a."}
        >>> [(each["word"], each["zone"]) for each in Verdict("a.", 1, 0, "Indeterminate", 6, why=(said,)).reasons]
        [('no-anchor', 'a.')]
        """
        return self._lines("reason")

    @property
    def holds(self) -> List[Interval]:
        """Of an explanation, from when to when the verdict holds.

        >>> Verdict("a.", 1, 4, "SecureAnswer", 0, why=({"line": "holds", "from": 3, "to": 9},)).holds
        [Interval(first=3, last=9)]
        """
        return [Interval(line["from"], line["to"]) for line in self._lines("holds")]

    @property
    def rrsets(self) -> List[Json]:
        """Of an explanation, where the RRsets stand that it names: each is a line `rrset` of docs/schema.json."""
        return self._lines("rrset")

    def _lines(self, word: str) -> List[Json]:
        return [line for line in self.why or () if line["line"] == word]


def verdict_of(line: bytes) -> Verdict:
    """What an object of the program's JSON says.

    >>> said = b'{"command":"check","name":"a.","type":1,"moment":0,"verdict":"Bogus","status":5,"aliases":[]}'
    >>> found = verdict_of(said)
    >>> found.verdict, found.is_secure, found.todo
    ('Bogus', False, ())
    """
    said: Json = json.loads(line)
    said.setdefault("verdict", None)
    said["aliases"] = tuple(Alias(**known(Alias, each)) for each in said.get("aliases", ()))
    said["records"] = tuple(Denying(**known(Denying, each)) for each in said.get("records", ()))
    said["todo"] = tuple(unverified_of(each) for each in said.get("todo", ()))
    if "why" in said:
        said["why"] = tuple(said["why"])
    return Verdict(**known(Verdict, said))


def known(kind: type, said: Json) -> Json:
    """What the class has a field for; a later version may say more.

    >>> known(Denying, {"owner": "a.", "type": 47, "later": True})
    {'owner': 'a.', 'type': 47}
    """
    return {name: value for name, value in said.items() if name in kind.__annotations__}


def unverified_of(entry: Json) -> Unverified:
    return Unverified(entry["algorithm"], *(bytes.fromhex(entry[field]) for field in ("key", "data", "signature")))
