"""What `dnssec_check list --compact` lists, read line by line, and the signed octets of its entries put together."""
import hashlib
import re
from typing import Callable, Dict, Iterable, Iterator, List, Match, NamedTuple, Optional, Tuple

from .entries import Refusal, algorithm_of, is_good_here, octets_of

NUMBER, SMALL, HEX = "[1-9][0-9]{0,9}", "(?:0|[1-9][0-9]{0,4})", "(?:-|[0-9a-f]+)"
LINES = {
    "key": re.compile(rf"key ({NUMBER}) ({SMALL}) ({HEX})"),
    "rrset": re.compile(rf"rrset ({NUMBER}) ({HEX}) ({SMALL}) ([0-9a-f -]+)"),  # what RDATA is, is looked at behind
    "signature": re.compile(rf"signature ({NUMBER}) ({NUMBER}) ({HEX}) ({HEX})"),
    "todo": re.compile(rf"todo ({NUMBER}) ({NUMBER}) ({NUMBER}) ({NUMBER})"),
}
SHAPES = {
    "key": "key K ALG KEY",
    "rrset": "rrset R OWNER TYPE RDATA ..",
    "signature": "signature R S FRONT SIGNATURE",
    "todo": "todo N K R S",
}
STAGES = {"key": 0, "rrset": 1, "signature": 1, "todo": 2}  # the order in which lines come
ASTERISK = b"\1*"
UINT16 = 0xFFFF
# Where the RDATA of an RRSIG record has the number of labels and the original TTL, and how much it has before the
# signature at least (RFC 4034 3.1).
LABELS, TTL, FRONT_LEAST = 3, slice(4, 8), 19


class Key(NamedTuple):
    algorithm: int
    octets: bytes
    text: str  # its line without the number, as those below


class Rrset(NamedTuple):
    owner: bytes
    labels: List[bytes]  # of the owner
    kind: int
    rdata: List[bytes]
    digest: bytes  # of its text


class Signature(NamedTuple):
    front: bytes  # the RDATA before it
    octets: bytes
    text: str


class Entry(NamedTuple):
    """An entry of the list: a signature of an RRset by a key."""

    place: str
    key: Key
    rrset: Rrset
    signature: Signature

    @property
    def digest(self) -> bytes:
        """The same for all entries of what is verified alike, in whichever list."""
        texts = f"{self.key.text} {self.signature.text} ".encode("ascii")
        return hashlib.sha256(texts + self.rrset.digest).digest()

    def data(self) -> bytes:
        """The signed octets."""
        return signed_octets(self.rrset, self.signature.front)

    def is_good(self) -> bool:
        """Whether the signature is good; Lacking where it can't be told here."""
        return is_good_here(self.key.algorithm, self.key.octets, self.data(), self.signature.octets)


def signed_octets(rrset: Rrset, front: bytes) -> bytes:
    """What a signature signs (RFC 4034 3.1.8.1). The owner is that of the RRset, or the wildcard from which it was
    expanded, by the labels that are left of it (RFC 4035 5.3.2)."""
    owner = rrset.owner
    if front[LABELS] < counted(rrset.labels):
        owner = ASTERISK + b"".join(rrset.labels[len(rrset.labels) - front[LABELS] :]) + b"\0"
    head = owner + rrset.kind.to_bytes(2, "big") + b"\0\1" + front[TTL]
    return front + b"".join([head + len(each).to_bytes(2, "big") + each for each in rrset.rdata])


def labels_of(name: bytes) -> List[bytes]:
    """The labels of a name in wire form, each behind its length, without the root; ValueError where it's no name."""
    labels, place = [], 0
    while place < len(name) and 0 < name[place] < 64:
        labels.append(name[place : place + 1 + name[place]])
        place += 1 + name[place]
    if name[place:] != b"\0" or len(name) > 255:
        raise ValueError("a name isn't whole")
    return labels


def counted(labels: List[bytes]) -> int:
    """How many of an owner's labels a signature counts (RFC 4034 3.1.3)."""
    return len(labels) - (labels[:1] == [ASTERISK])


def text_from(match: Match[str], first: int) -> str:
    """The fields of a line from the first on."""
    return match.string[match.start(first) :]


def pairs_of(field: str) -> bytes:
    if len(field) % 2 and field != "-":
        raise ValueError("a digit of hex without its pair")
    return octets_of(field)


def rdata_of(fields: List[str]) -> List[bytes]:
    if any("-" in field[1:] or not field or field[0] == "-" != field for field in fields):
        raise ValueError(no_line("rrset"))
    rdata = list(map(pairs_of, fields))
    if any(len(each) > UINT16 for each in rdata):
        raise ValueError("RDATA that no record has")
    return rdata


def no_line(word: str) -> str:
    shapes = [SHAPES[word]] if word in SHAPES else SHAPES.values()
    return "no line " + ", ".join(f"`{shape}`" for shape in shapes)


class Compact:
    """The lines of a compact list. What isn't one is told by a ValueError."""

    def __init__(self, place_of: Callable[[int], str]) -> None:
        self.place_of, self.line = place_of, 0
        self.keys: List[Key] = []
        self.rrsets: Dict[int, Rrset] = {}
        self.signatures: Dict[Tuple[int, int], Signature] = {}
        self.stage, self.count = 0, 0
        self.last = 0, 0  # the RRset and the signature that came last
        self.kept_by = {"key": self.keep_key, "rrset": self.keep_rrset, "signature": self.keep_signature}

    @property
    def place(self) -> str:
        """That of the line that came last."""
        return self.place_of(self.line)

    def take(self, line: str) -> Optional[Entry]:
        """Keeps what a line has, or answers its entry."""
        self.line += 1
        word = line.partition(" ")[0]
        match = LINES[word].fullmatch(line) if word in LINES else None
        if match is None:
            raise ValueError(no_line(word))
        if STAGES[word] < self.stage:
            raise ValueError(f"a line `{word}` behind those that it has to come before")
        self.stage = STAGES[word]
        if word == "todo":
            return self.entry(*map(int, match.groups()))
        self.kept_by[word](match)
        return None

    def keep_key(self, match: Match[str]) -> None:
        if int(match[1]) != len(self.keys) + 1:
            raise ValueError(f"key {match[1]} in place of {len(self.keys) + 1}")
        self.keys.append(Key(algorithm_of(match[2]), pairs_of(match[3]), text_from(match, 2)))

    def keep_rrset(self, match: Match[str]) -> None:
        number, owner, kind = int(match[1]), pairs_of(match[2]), int(match[3])
        if number <= self.last[0]:
            raise ValueError(f"RRset {number} behind {self.last[0]}")
        if kind > UINT16:
            raise ValueError("a type that no record has")
        self.last = number, 0
        digest = hashlib.sha256(text_from(match, 2).encode("ascii")).digest()
        self.rrsets[number] = Rrset(owner, labels_of(owner), kind, rdata_of(match[4].split(" ")), digest)

    def keep_signature(self, match: Match[str]) -> None:
        number, front = (int(match[1]), int(match[2])), pairs_of(match[3])
        if number[0] != self.last[0] or number <= self.last:
            raise ValueError(
                f"signature {match[1]} {match[2]} behind RRset {self.last[0]} and signature {self.last[1]}"
            )
        if len(front) < FRONT_LEAST:
            raise ValueError("too few octets before a signature")
        if front[LABELS] > counted(self.rrsets[number[0]].labels):
            raise ValueError("a signature that counts more labels than its owner has")
        self.last = number
        self.signatures[number] = Signature(front, pairs_of(match[4]), text_from(match, 3))

    def entry(self, number: int, key: int, rrset: int, signature: int) -> Entry:
        self.count += 1
        if number != self.count:
            raise ValueError(f"entry {number} in place of {self.count}")
        if key > len(self.keys):
            raise ValueError(f"there is no key {key}")
        if (rrset, signature) not in self.signatures:
            raise ValueError(f"there is no signature {rrset} {signature}")
        return Entry(self.place, self.keys[key - 1], self.rrsets[rrset], self.signatures[rrset, signature])


def entries_of(lines: Iterable[str], place_of: Callable[[int], str]) -> Iterator[Entry]:
    """The entries of a compact list, in its order, by which each is told where its line stands. Refusal of the first
    line that isn't of such a list."""
    compact = Compact(place_of)
    for line in lines:
        try:
            entry = compact.take(line)
        except ValueError as why:
            raise Refusal(f"{compact.place}: {why}") from why
        if entry:
            yield entry


def digest_of_capture(octets: bytes) -> str:
    """As `sha256sum` prints it."""
    return hashlib.sha256(octets).hexdigest()


def heading(digest: str, *moments: int) -> str:
    """The first line of a file of answers: those to the list of the capture with this digest, at this moment, or for
    the range from one to another."""
    return " ".join(["of", digest, *map(str, moments)]) + "\n"
