"""The chain of trust as boxes and edges: what a picture of an explanation has, whoever draws it."""
from typing import Any, Dict, List, NamedTuple, Optional, Sequence, Set, Tuple

from .explanation import Explanation, Line
from .keys import SEP, key_lines
from .values import DNSKEY, DS, digest_name, flag_names, owned

# How a box or an edge stands: it holds; it fails; it isn't there; it follows from what fails; or it just is. An edge
# may only say what stands under what.
HOLDS, FAILS, MISSING, FOLLOWS, PLAIN, UNDER = "holds", "fails", "missing", "follows", "plain", "under"
# Of several that are said of one, the first of these counts.
FROM_WORST = (FAILS, MISSING, HOLDS, PLAIN, FOLLOWS, UNDER)

Key = Tuple[Any, ...]
Sight = Tuple[Any, ...]  # by which boxes are told apart

# What stands beside an edge, in place of the program's word.
SHORT = {
    "algorithm": "algorithm not supported",
    "bad": "bad",
    "delegation": "a delegation",
    "digest-differs": "another digest",
    "digest-ignored": "a stronger digest counts",
    "digest-type": "digest type not supported",
    "dname": "DNAME, not followed",
    "expanded": "from a wildcard",
    "key-algorithm": "of another algorithm",
    "key-missing": "no such key",
    "key-untrusted": "key not trusted",
    "labels": "more labels than the name",
    "no-closer": "not proved: no",
    "not-self-signed": "doesn't sign the keys",
    "not-zone-key": "no zone key",
    "nsec3-iterations": "too many iterations",
    "nsec3-unusable": "not usable",
    "signer": "of a zone that can't sign it",
    "type-held": "has the type",
    "unanswered": "not verified",
}
# What a record says of a name in a denial.
RELATIONS = {
    "apex": "it is the zone itself",
    "matched": "is at it",
    "exists": "it is there",
    "covered": "it isn't there",
    "non-terminal": "only names below it",
    "opt-out": "may be unsigned (Opt-Out)",
}
# What stands in the box of what isn't there.
ABSENT = {
    "no-anchor": "no trust anchor",
    "dnskey-missing": "no DNSKEY",
    "ds-missing": "no DS",
    "answer-missing": "no answer",
    "denial-unproved": "no proof",
    "ds-unproved": "no proof that it is unsigned",
    "not-vouched": "no DS or anchor that fits",
}
# What a box is besides: a trust anchor, or a key that is said to be a zone's entry point.
QUESTION: Key = ("question",)
ANCHOR, ENTRY = "anchor", "entry"
# What a capture may have several times.
COPIED = ("rrset", "ds", "record")


class Box(NamedTuple):
    """`zone` is the name of the frame that it stands in, None for what stands in none; `lines` is its text."""

    key: Key
    zone: Optional[str]
    lines: Tuple[str, ...]
    state: str
    mark: str = ""
    copies: int = 1

    def all_lines(self) -> Tuple[str, ...]:
        return (*self.lines, *([f"{self.copies} copies"] if self.copies > 1 else []))


class Edge(NamedTuple):
    tail: Key
    head: Key
    state: str
    text: str


class Chain:
    """Boxes by their keys, in the order in which they are said, and edges between them; copies that don't stand alike
    are told apart."""

    def __init__(self, told: Explanation) -> None:
        self.told = told
        self.boxes: Dict[Key, Box] = {}
        self.edges: Dict[Tuple[Key, Key, str], Edge] = {}

    def add(self, key: Key, zone: Optional[str], lines: Sequence[str], state: str, mark: str = "") -> Key:
        """A box; of one that is there only the state may change, and what is longer to say."""
        old = self.boxes.get(key)
        if old is not None:
            state = min(old.state, state, key=FROM_WORST.index)
            zone, lines = old.zone, max(old.lines, tuple(lines), key=len)
        self.boxes[key] = Box(key, zone, tuple(lines), state, mark)
        return key

    def join(self, tail: Key, head: Key, state: str, text: str = "") -> None:
        """An edge; of two between the same boxes with the same text the worse one stays."""
        old = self.edges.get((tail, head, text))
        if old is not None:
            state = min(old.state, state, key=FROM_WORST.index)
        self.edges[tail, head, text] = Edge(tail, head, state, text)

    def with_copies_together(self) -> "Chain":
        """The chain with one box for RRsets that are copies of each other: they say the same and stand the same, and
        edges of the same kind come from the same boxes and lead to the same."""
        sights = self.sights()
        groups: Dict[Sight, List[Box]] = {}
        for box in self.boxes.values():
            groups.setdefault(sights[box.key], []).append(box)
        if len(groups) == len(self.boxes):
            return self
        first = {box.key: boxes[0].key for boxes in groups.values() for box in boxes}
        chain = Chain(self.told)
        for boxes in groups.values():
            chain.boxes[boxes[0].key] = boxes[0]._replace(copies=sum(box.copies for box in boxes))
        for edge in self.edges.values():
            chain.join(first[edge.tail], first[edge.head], edge.state, edge.text)
        return chain.with_copies_together()

    def sights(self) -> Dict[Key, Sight]:
        """What is seen of each box; of what is no copy of an RRset or of its record, the box itself."""
        seen: Dict[Key, Set[Key]] = {key: set() for key in self.boxes}
        for each in self.edges.values():
            if each.state == UNDER:
                continue
            seen[each.head].add(("from", each.tail, each.state, each.text))
            seen[each.tail].add(("to", each.head, each.state, each.text))
        return {box.key: self.sight_of(box, seen[box.key]) for box in self.boxes.values()}

    @staticmethod
    def sight_of(box: Box, edges: Set[Key]) -> Sight:
        return (box.key[0], *box[1:4], frozenset(edges)) if box.key[0] in COPIED else (box.key,)

    @property
    def broken(self) -> Optional[Key]:
        """The first box of what fails, or isn't there; None where all is as it has to be. The question is no break."""
        breaks = (box.key for box in self.boxes.values() if box.state in (FAILS, MISSING) and box.key != QUESTION)
        return next(breaks, None)

    def zones(self) -> Dict[str, List[Box]]:
        """The frames, each with its boxes."""
        frames: Dict[str, List[Box]] = {}
        for box in self.boxes.values():
            if box.zone is not None:
                frames.setdefault(box.zone, []).append(box)
        return frames


def key_box(chain: Chain, zone: str, line: Line, state: str) -> Key:
    """The box of a key, by its tag and algorithm, with its flags where they are known."""
    keys = chain.told.keys
    key, is_zone_key = keys.known_key(zone, line), keys.lack(zone, line) is None
    flags = key.flags if key else line.get("flags")
    lines = (*key_lines(line["tag"], line["algorithm"], key), *([flag_names(flags)] if flags is not None else []))
    mark = ENTRY if flags is not None and flags & SEP and is_zone_key else ""
    about = ("key", zone, line["tag"], line["algorithm"], keys.is_beside_signer(line))
    return chain.add(about, zone, (*lines, *(() if is_zone_key else ("no zone key",))), state, mark)


def anchor_box(chain: Chain, number: int, zone: str, state: str, digest: Optional[int] = None) -> Key:
    lines = (f"anchor {number}", zone) + ((digest_name(digest),) if digest is not None else ())
    return chain.add(("anchor", number), None, lines, state, ANCHOR)


def ds_box(
    chain: Chain,
    signers: Dict[int, str],
    place: Tuple[int, int],
    zone: str,
    state: str,
    line: Optional[Line] = None,
    behind: Sequence[str] = (),
) -> Key:
    """The box of a DS record, in the frame of the zone that signs its RRset."""
    rrset, record = place
    lines: Tuple[str, ...] = owned(zone, DS), f"record {record}"
    if line is not None:
        lines += (f"key {line['tag']}", digest_name(line["digest_type"]))
    return chain.add(("ds", rrset, record), signers.get(rrset), (*lines, *behind), state)


def rrset_box(
    chain: Chain, zone: Optional[str], number: int, owner: str, kind: int, state: str, lines: Sequence[str] = ()
) -> Key:
    messages = chain.told.copies.messages_of((owner, kind), number)
    return chain.add(("rrset", number), zone, (owned(owner, kind), *([messages] if messages else []), *lines), state)


def keys_box(chain: Chain, zone: str, number: int, state: str) -> Key:
    return rrset_box(chain, zone, number, zone, DNSKEY, state)
