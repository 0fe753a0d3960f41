"""The chain of a zone's NSEC or NSEC3 records: which of them speak of a name, by order or by hash, and its gaps."""
import base64
import bisect
from typing import Any, Dict, Iterable, Iterator, List, NamedTuple, Optional, Set, Tuple

from ..capturing.messages import TYPE_NS, TYPE_NSEC, TYPE_NSEC3, Labels, lower, name_text

from .contents import Contents
from .names import WILDCARD, Hashing, above, behind_all_below, is_below, just_behind, order_of, wire_name
from .transfer import Key, kinds_of, only, parsed

# Hashes that are made to find names for the gaps between others, and names that are tried for each gap.
HASHES_MOST, TRIES_MOST = 4_000_000, 64
ITERATIONS_MOST = 500  # of more the program uses no record
# The digits of base32 with extended hex, and those of base32 (RFC 4648 7 and 6).
DIGITS = b"0123456789ABCDEFGHIJKLMNOPQRSTUV", b"ABCDEFGHIJKLMNOPQRSTUVWXYZ234567"
FROM_HEX, TO_HEX = bytes.maketrans(*DIGITS), bytes.maketrans(*DIGITS[::-1])


OPT_OUT = 1  # the flag of an NSEC3 record (RFC 5155 3.1.2.1)


class Gap(NamedTuple):
    """A record of the chain, and a name in its gap, None where none was found; an open one leaves unsigned
    delegations out (Opt-Out, RFC 5155 6)."""

    owner: Labels
    name: Optional[Labels]
    is_open: bool = False


class Chain:
    """The records of a chain in their order: at each place its owner, and what the library reads of it."""

    kind = 0
    lacking = "the zone has no NSEC or NSEC3 records of one kind"  # where it has no record

    def __init__(self, contents: Contents) -> None:
        self.contents = contents
        self.places: List[Any] = []
        self.owners: List[Labels] = []
        self.read: Dict[Labels, Any] = {}

    def keep(self, found: Iterable[Tuple[Any, Labels, Any]]) -> None:
        for place, owner, rdata in sorted(found, key=lambda each: each[:2]):
            self.places.append(place)
            self.owners.append(owner)
            self.read[owner] = rdata

    def place_of(self, name: Labels) -> Any:
        raise NotImplementedError

    def at_or_before(self, name: Labels) -> Labels:
        """The record that is at the name, or whose gap it's in: behind the last one the chain begins anew."""
        return self.owner_at(self.place_of(name))

    def owner_at(self, place: Any) -> Labels:
        return self.owners[bisect.bisect_right(self.places, place) - 1]

    def speaking_of(self, name: Labels) -> Set[Key]:
        """The records that a denial of the name, or of a type at it, may need: of itself, of those above it, and of the
        wildcard at its closest encloser."""
        if not self.owners:
            return set()
        asked = [name, *above(name, self.contents.apex)]
        encloser = next((each for each in asked if each in self.contents.all), name)
        return {(self.at_or_before(each), self.kind) for each in (*asked, (WILDCARD, *encloser))}

    def owner_of(self, name: Labels) -> Optional[Labels]:
        """The owner of the record that is at the name, if there is one."""
        return name

    def kinds_at(self, name: Labels) -> Set[int]:
        """The types that the chain says the name has."""
        owner = self.owner_of(name)
        return set(kinds_of(self.read[owner].windows)) if owner is not None and owner in self.read else set()

    def gaps(self) -> Iterator[Gap]:
        return iter(())

    def unmet(self) -> List[Labels]:
        """Names that a record of the chain names as the next, and the zone hasn't."""
        return []

    def faults(self) -> List[str]:
        """What is wrong with it that no question shows: delegations whose NS records aren't there, since what is below
        an unsigned one may be anything."""
        lost = [name for name in self.contents.all - self.contents.cuts if self.is_delegation(name)]
        return [
            f"the chain has a delegation at {name_text(name)}, and the transfer no NS records" for name in sorted(lost)
        ]

    def is_delegation(self, name: Labels) -> bool:
        kinds = self.kinds_at(name)
        return TYPE_NS in kinds and name != self.contents.apex


class ByOrder(Chain):
    """NSEC records (RFC 4034 4)."""

    kind = TYPE_NSEC

    def __init__(self, contents: Contents) -> None:
        super().__init__(contents)
        owners = [name for name in contents.names if TYPE_NSEC in contents.kinds[name]]
        rdata = [(name, parsed(TYPE_NSEC, only(contents.rrset(name, TYPE_NSEC).rdata) or b"")) for name in owners]
        self.keep((order_of(name), name, each) for name, each in rdata if each)

    def place_of(self, name: Labels) -> Any:
        return order_of(name)

    def following(self, owner: Labels) -> Labels:
        return lower(self.read[owner].next.labels[:-1])

    def gaps(self) -> Iterator[Gap]:
        """Behind each name of the zone, since each has such a record, or lacks it."""
        for owner in self.contents.names:
            is_end = owner in self.contents.ends
            name = behind_all_below(owner) if is_end else just_behind(owner)
            yield Gap(owner, None if name is None or self.is_met(owner, name) else name)

    def is_met(self, owner: Labels, name: Labels) -> bool:
        """Whether the name is there, or by the chain the next one, or there for that."""
        following = self.following(owner) if owner in self.read else self.contents.apex
        return name in self.contents.all or name == following or is_below(following, name)

    def unmet(self) -> List[Labels]:
        following = dict.fromkeys(map(self.following, self.owners))
        return [name for name in following if name not in self.contents.all]


class ByHash(Chain):
    """NSEC3 records (RFC 5155) of one salt and number of iterations."""

    kind = TYPE_NSEC3

    def __init__(self, contents: Contents, found: Dict[Labels, Any]) -> None:
        super().__init__(contents)
        first = next(iter(found.values()))
        self.hashing = Hashing(first.salt, first.iterations)
        fitting = {name: each for name, each in found.items() if (each.salt, each.iterations) == self.hashing}
        self.keep((hash_of(name[0]), name, each) for name, each in fitting.items() if name and hash_of(name[0]))
        self.digests = {name: self.hashing.digest(name) for name in contents.all}
        self.by_digest = dict(zip(self.places, self.owners))

    def place_of(self, name: Labels) -> Any:
        return self.digests.get(name) or self.hashing.digest(name)

    def owner_of(self, name: Labels) -> Optional[Labels]:
        return self.by_digest.get(self.place_of(name))

    def gaps(self) -> Iterator[Gap]:
        """Names are tried until each gap has one, or enough were: of a small gap none may be found."""
        found: Dict[Labels, Labels] = {}
        apex, behind = self.contents.apex, wire_name(self.contents.apex)
        for number in range(min(TRIES_MOST * len(self.owners), HASHES_MOST // (self.hashing.iterations + 1))):
            label = b"gap-%d" % number
            owner = self.owner_at(self.hashing.of_wire(bytes([len(label)]) + label + behind))
            if owner not in found and (label, *apex) not in self.contents.all:
                found[owner] = (label, *apex)
                if len(found) == len(self.owners):
                    break
        yield from (Gap(owner, found.get(owner), bool(self.read[owner].flags & OPT_OUT)) for owner in self.owners)

    def faults(self) -> List[str]:
        """And, since no name is known for a hash, hashes that nothing has."""
        places, known = set(self.places), set(self.digests.values())
        following = (self.read[owner].next for owner in self.owners)
        return [
            *super().faults(),
            *(
                f"no record of the chain has the hash {hex32(each)}, which one has as the next"
                for each in following
                if each not in places
            ),
            *(
                f"a record of the chain has the hash {hex32(each)}, which no name of the transfer has"
                for each in self.places
                if each not in known
            ),
        ]


def hash_of(label: bytes) -> Optional[bytes]:
    """The hash that the first label of an NSEC3 record's owner writes, None where it writes none (RFC 5155 3)."""
    is_hash = len(label) == 32 and not label.upper().strip(DIGITS[0])
    return base64.b32decode(label.upper().translate(FROM_HEX)) if is_hash else None


def hex32(digest: bytes) -> str:
    return base64.b32encode(digest).translate(TO_HEX).decode().lower()


def chain_of(contents: Contents) -> Chain:
    """The chain of NSEC records, else that of NSEC3 records; a zone may have neither."""
    if TYPE_NSEC in contents.kinds.get(contents.apex, ()):
        return ByOrder(contents)
    hashed = [name for name, kinds in contents.kinds.items() if TYPE_NSEC3 in kinds]
    read = {name: parsed(TYPE_NSEC3, only(contents.rrset(name, TYPE_NSEC3).rdata) or b"") for name in hashed}
    found = {name: each for name, each in read.items() if each}
    used = {name: each for name, each in found.items() if each.iterations <= ITERATIONS_MOST}
    if used:
        return ByHash(contents, used)
    none = Chain(contents)
    if found:  # who made them would say how long the hashes of all names take
        none.lacking = f"the zone's NSEC3 records have more than {ITERATIONS_MOST} iterations, so none of them is used"
    return none
