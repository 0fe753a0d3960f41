"""What a zone has: the names that it speaks for, where it delegates, and the names that are there for those below."""
from typing import Dict, FrozenSet, List, Set

from ..capturing.messages import TYPE_DS, TYPE_NS, TYPE_NSEC, TYPE_NSEC3, Labels, names_above

from .names import above, is_below, order_of
from .transfer import Rrset, Rrsets, Transfer

TYPE_DNAME = 39


class Contents:
    """The names of a zone, but for those of its NSEC3 records and for what is below a delegation or a DNAME record."""

    def __init__(self, transfer: Transfer) -> None:
        self.apex = transfer.apex
        self.kinds = kinds_by_owner(transfer.rrsets)
        self.rrsets: Rrsets = transfer.rrsets
        ends = {name for name, kinds in self.kinds.items() if TYPE_NS in kinds and name != self.apex}
        self.cuts: Set[Labels] = {name for name in ends if not any(each in ends for each in above(name, self.apex))}
        self.ends = self.cuts | {name for name, kinds in self.kinds.items() if TYPE_DNAME in kinds}
        self.names: List[Labels] = sorted(filter(self.is_of_zone, self.kinds), key=order_of)
        inside = (each for each in names_above(self.names) if each == self.apex or is_below(each, self.apex))
        self.between: List[Labels] = sorted(set(inside).difference(self.names), key=order_of)
        self.all = frozenset([*self.names, *self.between])

    def is_of_zone(self, name: Labels) -> bool:
        is_inside = name == self.apex or is_below(name, self.apex)
        is_hash = self.kinds[name] == {TYPE_NSEC3}
        return is_inside and not is_hash and not any(each in self.ends for each in above(name, self.apex))

    def spoken_for(self, name: Labels) -> FrozenSet[int]:
        """The types of the name for which the zone speaks: at a delegation it does for DS and NSEC alone (RFC 4035
        2.3)."""
        kinds = frozenset(self.kinds.get(name, ()))
        return kinds & {TYPE_DS, TYPE_NSEC} if name in self.cuts else kinds

    def rrset(self, name: Labels, kind: int) -> Rrset:
        return self.rrsets[name, kind]

    def closest_encloser(self, name: Labels) -> Labels:
        """The nearest name above one that isn't there, which is (RFC 4592 3.3.1)."""
        return next((each for each in above(name, self.apex) if each in self.all), self.apex)


def kinds_by_owner(rrsets: Rrsets) -> Dict[Labels, Set[int]]:
    """Also of owners of which only signatures are there, but for those of NSEC3 records, which are no names."""
    found: Dict[Labels, Set[int]] = {}
    for (owner, kind), rrset in rrsets.items():
        if rrset.records:
            found.setdefault(owner, set()).add(kind)
        elif kind != TYPE_NSEC3:
            found.setdefault(owner, set())
    return found
