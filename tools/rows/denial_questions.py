"""Questions of every name of small zones to a depth of three labels, and what looking it up gives."""

from __future__ import annotations

from typing import Callable, Iterator

from denial_zones import LOOSE, MIXED, SMALL
from messages import TYPES, labels_of
from zones import Hashing, Zone, child, is_at_or_below, is_between, key_of, successors, suffix

# Whether a record of a chain shows that the name isn't there.
Absence = Callable[[str], bool]

LABELS = ["a", "sub", "w", "*", "x", "y", "q"]
ASKED = ["A", "NS", "CNAME", "SOA", "TXT", "DS"]
ZONES = {"small": SMALL, "mixed": MIXED}
# Those by a chain with Opt-Out.
OPEN_ZONES = {"small": SMALL, "loose": LOOSE}


def families() -> Iterator[list[str]]:
    """The zone's name, and then the names right below each name of fewer than four labels."""
    yield ["example."]
    above = ["example."]
    for _ in range(3):
        below = [[child(label, each) for label in LABELS] for each in above]
        yield from below
        above = [each for family in below for each in family]


def rows() -> Iterator[str]:
    for name in ZONES:
        for kind in ["nsec", "nsec3"]:
            yield from rows_of(f"{name}:{kind}")


def open_rows() -> Iterator[str]:
    for name in OPEN_ZONES:
        yield from rows_of(f"{name}:open")


def rows_of(chain: str) -> Iterator[str]:
    types = ",".join(str(TYPES[each]) for each in ASKED)
    for family in families():
        yield f"lacks $key,${chain} $anchors 1500 {types} {' '.join(family)}"
    for family in families():
        yield f"closers $key,${chain} $anchors 1500 example. {' '.join(family)}"


def answers() -> Iterator[str]:
    for zone in ZONES.values():
        for is_absent in [absence_by_nsec(zone), absence_by_nsec3(zone)]:
            for family in families():
                yield " ".join(lacked(zone, each) for each in family)
            for family in families():
                yield " ".join(closers(zone, is_absent, each) for each in family)


def open_answers() -> Iterator[str]:
    for zone in OPEN_ZONES.values():
        for family in families():
            yield " ".join(open_lacked(zone, each) for each in family)
        for family in families():
            yield " ".join(open_closers(zone, each) for each in family)


def lacked(zone: Zone, owner: str) -> str:
    """As `lacks` writes it."""
    no_name = "+" if zone.lacks_name(owner) else "-"
    types = ",".join(str(TYPES[each]) for each in ASKED if zone.lacks_data(owner, each)) or "-"
    cut = zone.unsigned_cut(owner)
    return f"{no_name}/{types}/{len(labels_of(cut)) if cut else '-'}"


def absence_by_nsec(zone: Zone) -> Absence:
    """Whether a record of the chain shows that a name isn't there: it lies in the gap, has no name below it at the
    gap's end, and isn't below the gap's owner where that is a delegation or has a DNAME record."""
    following = successors([key_of(owner) for owner in zone.types])
    ends = [key_of(owner) for owner in zone.types if zone.is_delegation(owner) or zone.has(owner, "DNAME")]

    def is_absent(name: str) -> bool:
        key = key_of(name)
        return any(
            is_between(owner, end, key)
            and end[: len(key)] != key
            and not (owner in ends and key[: len(owner)] == owner)
            for owner, end in following.items()
        )

    return is_absent


def absence_by_nsec3(zone: Zone) -> Absence:
    """Whether a record of the chain covers the hash of a name."""
    hashing = Hashing(1, "ab")
    following = successors([hashing.hash_of(node) for node in zone.nodes()])
    return lambda name: any(is_between(owner, end, hashing.hash_of(name)) for owner, end in following.items())


def closers(zone: Zone, is_absent: Absence, owner: str) -> str:
    """As `closers` writes it, of a zone whose chain leaves nothing out."""
    return "".join(closer(zone, is_absent, owner, labels) for labels in range(len(labels_of(owner))))


def closer(zone: Zone, is_absent: Absence, owner: str, labels: int) -> str:
    next_closer = suffix(owner, labels + 1)
    if not is_at_or_below(suffix(owner, labels), zone.apex):
        return "-"
    is_shown = is_absent(next_closer)
    # Where the zone is to be asked, that is just where no such node is in it.
    assert zone.is_elsewhere(owner, "DS") or is_shown != zone.is_node(next_closer)
    assert not (is_shown and zone.is_node(next_closer))
    return "+" if is_shown else "-"


def open_lacked(zone: Zone, owner: str) -> str:
    """As `lacks` writes it by a chain with Opt-Out: what has no record of its own is never denied."""
    is_signed = owner in zone.signed_nodes()
    types = ",".join(str(TYPES[each]) for each in ASKED if is_signed and zone.lacks_data(owner, each)) or "-"
    cut = zone.open_closer(owner)
    # Wherever looking the name up gives nothing, that is told or the name may be unsigned, and so below a delegation.
    assert is_signed or cut or not zone.lacks_name(owner)
    assert is_signed or cut or not zone.lacks_data(owner, "A")
    assert cut or not zone.unsigned_cut(owner)
    return f"-/{types}/{len(labels_of(cut)) if cut else '-'}"


def open_closers(zone: Zone, owner: str) -> str:
    """As `closers` writes it by such a chain."""
    return "".join(open_closer(zone, owner, labels) for labels in range(len(labels_of(owner))))


def open_closer(zone: Zone, owner: str, labels: int) -> str:
    is_above = is_at_or_below(suffix(owner, labels), zone.apex)
    return "~" if is_above and suffix(owner, labels + 1) not in zone.signed_nodes() else "-"
