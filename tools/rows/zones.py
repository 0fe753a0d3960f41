"""Zones: what looking a name up in one gives, and their chains of NSEC and NSEC3 records."""

from __future__ import annotations

import base64
import hashlib
from typing import Iterable, Sequence, Tuple, TypeVar

from dnssec_check_tools import wire
from messages import labels_of, name


# A name and the types that it has.
Node = Tuple[str, str]
# What stands in a circle: octets, or the labels of a name in their order.
Key = TypeVar("Key", bytes, Tuple[bytes, ...])


def wire_in_lower_case(text: str) -> bytes:
    return name(text.lower())


def key_of(text: str) -> tuple[bytes, ...]:
    """What names are put in canonical order by (RFC 4034 6.1)."""
    return tuple(label.lower() for label in reversed(labels_of(text)))


def suffix(text: str, labels: int) -> str:
    """The name's so many rightmost labels."""
    parts = text.split(".")[:-1] if text != "." else []
    return ".".join(parts[len(parts) - labels :]) + "."


def child(label: str, above: str) -> str:
    return label + "." + above.lstrip(".")


def is_at_or_below(text: str, above: str) -> bool:
    return key_of(text)[: len(key_of(above))] == key_of(above)


class Zone:
    """A zone by its names with their types, and the look-up of RFC 1034 4.3.2 and RFC 4592 3.3.1 in it."""

    def __init__(self, apex: str, names: Iterable[Node]) -> None:
        self.apex = apex
        self.types = {owner: types.split() for owner, types in names}

    def has(self, owner: str, rtype: str) -> bool:
        return rtype in self.types.get(owner, [])

    def is_node(self, owner: str) -> bool:
        return any(is_at_or_below(each, owner) for each in self.types)

    def is_delegation(self, owner: str) -> bool:
        return self.has(owner, "NS") and not self.has(owner, "SOA")

    def ancestors(self, owner: str) -> list[str]:
        """Those above the name, from the root on."""
        return [suffix(owner, labels) for labels in range(len(labels_of(owner)))]

    def is_elsewhere(self, owner: str, rtype: str) -> bool:
        """Whether another zone is to be asked, or the name lies below a DNAME record."""
        if any(self.is_delegation(each) or self.has(each, "DNAME") for each in self.ancestors(owner)):
            return True
        return self.has(owner, "SOA") if rtype == "DS" else self.is_delegation(owner)

    def wildcard(self, owner: str) -> str:
        """The wildcard right below the closest encloser."""
        return child("*", [each for each in self.ancestors(owner) if self.is_node(each)][-1])

    def lacks_name(self, owner: str) -> bool:
        if self.is_elsewhere(owner, "A") or self.is_node(owner):
            return False
        return not self.is_node(self.wildcard(owner))

    def lacks_data(self, owner: str, rtype: str) -> bool:
        if self.is_elsewhere(owner, rtype):
            return False
        source = owner if self.is_node(owner) else self.wildcard(owner)
        return self.is_node(source) and not self.has(source, rtype) and not self.has(source, "CNAME")

    def unsigned_cut(self, owner: str) -> str | None:
        """The highest delegation without DS at or above the name."""
        cuts = [
            each for each in self.ancestors(owner) + [owner] if self.is_delegation(each) and not self.has(each, "DS")
        ]
        return cuts[0] if cuts else None

    def nodes(self) -> list[str]:
        """All names, the empty non-terminals too, in canonical order."""
        return self.nodes_of(self.types)

    def signed_nodes(self) -> list[str]:
        """Those that a chain with Opt-Out has (RFC 5155 7.1): none for delegations without DS, and for what is there
        through these alone."""
        return self.nodes_of(each for each in self.types if not self.is_delegation(each) or self.has(each, "DS"))

    def nodes_of(self, owners: Iterable[str]) -> list[str]:
        found = {
            each for owner in owners for each in self.ancestors(owner) + [owner] if is_at_or_below(each, self.apex)
        }
        return sorted(found, key=key_of)

    def open_closer(self, owner: str) -> str | None:
        """The next closer name by a chain with Opt-Out, which may be there without a record (RFC 5155 6)."""
        signed = self.signed_nodes()
        if owner in signed:
            return None
        encloser = [each for each in self.ancestors(owner) if each in signed][-1]
        if self.is_delegation(encloser) or self.has(encloser, "DNAME"):
            return None
        return suffix(owner, len(labels_of(encloser)) + 1)


def is_between(owner: Key, following: Key, each: Key) -> bool:
    """Whether it lies in the gap of a circle (RFC 4034 4.1.1, RFC 5155 3.1.7)."""
    if owner < following:
        return owner < each < following
    return each > owner or each < following


def successors(keys: Iterable[Key]) -> dict[Key, Key]:
    """Of each, which is next in the circle."""
    ordered = sorted(keys)
    return {key: ordered[(place + 1) % len(ordered)] for place, key in enumerate(ordered)}


def nsec_chain(zone: Zone) -> list[tuple[str, bytes]]:
    """The owner and RDATA of each record of the zone's NSEC chain, in canonical order."""
    owners = sorted(zone.types, key=key_of)
    return [
        (owner, wire.nsec(owners[(place + 1) % len(owners)], " ".join(zone.types[owner] + ["RRSIG", "NSEC"])))
        for place, owner in enumerate(owners)
    ]


class Hashing:
    """How a chain is hashed, and the flags of its records (RFC 5155 3.1, 5)."""

    def __init__(self, iterations: int = 0, salt: str = "", flags: int = 0) -> None:
        self.iterations, self.salt, self.flags = iterations, bytes.fromhex(salt), flags

    def hash_of(self, owner: str) -> bytes:
        octets = hashlib.sha1(wire_in_lower_case(owner) + self.salt).digest()
        for _ in range(self.iterations):
            octets = hashlib.sha1(octets + self.salt).digest()
        return octets

    def nsec3(self, following: bytes, types: str, algorithm: int = 1) -> bytes:
        return wire.nsec3(self.iterations, self.salt, following, types, self.flags, algorithm)


def hash_text(octets: bytes) -> str:
    text: bytes = base64.b32hexencode(octets)  # type: ignore[attr-defined]  # since Python 3.10
    return text.decode().lower()


def nsec3_chain(nodes: Sequence[Node], hashing: Hashing) -> list[tuple[str, bytes]]:
    """The label and RDATA of the NSEC3 record of each node, in the order that they come in."""
    hashes = [hashing.hash_of(owner) for owner, _ in nodes]
    following = successors(hashes)
    return [(hash_text(octets), hashing.nsec3(following[octets], types)) for octets, (_, types) in zip(hashes, nodes)]
