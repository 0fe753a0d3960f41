"""Names of a zone in their order (RFC 4034 6.1), names between them, and their hashes (RFC 5155 5)."""
import hashlib
from typing import Iterator, NamedTuple, Optional, Tuple

from ..capturing.messages import Labels

LABEL_MOST, NAME_MOST = 63, 255
FIRST = b"\x00"  # the label that comes first of all
WILDCARD = b"*"

Key = Tuple[bytes, ...]


class Hashing(NamedTuple):
    """The salt and the iterations of a zone's NSEC3 records."""

    salt: bytes
    iterations: int

    def digest(self, name: Labels) -> bytes:
        return self.of_wire(wire_name(name))

    def of_wire(self, octets: bytes) -> bytes:
        """That of a name in wire form."""
        digest = hashlib.sha1(octets + self.salt).digest()
        for _ in range(self.iterations):
            digest = hashlib.sha1(digest + self.salt).digest()
        return digest


def order_of(name: Labels) -> Key:
    """By what names in lower case are in canonical order."""
    return name[::-1]


def wire_name(name: Labels) -> bytes:
    return b"".join(bytes([len(label)]) + label for label in name) + b"\x00"


def is_name(name: Labels) -> bool:
    return len(wire_name(name)) <= NAME_MOST and all(0 < len(label) <= LABEL_MOST for label in name)


def is_below(name: Labels, other: Labels) -> bool:
    return len(name) > len(other) and name[len(name) - len(other) :] == other


def above(name: Labels, apex: Labels) -> Iterator[Labels]:
    """The proper ancestors up to the apex, the nearest first; none for what isn't below it."""
    for place in range(1, len(name) - len(apex) + 1 if is_below(name, apex) else 1):
        yield name[place:]


def just_behind(name: Labels) -> Optional[Labels]:
    """The first name behind another in the order, which is below that; None where it would be too long."""
    found = (FIRST, *name)
    return found if is_name(found) else None


def behind_all_below(name: Labels) -> Optional[Labels]:
    """The first name behind another and all below that; None where it would be too long."""
    found = (name[0] + FIRST, *name[1:])
    return found if is_name(found) else None
