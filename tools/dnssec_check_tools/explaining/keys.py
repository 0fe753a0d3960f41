"""The keys that a capture has: their flags and protocol, how long they are, and which RRsets they may have signed."""
from typing import Dict, FrozenSet, NamedTuple, Optional, Tuple

from .values import algorithm_name, counted

SEP = 1  # the bit of the flags by which a key is said to be a zone's secure entry point (RFC 4034 2.1.1)
DNSSEC = 3  # the protocol of a zone key (RFC 4034 2.1.2)
# The algorithms of RSA, and of curves with how many bits a key on each has.
OF_RSA = {1, 5, 7, 8, 10}
OF_CURVES = {13: 256, 14: 384, 15: 256, 16: 456}


class Key(NamedTuple):
    """The flags of a key, its length in bits, None where the field isn't laid out so that there is one, its protocol,
    and the DNSKEY RRsets that have a signature by its tag and algorithm."""

    flags: int
    bits: Optional[int]
    protocol: int = DNSSEC
    signed: FrozenSet[int] = frozenset()


Keys = Dict[Tuple[str, int, int], Key]  # by zone, tag and algorithm


def bits_of(algorithm: int, field: bytes) -> Optional[int]:
    """How long a key is: of RSA its modulus, behind the exponent and the length of that (RFC 3110 2)."""
    if algorithm not in OF_RSA:
        return OF_CURVES.get(algorithm)
    front, length = 1, field[0] if field else 0
    if length == 0:
        front, length = 3, int.from_bytes(field[1:3], "big")
    return int.from_bytes(field[front + length :], "big").bit_length() or None


def key_lines(tag: int, algorithm: int, key: Optional[Key]) -> Tuple[str, str]:
    """A key by its tag and algorithm, and its length where that is known."""
    length = f", {counted(key.bits, 'bit')}" if key and key.bits else ""
    return f"key {tag}", algorithm_name(algorithm) + length
