"""Algorithms, digests and keys that are weak or have gone out of use."""
from typing import Iterator, NamedTuple, Optional

from ..capturing.messages import TYPE_DNSKEY, TYPE_DS
from ..explaining.values import algorithm_name, digest_name, key_name, owned
from .kinds import Odd
from .records import SHA_1, Key
from .scene import Link, Scene, Zone

RSA_SHA_1 = {5, 7}
RSA = {5, 7, 8, 10}
GOST, GOST_DIGEST = 12, 3
OLD = {1, 3, 6, 10}  # RSAMD5, DSA, DSA-NSEC3-SHA1, RSASHA512
BITS_LEAST, EXPONENT_MOST = 2048, 1 << 32


def of_key(word: str, zone: Zone, key: Key, text: str) -> Odd:
    return Odd(word, owned(zone.name, TYPE_DNSKEY), f"{key_name(key.tag, key.algorithm)} {text}")


def of_ds(word: str, link: Link, text: str) -> Odd:
    return Odd(word, owned(link.rrset.owner, TYPE_DS), text)


def sha1_key(_: Scene, zone: Zone) -> Iterator[Odd]:
    for key in zone.keys.keys:
        if key.algorithm in RSA_SHA_1:
            yield of_key("sha1-key", zone, key, "signs by SHA-1")


def sha1_ds(_: Scene, link: Link) -> Iterator[Odd]:
    if link.rrset.kind == TYPE_DS and {each.digest_type for each in link.rrset.ds} == {SHA_1}:
        yield of_ds("sha1-ds", link, "it has digests by SHA-1 alone")


def gost_key(_: Scene, zone: Zone) -> Iterator[Odd]:
    for key in zone.keys.keys:
        if key.algorithm == GOST:
            yield of_key("gost-key", zone, key, "is of an algorithm that is given up")


def gost_ds(_: Scene, link: Link) -> Iterator[Odd]:
    for each in link.rrset.ds if link.rrset.kind == TYPE_DS else ():
        if each.algorithm == GOST or each.digest_type == GOST_DIGEST:
            named = f"{key_name(each.tag, each.algorithm)} by {digest_name(each.digest_type)}"
            yield of_ds("gost-ds", link, f"it names {named}, and GOST is given up")


def old_key(_: Scene, zone: Zone) -> Iterator[Odd]:
    for key in zone.keys.keys:
        if key.algorithm in OLD:
            yield of_key("old-key", zone, key, "is of an algorithm by which zones aren't to be signed")


def old_ds(_: Scene, link: Link) -> Iterator[Odd]:
    for each in link.rrset.ds if link.rrset.kind == TYPE_DS else ():
        if each.algorithm in OLD:
            named = f"key {each.tag} of {algorithm_name(each.algorithm)}"
            yield of_ds("old-ds", link, f"it names {named}, by which zones aren't to be signed")


class RsaKey(NamedTuple):
    bits: int
    exponent: int


def rsa_of(key: Key) -> Optional[RsaKey]:
    """What a key of RSA has (RFC 3110 2); None of another one, and of one that is laid out otherwise."""
    octets = key.public
    if key.algorithm not in RSA or len(octets) < 3:
        return None
    front, length = (1, octets[0]) if octets[0] else (3, int.from_bytes(octets[1:3], "big"))
    exponent, modulus = octets[front : front + length], octets[front + length :]
    return RsaKey(int.from_bytes(modulus, "big").bit_length(), int.from_bytes(exponent, "big")) if modulus else None


def rsa_short(_: Scene, zone: Zone) -> Iterator[Odd]:
    for key in zone.keys.keys:
        rsa = rsa_of(key)
        if rsa and rsa.bits < BITS_LEAST:
            yield of_key("rsa-short", zone, key, f"has {rsa.bits} bits, fewer than {BITS_LEAST}")


def rsa_exponent(_: Scene, zone: Zone) -> Iterator[Odd]:
    """Of 3, and so large that some validators don't take it."""
    for key in zone.keys.keys:
        rsa = rsa_of(key)
        if rsa and rsa.exponent == 3:
            yield of_key("rsa-exponent", zone, key, "has the exponent 3")
        elif rsa and rsa.exponent > EXPONENT_MOST:
            text = f"has an exponent of {rsa.exponent.bit_length()} bits, which some validators don't take"
            yield of_key("rsa-exponent", zone, key, text)
