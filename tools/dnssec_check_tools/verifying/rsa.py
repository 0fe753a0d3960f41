"""Signatures of RSA, without a package."""
import hashlib
from typing import Tuple

BITS_MOST = 4096
EXPONENT_BITS_MOST = 64  # of an exponent that is raised to: the time grows with its bits, and keys in use have 17

# What stands before a hash in the padded message: the DER front of a DigestInfo (RFC 3110 3, RFC 5702 3.1, 3.2).
DIGEST_INFO = {
    "sha1": bytes.fromhex("3021300906052b0e03021a05000414"),
    "sha256": bytes.fromhex("3031300d060960864801650304020105000420"),
    "sha512": bytes.fromhex("3051300d060960864801650304020305000440"),
}


class Malformed(Exception):
    """A key or a signature isn't laid out as its algorithm asks."""


class LongExponent(Exception):
    """Whoever verified by the key would give it the time that its maker wants."""


def rsa_number(octets: bytes) -> int:
    """An unsigned number of RFC 3110 2, which is odd in every key of RSA."""
    if not octets or octets[0] == 0 or len(octets) * 8 > BITS_MOST or octets[-1] % 2 == 0:
        raise Malformed
    return int.from_bytes(octets, "big")


def rsa_key(key: bytes, bits_least: int) -> Tuple[int, int]:
    """The modulus and the exponent of a key field, as RFC 3110 2 lays them out."""
    front, length = 1, key[0] if key else 0
    if length == 0:
        front, length = 3, int.from_bytes(key[1:3], "big")
        if length < 256:
            raise Malformed
    exponent, modulus = rsa_number(key[front : front + length]), rsa_number(key[front + length :])
    if modulus.bit_length() < bits_least or not 3 <= exponent < modulus:
        raise Malformed
    return modulus, exponent


def is_signed_by_rsa(hash_name: str, bits_least: int, key: bytes, data: bytes, signature: bytes) -> bool:
    """PKCS #1 v1.5 by its definition (RFC 8017 8.2.2), so that no size of key depends on a package's taste."""
    modulus, exponent = rsa_key(key, bits_least)
    size = (modulus.bit_length() + 7) // 8
    number = int.from_bytes(signature, "big")
    if len(signature) != size or number >= modulus:
        raise Malformed
    if exponent.bit_length() > EXPONENT_BITS_MOST:
        raise LongExponent(f"the exponent of the RSA key has more than {EXPONENT_BITS_MOST} bits")
    digest = hashlib.new(hash_name, data, usedforsecurity=False).digest()
    end = b"\x00" + DIGEST_INFO[hash_name] + digest
    return pow(number, exponent, modulus).to_bytes(size, "big") == (b"\x00\x01").ljust(size - len(end), b"\xff") + end
