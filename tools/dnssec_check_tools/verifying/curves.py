"""Signatures on elliptic curves, by the package cryptography.

Each function answers whether the signature is one of the data by the key. A ValueError tells that the key or the
signature is malformed, a NotImplementedError that the package lacks the algorithm on this machine.
"""
from typing import Any, Callable, Dict, NamedTuple, Tuple

from cryptography.exceptions import InvalidSignature, UnsupportedAlgorithm
from cryptography.hazmat.primitives import hashes
from cryptography.hazmat.primitives.asymmetric import ec, ed448, ed25519
from cryptography.hazmat.primitives.asymmetric.utils import encode_dss_signature

ECDSA = {"P-256": (ec.SECP256R1(), hashes.SHA256()), "P-384": (ec.SECP384R1(), hashes.SHA384())}
EDDSA: Dict[str, Any] = {"Ed25519": ed25519.Ed25519PublicKey, "Ed448": ed448.Ed448PublicKey}


class Field(NamedTuple):
    """The prime of a curve's coordinates, how many bits of a key tell y, and the y of its points of small order."""

    prime: int
    bits: int
    small_orders: Tuple[int, ...]


# The points of small order are those whose order divides the cofactor: under such a key whoever tries some data finds a
# signature for it without any secret, and the library takes that for good. These of Ed25519 have the order 8.
ORDER_8 = 0x05FC536D880238B13933C6D305ACDFD5F098EFF289F4C345B027B2C28F95E826
P_25519, P_448 = 2**255 - 19, 2**448 - 2**224 - 1
FIELDS = {
    "Ed25519": Field(P_25519, 255, (0, 1, P_25519 - 1, ORDER_8, P_25519 - ORDER_8)),
    "Ed448": Field(P_448, 455, (0, 1, P_448 - 1)),
}


def is_signed_by_ecdsa(name: str, key: bytes, data: bytes, signature: bytes) -> bool:
    """A key is the point's two coordinates, a signature the two numbers r and s (RFC 6605 4)."""
    curve, hash_function = ECDSA[name]
    size = (curve.key_size + 7) // 8
    if len(key) != 2 * size or len(signature) != 2 * size:
        raise ValueError("another length")
    r, s = (int.from_bytes(half, "big") for half in (signature[:size], signature[size:]))
    return is_verified(
        lambda: ec.EllipticCurvePublicKey.from_encoded_point(curve, b"\x04" + key),
        encode_dss_signature(r, s),
        data,
        ec.ECDSA(hash_function),
    )


def is_signed_by_eddsa(name: str, key: bytes, data: bytes, signature: bytes) -> bool:
    """Key and signature are octet strings as they are (RFC 8080 3 and 4)."""
    is_right = is_verified(lambda: EDDSA[name].from_public_bytes(key), signature, data)
    return is_right and not is_of_small_order(FIELDS[name], key)


def is_of_small_order(field: Field, key: bytes) -> bool:
    """Whether no secret gives this key (RFC 8032 5.1.5, 5.2.5); y may be written with the prime added."""
    return int.from_bytes(key, "little") % 2**field.bits % field.prime in field.small_orders


def is_verified(public_key: Callable[[], Any], *parts: Any) -> bool:
    try:
        public_key().verify(*parts)
    except InvalidSignature:
        return False
    except UnsupportedAlgorithm as fault:
        raise NotImplementedError(str(fault)) from fault
    return True
