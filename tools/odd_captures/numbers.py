"""Keys that no generator makes: of RSA with another exponent, and of one tag; in the files that signers read."""

from __future__ import annotations

import base64
import math

from cryptography.hazmat.primitives.asymmetric import ec, rsa
from cryptography.hazmat.primitives.serialization import Encoding, PublicFormat

from breaking.zones import Room
from dnssec_check_tools.capturing.messages import key_tag

RSASHA256, ECDSAP256SHA256 = 8, 13
NAMES = {RSASHA256: "RSASHA256", ECDSAP256SHA256: "ECDSAP256SHA256"}
ZSK, KSK = 256, 257
BITS = 2048


def octets_of(number: int) -> bytes:
    return number.to_bytes((number.bit_length() + 7) // 8, "big")


def words(octets: bytes) -> str:
    return base64.b64encode(octets).decode()


def laid(room: Room, zone: str, flags: int, algorithm: int, public: bytes, private: str) -> str:
    """The files of a key, and their name."""
    rdata = flags.to_bytes(2, "big") + bytes([3, algorithm]) + public
    name = f"K{zone}.+{algorithm:03}+{key_tag(rdata):05}"
    for beside in range(100):  # one of the same tag has another name, which the signer doesn't mind
        if not (room.folder / f"{name}{'-' * beside}.key").exists():
            name += "-" * beside
            break
    room.write(f"{name}.key", f"{zone}. IN DNSKEY {flags} 3 {algorithm} {words(public)}\n")
    room.write(f"{name}.private", f"Private-key-format: v1.2\nAlgorithm: {algorithm} ({NAMES[algorithm]})\n{private}")
    return name


def rsa_key(room: Room, zone: str, flags: int, exponent: int) -> str:
    """A key with this exponent, of the primes of another one that go with it."""
    while True:
        numbers = rsa.generate_private_key(65537, BITS).private_numbers()
        first, second = numbers.p, numbers.q
        if math.gcd(exponent, (first - 1) * (second - 1)) == 1:
            break
    inverse = pow(exponent, -1, math.lcm(first - 1, second - 1))
    fields = {
        "Modulus": first * second,
        "PublicExponent": exponent,
        "PrivateExponent": inverse,
        "Prime1": first,
        "Prime2": second,
        "Exponent1": inverse % (first - 1),
        "Exponent2": inverse % (second - 1),
        "Coefficient": pow(second, -1, first),
    }
    private = "".join(f"{name}: {words(octets_of(value))}\n" for name, value in fields.items())
    public = bytes([len(octets_of(exponent))]) + octets_of(exponent) + octets_of(first * second)
    return laid(room, zone, flags, RSASHA256, public, private)


def curve_keys_of_one_tag(room: Room, zone: str) -> tuple[str, str]:
    """Two keys: of some hundred there are two with one tag."""
    seen: dict[int, tuple[bytes, int]] = {}
    while True:
        key = ec.generate_private_key(ec.SECP256R1())
        public = key.public_key().public_bytes(Encoding.X962, PublicFormat.UncompressedPoint)[1:]
        tag = key_tag(ZSK.to_bytes(2, "big") + bytes([3, ECDSAP256SHA256]) + public)
        number = key.private_numbers().private_value
        if tag in seen:
            both = (seen[tag], (public, number))
            names = [
                laid(room, zone, ZSK, ECDSAP256SHA256, each, f"PrivateKey: {words(value.to_bytes(32, 'big'))}\n")
                for each, value in both
            ]
            return names[0], names[1]
        seen[tag] = public, number
