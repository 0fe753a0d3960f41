"""What has to be verified, line by line, and the statements that answer it."""
import importlib
import re
from typing import Any, NamedTuple, Tuple

from .rsa import LongExponent, Malformed, is_signed_by_rsa

HEX = "-|[0-9A-Fa-f]+"  # digits by pairs would take ten times as long
TODO = re.compile(rf"todo (0|[1-9][0-9]{{0,2}}) ({HEX}) ({HEX}) ({HEX})")


class Entry(NamedTuple):
    line: str
    place: str
    algorithm: int
    fields: Tuple[str, ...]


class Refusal(Exception):
    """A line isn't one to verify."""


class Lacking(Exception):
    """A signature isn't verified here, for want of its algorithm or for what its key would cost."""


def curves() -> Any:
    """Imported where a line needs it: RSA does without the package, and an interrupt of the import has its line too."""
    return importlib.import_module(".curves", __package__)


VERIFIERS = {
    5: lambda *parts: is_signed_by_rsa("sha1", 512, *parts),
    7: lambda *parts: is_signed_by_rsa("sha1", 512, *parts),
    8: lambda *parts: is_signed_by_rsa("sha256", 512, *parts),
    10: lambda *parts: is_signed_by_rsa("sha512", 1024, *parts),
    13: lambda *parts: curves().is_signed_by_ecdsa("P-256", *parts),
    14: lambda *parts: curves().is_signed_by_ecdsa("P-384", *parts),
    15: lambda *parts: curves().is_signed_by_eddsa("Ed25519", *parts),
    16: lambda *parts: curves().is_signed_by_eddsa("Ed448", *parts),
}


def is_good(algorithm: int, key: bytes, data: bytes, signature: bytes) -> bool:
    """Whether the signature is one of the data by the key."""
    try:
        return VERIFIERS[algorithm](key, data, signature)
    except (Malformed, ValueError):
        return False


def octets_of(field: str) -> bytes:
    return b"" if field == "-" else bytes.fromhex(field)


def entry_of(line: str, place: str) -> Entry:
    """The algorithm and the three hex fields of a line to verify."""
    match = TODO.fullmatch(line)
    if not match or any(len(field) % 2 for field in match.groups()[1:] if field != "-"):
        raise Refusal(f"{place}: no line `todo ALG KEY DATA SIG`")
    try:
        return Entry(line, place, algorithm_of(match[1]), match.groups()[1:])
    except ValueError as why:
        raise Refusal(f"{place}: {why}") from why


def algorithm_of(digits: str) -> int:
    """The number of an algorithm; ValueError where it's none of those above."""
    if int(digits) not in VERIFIERS:
        raise ValueError(f"algorithm {digits} is none of " + ", ".join(map(str, VERIFIERS)))
    return int(digits)


def is_verified_good(entry: Entry) -> bool:
    """Whether the entry's signature is good; Lacking where it can't be told here."""
    return is_good_here(entry.algorithm, *map(octets_of, entry.fields))


def is_good_here(algorithm: int, key: bytes, data: bytes, signature: bytes) -> bool:
    """Whether the signature is one of the data by the key; Lacking where it can't be told here."""
    try:
        return is_good(algorithm, key, data, signature)
    except (ImportError, NotImplementedError) as fault:
        raise Lacking(f"the package cryptography lacks algorithm {algorithm}: {fault}") from fault
    except LongExponent as fault:
        raise Lacking(str(fault)) from fault
