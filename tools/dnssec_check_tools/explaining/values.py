"""How values are said to people: types, algorithms and digests by name, moments as dates and distances."""
from typing import Iterable
from ..asking.kinds import mnemonic_of
from ..asking.moments import moment_text

DS, DNSKEY = 43, 48
# Numbers of the IANA registries "DNS Security Algorithm Numbers" and "Delegation Signer (DS) Resource Record (RR) Type
# Digest Algorithms".
ALGORITHMS = {
    1: "RSAMD5",
    3: "DSA",
    5: "RSASHA1",
    6: "DSA-NSEC3-SHA1",
    7: "RSASHA1-NSEC3-SHA1",
    8: "RSASHA256",
    10: "RSASHA512",
    12: "ECC-GOST",
    13: "ECDSAP256SHA256",
    14: "ECDSAP384SHA384",
    15: "ED25519",
    16: "ED448",
    17: "SM2SM3",
    23: "ECC-GOST12",
    253: "PRIVATEDNS",
    254: "PRIVATEOID",
}
DIGESTS = {1: "SHA-1", 2: "SHA-256", 3: "GOST R 34.11-94", 4: "SHA-384", 5: "GOST R 34.11-2012", 6: "SM3"}
# The bits of a key's flags (RFC 4034 2.1.1, RFC 5011 3).
FLAGS = ((0x100, "ZONE"), (0x80, "REVOKE"), (1, "SEP"))
ZONE_KEY = 0x100
# The sections of a message by their numbers.
SECTIONS = {1: "answer", 2: "authority", 3: "additional"}
UNITS = (("year", 31557600), ("day", 86400), ("hour", 3600), ("minute", 60))
# So many of a unit are said in the next smaller one; and a moment so near has its time of day.
FEW, NEAR = 2, 2 * 86400


def algorithm_name(number: int) -> str:
    return ALGORITHMS.get(number, f"algorithm {number}")


def digest_name(number: int) -> str:
    return DIGESTS.get(number, f"digest type {number}")


def flag_names(flags: int) -> str:
    return " ".join(name for bit, name in FLAGS if flags & bit) or "no flags"


def owned(owner: str, kind: int) -> str:
    """Records by their owner and type."""
    return f"{owner} {mnemonic_of(kind)}"


def key_name(tag: int, algorithm: int) -> str:
    return f"key {tag} ({algorithm_name(algorithm)})"


def counted(number: int, word: str) -> str:
    return f"{number} {word}" + ("" if number == 1 else "s")


def distance(seconds: int) -> str:
    """A length of time in one unit, in so large a one that there are two of it, and no more than there are whole
    ones."""
    for word, length in UNITS:
        if seconds >= FEW * length:
            return counted(seconds // length, word)
    return counted(seconds, "second")


def date(moment: int, now: int) -> str:
    """The day of a moment, with the time where it is near."""
    text = moment_text(moment)
    return text.split("T")[0] if abs(moment - now) >= NEAR else text


def ago(seconds: int, now: int) -> str:
    """A moment that lies so many seconds back."""
    return f"{date(now - seconds, now)} ({distance(seconds)} ago)"


def ahead(seconds: int, now: int) -> str:
    """A moment that is so many seconds ahead."""
    return f"{date(now + seconds, now)} (in {distance(seconds)})"


def until(moment: int, now: int) -> str:
    return f"until {date(moment, now)} ({distance(moment - now)})"


def all_of(words: Iterable[str]) -> str:
    """The words as a list within a sentence."""
    words = list(words)
    return " and ".join([", ".join(words[:-1]), words[-1]] if len(words) > 1 else words)
