"""Zones as text, their keys, and signing by ldns."""

from __future__ import annotations

from pathlib import Path
from typing import Callable, NamedTuple

from dns.dnssec import nsec3_hash

from .processes import ran

ECDSA, RSA = "ECDSAP256SHA256", "RSASHA256"
SHA_1 = 1  # of the hashes of NSEC3 (RFC 5155 11)
FORM = "%Y%m%d%H%M%S"  # of a moment in UTC, as ldns-signzone reads it
PARENT = "test"
PARENT_SERVER, SERVER, RELAY = "127.0.77.2", "127.0.77.3", "127.0.77.4"


class Keys(NamedTuple):
    """A key that signs the keys, and one that signs all else, by the names of their files."""

    keys: str
    others: str


class Room(NamedTuple):
    """The folder in which the zones lie."""

    folder: Path

    def new_keys(self, zone: str, algorithm: str = ECDSA) -> Keys:
        words = ["ldns-keygen", "-a", algorithm, *(["-b", "2048"] if algorithm == RSA else [])]
        return Keys(ran([*words, "-k", zone], self.folder).strip(), ran([*words, zone], self.folder).strip())

    def text(self, name: str) -> str:
        return (self.folder / name).read_text("utf-8")

    def write(self, name: str, text: str) -> None:
        (self.folder / name).write_text(text, "utf-8")

    def signed(self, zone: str, text: str, keys: Keys, *options: str) -> list[str]:
        """The lines of the signed zone, a record each."""
        self.write(f"{zone}.zone", text)
        ran(["ldns-signzone", *options, "-f", f"{zone}.signed", f"{zone}.zone", *keys], self.folder)
        return [line for line in self.text(f"{zone}.signed").splitlines() if line and not line.startswith(";")]

    def ds(self, keys: Keys) -> str:
        return self.text(f"{keys.keys}.ds")

    def dnskey(self, key: str) -> str:
        return self.text(f"{key}.key")


def zone_text(zone: str, server: str, *others: str) -> str:
    """A zone with an address of `www`, and other records."""
    lines = (
        f"$ORIGIN {zone}.",
        "$TTL 300",
        "@ SOA ns hostmaster 1 7200 900 1209600 300",
        "@ NS ns",
        f"ns A {server}",
        "www A 192.0.2.1",
        *others,
    )
    return "\n".join(lines) + "\n"


def kind_of(line: str) -> str:
    """The type of a record; of a signature, with that of what it signs."""
    words = line.split()
    return " ".join(words[3:5]) if words[3] == "RRSIG" else words[3]


def without(lines: list[str], is_left_out: Callable[[str], bool]) -> list[str]:
    return [line for line in lines if not is_left_out(line)]


def exchanged(lines: list[str], others: list[str], is_of_others: Callable[[str], bool]) -> list[str]:
    """The lines, with those of the others in place of these for which that holds."""
    return without(lines, is_of_others) + [line for line in others if is_of_others(line)]


def of_kinds(*kinds: str) -> Callable[[str], bool]:
    """Whether a record is of one of these types, or signs such."""
    wanted = {*kinds, *(f"RRSIG {kind}" for kind in kinds)}
    return lambda line: kind_of(line) in wanted


def covering(name: str, lines: list[str]) -> str:
    """The owner of the NSEC3 record in whose gap the hash of the name is, without salt and further iterations."""
    wanted = nsec3_hash(name, "", 0, SHA_1).lower()
    owners = sorted(line.split()[0] for line in lines if kind_of(line) == "NSEC3")
    return ([owner for owner in owners if owner < wanted] or owners)[-1]
