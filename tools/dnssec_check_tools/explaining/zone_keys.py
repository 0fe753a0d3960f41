"""What the lines of an explanation, and the capture, say of the keys of zones."""
from typing import Any, Dict, List, Optional, Sequence, Set, Tuple

from .keys import DNSSEC, Key, Keys
from .values import DNSKEY, ZONE_KEY

Line = Dict[str, Any]
Named = Tuple[str, int, int]  # a zone, a tag and an algorithm
Placed = Tuple[Named, int]  # the same, in a DNSKEY RRset


def named_by(zone: str, line: Line) -> Named:
    return zone, line["tag"], line["algorithm"]


def placed_by(line: Line) -> Placed:
    """The key that a line of a zone names, where it stands."""
    return named_by(line["zone"], line), line["rrset"]


class ZoneKeys:
    """The lines `key` by zone, and what they and reasons say of keys."""

    def __init__(self, lines: Sequence[Line], known: Keys) -> None:
        self.known = known
        self.by_zone: Dict[str, List[Line]] = {}
        self.flags: Dict[Named, Set[int]] = {}
        self.signing: Set[Placed] = set()  # those that sign the keys, and those that don't
        self.not_signing: Set[Placed] = set()
        self.flawed: Dict[Placed, List[str]] = {}
        self.no_zone_keys: Set[Named] = set()
        for line in lines:
            if line["line"] == "key":
                self.add_key(line)
            elif line["line"] == "reason" and "signer" in line:
                self.add_signature(line)
            elif line.get("word") == "not-self-signed":
                self.not_signing.add(placed_by(line))

    def add_key(self, line: Line) -> None:
        self.by_zone.setdefault(line["zone"], []).append(line)
        self.flags.setdefault(named_by(line["zone"], line), set()).add(line["flags"])
        self.signing.update([placed_by(line)] if "signature" in line else [])

    def add_signature(self, line: Line) -> None:
        named = named_by(line["signer"], line)
        if (line["owner"], line["type"]) == (line["signer"], DNSKEY):
            self.flawed.setdefault((named, line["rrset"]), []).append(line["word"])
        self.no_zone_keys.update([named] if line["word"] == "not-zone-key" else [])

    def of(self, zone: str) -> List[Line]:
        return self.by_zone.get(zone, [])

    def known_key(self, zone: str, line: Line) -> Optional[Key]:
        """The zone's key with the tag and the algorithm of the line, where the capture has it."""
        return self.known.get(named_by(zone, line))

    def tags(self, zone: str, *others: int) -> List[int]:
        """The tags of the zone's keys, each once and rising, but for these."""
        return sorted({each["tag"] for each in self.of(zone)}.difference(others))

    def algorithms(self, zone: str, tag: int) -> List[int]:
        """The algorithms of the zone's keys with this tag, each once and rising."""
        return sorted({each["algorithm"] for each in self.of(zone) if each["tag"] == tag})

    def signing_tags(self, zone: str, rrset: int) -> List[int]:
        """The tags of the keys that sign the DNSKEY RRset they are in."""
        return sorted({each["tag"] for each in self.of(zone) if each["rrset"] == rrset and "signature" in each})

    def vouched(self, zone: str) -> List[Line]:
        """The zone's keys that an anchor or a DS record matches."""
        return [each for each in self.of(zone) if "anchor" in each or "ds_record" in each]

    def flaws(self, line: Line) -> List[str]:
        """The words of what fails of the signature that the key of the line has over the keys it's among."""
        return self.flawed.get(placed_by(line), [])

    def may_have_signed(self, line: Line) -> Optional[bool]:
        """Whether a signature of the keys that it's among may be of the line's key: none is where a reason says so,
        or none has its tag and algorithm, or but one of another key. None where it isn't known which there are."""
        if self.is_beside_signer(line) or placed_by(line) in self.not_signing:
            return False
        key = self.known_key(line["zone"], line)
        return None if key is None else line["rrset"] in key.signed

    def is_beside_signer(self, line: Line) -> bool:
        """Whether the line is of a key that doesn't sign the keys, beside one of its tag and algorithm that does."""
        is_without = (line["line"] == "key" and "signature" not in line) or line.get("word") == "not-self-signed"
        return is_without and placed_by(line) in self.signing

    def lack(self, zone: str, line: Line) -> Optional[str]:
        """What the key that the line names lacks to be a zone key (RFC 4034 2.1); None where it's one, as far as is
        known."""
        named = named_by(zone, line)
        if any(not flags & ZONE_KEY for flags in self.flags.get(named, ())):
            return "its flags lack ZONE"
        key = self.known_key(zone, line)
        if key and key.protocol != DNSSEC:
            return f"its protocol is {key.protocol}, and not {DNSSEC}"
        return f"its protocol isn't {DNSSEC}" if named in self.flags and named in self.no_zone_keys else None
