"""What is looked at for one question: its explanation, and the RRsets and zones on which the verdict stands."""
import functools
from typing import Dict, Iterator, List, NamedTuple, Optional, Tuple

from ..capturing.messages import TYPE_DNSKEY, TYPE_NSEC3
from ..explaining.explanation import Explanation, Line
from .records import Records, Rrset, Signature

TURN = 1 << 32  # the times of signatures begin anew behind so many seconds (RFC 4034 3.1.5)


class Zone(NamedTuple):
    """A zone of the chain: its keys, the one that leads into it, by its tag and algorithm, and the DS RRset that names
    that, None where an anchor does."""

    name: str
    keys: Rrset
    entry: Tuple[int, int]
    ds: Optional[Rrset]


class Link(NamedTuple):
    """An RRset of the chain, the signature that carries it, and the zone that signs."""

    rrset: Rrset
    signature: Signature
    zone: Zone


class Scene:
    """The records of a capture, what explains a verdict, and how many seconds are soon."""

    def __init__(self, records: Records, told: Explanation, soon: int) -> None:
        self.records, self.told, self.now, self.soon = records, told, told.now, soon

    @functools.cached_property
    def zones(self) -> List[Zone]:
        """The zones of the chain that are trusted, from above."""
        return list({zone.keys.number: zone for zone in map(self.zone_of, self.told.of("trusted")) if zone}.values())

    def zone_of(self, line: Line) -> Optional[Zone]:
        """None where the capture has no such keys, as it then isn't the one that was judged."""
        keys, ds = (self.records.rrsets.get(line.get(name, 0)) for name in ("rrset", "ds_rrset"))
        return Zone(line["zone"], keys, (line["tag"], line["algorithm"]), ds) if keys else None

    @functools.cached_property
    def links(self) -> List[Link]:
        """The links of the chain, each once."""
        by_keys = {zone.keys.number: zone for zone in self.zones}
        found: Dict[Tuple[int, int], Link] = {}
        for line in self.told.lines:
            zone = by_keys.get(line.get("keys", line.get("rrset", 0)))
            rrset = self.records.rrsets.get(line.get("rrset", 0))
            if line["line"] in ("trusted", "signed") and zone and rrset:
                for signature in rrset.signatures[line["signature"] - 1 : line["signature"]]:
                    found.setdefault((rrset.number, line["signature"]), Link(rrset, signature, zone))
        return list(found.values())

    def signed_by(self, zone: Zone) -> List[Rrset]:
        """All RRsets of the capture that the zone signs."""
        return self.records.by_signer.get(zone.name, [])

    def nsec3_of(self, zone: Zone) -> Iterator[Rrset]:
        """The NSEC3 records of the zone that the capture has."""
        return (each for each in self.signed_by(zone) if each.kind == TYPE_NSEC3)

    def others_of(self, zone: Zone) -> Iterator[Rrset]:
        """The RRsets of the capture that the zone signs, but for its keys."""
        return (each for each in self.signed_by(zone) if each.kind != TYPE_DNSKEY)

    def ahead(self, moment: int) -> int:
        """How many seconds a time of a signature lies ahead; below 0 where it is over (RFC 1982)."""
        return (moment - self.now + TURN // 2) % TURN - TURN // 2
