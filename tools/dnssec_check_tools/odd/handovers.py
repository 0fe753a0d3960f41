"""What a zone asks its parent to have of its keys (CDS, CDNSKEY), against what both have."""
from typing import Iterator, List, Set

from ..explaining.values import all_of, counted, digest_name, key_name, owned
from .keys import CDNSKEY, CDS
from .kinds import Odd
from .records import Ds, Key, is_of
from .scene import Scene, Zone

NONE = 0  # the algorithm of the record that asks for no DS at all (RFC 8078 4)


def asked_ds(scene: Scene, zone: Zone) -> List[Ds]:
    return [each for rrset in scene.records.of(zone.name, CDS) for each in rrset.ds]


def asked_keys(scene: Scene, zone: Zone) -> List[Key]:
    return [each for rrset in scene.records.of(zone.name, CDNSKEY) for each in rrset.keys]


def cds_and_keys(scene: Scene, zone: Zone) -> Iterator[Odd]:
    """A record that asks for a key that the zone hasn't, or that isn't among those of the other type."""
    ds, keys = asked_ds(scene, zone), asked_keys(scene, zone)
    for each in ds:
        if each.algorithm != NONE and not any(is_of(each, zone.keys.labels, key) for key in zone.keys.keys):
            yield Odd("cds-and-keys", owned(zone.name, CDS), lacking(each.tag, each.algorithm))
    for key in keys:
        if key.algorithm != NONE and key.rdata not in zone.keys.rdata:
            yield Odd("cds-and-keys", owned(zone.name, CDNSKEY), lacking(key.tag, key.algorithm))
    if ds and keys and {(each.tag, each.algorithm) for each in ds} != {(key.tag, key.algorithm) for key in keys}:
        yield Odd("cds-and-keys", owned(zone.name, CDS), "it asks for other keys than the CDNSKEY records do")


def lacking(tag: int, algorithm: int) -> str:
    return f"it asks for {key_name(tag, algorithm)}, which isn't among the zone's keys"


def cds_and_ds(scene: Scene, zone: Zone) -> Iterator[Odd]:
    """What the parent has of the zone, and is asked to change."""
    wanted, has = set(asked_ds(scene, zone)), set(zone.ds.ds if zone.ds else ())
    if wanted and has and wanted != has:
        yield Odd("cds-and-ds", owned(zone.name, CDS), change(wanted, has))
    keys = asked_keys(scene, zone)
    if keys and has and not wanted and not are_of(has, keys, zone):
        yield Odd("cds-and-ds", owned(zone.name, CDNSKEY), "the parent has DS records of other keys than it asks for")


def are_of(records: Set[Ds], keys: List[Key], zone: Zone) -> bool:
    """Whether each record is of one of the keys, and each key has one."""
    pairs = [(each, key) for each in records for key in keys if is_of(each, zone.keys.labels, key)]
    return len({each for each, _ in pairs}) == len(records) and len({key for _, key in pairs}) == len(set(keys))


def change(wanted: Set[Ds], has: Set[Ds]) -> str:
    if any(each.algorithm == NONE for each in wanted):
        return f"it asks for no DS, and the parent has {counted(len(has), 'DS record')}"
    more, fewer = sorted(wanted - has), sorted(has - wanted)
    parts = [f"lacks {named(more)}"] * bool(more) + [f"has {named(fewer)} besides"] * bool(fewer)
    return f"the parent {' and '.join(parts)}"


def named(records: List[Ds]) -> str:
    return all_of(
        f"the DS of {key_name(each.tag, each.algorithm)} by {digest_name(each.digest_type)}" for each in records
    )
