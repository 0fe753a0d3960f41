"""Keys and the DS records that name them: what one would not expect of a zone that isn't rolling."""
from collections import Counter
from typing import Iterator, Set, Tuple

from ..capturing.messages import TYPE_DNSKEY, TYPE_DS
from ..explaining.values import algorithm_name, all_of, counted, digest_name, key_name, owned
from .algorithms import of_key
from .kinds import Odd
from .records import REVOKE, SEP, ZONE, Key, is_of
from .scene import Link, Scene, Zone
from .times import about

CDS, CDNSKEY = 59, 60
OF_KEYS = (TYPE_DNSKEY, CDS, CDNSKEY)  # what a key with SEP signs where another one signs all else

Named = Tuple[int, int]  # a tag and an algorithm


def named(key: Key) -> Named:
    return key.tag, key.algorithm


def signing(scene: Scene, zone: Zone, is_of_keys: bool) -> Set[Named]:
    """The keys by which the capture has signatures of the zone, of its keys or of all else."""
    rrsets = (each for each in scene.signed_by(zone) if (each.kind in OF_KEYS) == is_of_keys)
    return {(each.tag, each.algorithm) for rrset in rrsets for each in rrset.signatures if each.signer == zone.name}


def ds_without_key(_: Scene, zone: Zone) -> Iterator[Odd]:
    for each in zone.ds.ds if zone.ds else ():
        if not any(is_of(each, zone.keys.labels, key) for key in zone.keys.keys):
            text = f"it names {key_name(each.tag, each.algorithm)} by {digest_name(each.digest_type)}"
            yield Odd("ds-without-key", owned(zone.name, TYPE_DS), f"{text}, and none of the zone's keys is that")


def standby_key(scene: Scene, zone: Zone) -> Iterator[Odd]:
    """One by which the capture has no signature; without SEP that says little where all that the zone signs in it are
    its keys."""
    of_keys, of_others = signing(scene, zone, True), signing(scene, zone, False)
    for key in zone.keys.keys:
        is_told = key.flags & ZONE and not key.flags & REVOKE and (key.flags & SEP or of_others)
        if is_told and named(key) not in of_keys | of_others:
            yield of_key("standby-key", zone, key, "signs nothing of what the capture has")


def revoked_key(_: Scene, zone: Zone) -> Iterator[Odd]:
    for key in zone.keys.keys:
        if key.flags & REVOKE:
            yield of_key("revoked-key", zone, key, "is revoked (REVOKE), and counts as any other here")


def sep_flag(scene: Scene, zone: Zone) -> Iterator[Odd]:
    """SEP at a key that signs what another one is there for, or none at the key that a DS record or an anchor names."""
    of_others = signing(scene, zone, False)
    plain = {named(key) for key in zone.keys.keys if not key.flags & SEP} & of_others
    for key in zone.keys.keys:
        if not key.flags & SEP and named(key) == zone.entry:
            yield of_key("sep-flag", zone, key, "leads into the zone, and has no flag SEP")
        elif key.flags & SEP and named(key) in of_others and plain:
            yield of_key("sep-flag", zone, key, "has the flag SEP, and signs more than keys, beside one without")


def same_tag(_: Scene, zone: Zone) -> Iterator[Odd]:
    tags = Counter(key.tag for key in zone.keys.keys)
    for tag, count in tags.items():
        if count > 1:
            yield Odd("same-tag", owned(zone.name, TYPE_DNSKEY), f"{counted(count, 'key')} have the tag {tag}")


def algorithm_unsigned(_: Scene, link: Link) -> Iterator[Odd]:
    """By the algorithms of the zone's keys; of the keys themselves by those of the DS records too."""
    zone = link.zone
    has = {each.algorithm for each in link.rrset.signatures if each.signer == zone.name}
    keys = {key.algorithm for key in zone.keys.keys if key.flags & ZONE and not key.flags & REVOKE}
    of_ds = {each.algorithm for each in zone.ds.ds} if zone.ds and link.rrset.kind == TYPE_DNSKEY else set()
    for names, whose in ((keys - has, "keys"), (of_ds - keys - has, "DS records")):
        if names:
            text = f"it has no signature by {all_of(map(algorithm_name, sorted(names)))}, of which the zone has {whose}"
            yield Odd("algorithm-unsigned", about(link), text)
