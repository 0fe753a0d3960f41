"""What is odd of answers as they came: their TTLs and sizes, and the ways of aliases."""
from typing import Iterator

from ..capturing.messages import TYPE_CNAME, TYPE_DNSKEY, name_text
from ..explaining.values import all_of, distance, owned
from .kinds import Odd
from .scene import Link, Scene, Zone
from .times import about

SIZE_MOST = 1232  # octets, which come through as a datagram everywhere


def ttl_differs(_: Scene, link: Link) -> Iterator[Odd]:
    ttls = sorted(set(link.rrset.ttls))
    if len(ttls) > 1:
        yield Odd("ttl-differs", about(link), f"its records have the TTLs {all_of(map(str, ttls))}")


def ttl_above_original(_: Scene, link: Link) -> Iterator[Odd]:
    ttl = max(link.rrset.ttls, default=0)
    if ttl > link.signature.ttl:
        text = f"its TTL of {distance(ttl)} is above the original one of {distance(link.signature.ttl)}"
        yield Odd("ttl-above-original", about(link), text)


def large_keys(scene: Scene, zone: Zone) -> Iterator[Odd]:
    """Of a message that answers to who asked for the keys."""
    question, size = scene.records.question(zone.keys.message), scene.records.size(zone.keys.message)
    is_asked = question and (name_text(question.name), question.kind) == (zone.name, TYPE_DNSKEY)
    if is_asked and size > SIZE_MOST:
        text = f"message {zone.keys.message}, with its keys, has {size} octets, more than {SIZE_MOST}"
        yield Odd("large-keys", owned(zone.name, TYPE_DNSKEY), text)


def alias_chain(scene: Scene) -> Iterator[Odd]:
    aliases = [each["name"] for each in scene.told.value["aliases"]]
    if len(aliases) > 1:
        text = f"it leads to {'another alias' if len(aliases) == 2 else 'other aliases'}: {all_of(aliases[1:])}"
        yield Odd("alias-chain", owned(aliases[0], TYPE_CNAME), text)


def alias_into_unsigned(scene: Scene) -> Iterator[Odd]:
    """Out of a zone that signs it, to a name that may be unsigned."""
    value = scene.told.value
    if value["aliases"] and value["verdict"] == "Insecure":
        text = f"it is signed, and leads to a name that may be unsigned from {value['cut']} on"
        yield Odd("alias-into-unsigned", owned(value["aliases"][-1]["name"], TYPE_CNAME), text)
