"""When the signatures of a chain begin and end."""
from typing import Iterator

from ..capturing.messages import TYPE_RRSIG
from ..explaining.values import ahead, distance, owned
from .kinds import Odd
from .records import Signature
from .scene import Link, Scene, Zone

FEW = 3  # RRsets of a zone, with fewer of which nothing is said of ends at once


def about(link: Link) -> str:
    return owned(link.rrset.owner, link.rrset.kind)


def by(signature: Signature) -> str:
    return f"its signature by key {signature.tag}"


def ends_soon(scene: Scene, link: Link) -> Iterator[Odd]:
    left = scene.ahead(link.signature.expiration)
    if 0 <= left <= scene.soon:
        yield Odd("ends-soon", about(link), f"{by(link.signature)} ends on {ahead(left, scene.now)}")


def ends_before_ttl(scene: Scene, link: Link) -> Iterator[Odd]:
    """A cache that has it would keep it for longer, were it not for its signature."""
    left, ttl = scene.ahead(link.signature.expiration), link.signature.ttl
    if 0 <= left < ttl:
        text = f"{by(link.signature)} ends in {distance(left)}, before its original TTL of {distance(ttl)} is over"
        yield Odd("ends-before-ttl", about(link), text)


def begins_soon(scene: Scene, link: Link) -> Iterator[Odd]:
    """Of a signature beside the one that carries it, which can't be used yet."""
    for each in link.rrset.signatures:
        left = scene.ahead(each.inception)
        if 0 < left <= scene.soon:
            yield Odd("begins-soon", about(link), f"{by(each)} begins on {ahead(left, scene.now)}")


def ends_at_once(scene: Scene, zone: Zone) -> Iterator[Odd]:
    signed = {
        (rrset.owner, rrset.kind): [each.expiration for each in rrset.signatures if each.signer == zone.name]
        for rrset in scene.others_of(zone)
    }
    moments = {moment for each in signed.values() for moment in each}
    left = scene.ahead(moments.pop()) if len(moments) == 1 else -1
    if len(signed) >= FEW and left >= 0:
        text = f"all signatures of {len(signed)} RRsets of the zone end on {ahead(left, scene.now)}"
        yield Odd("ends-at-once", owned(zone.name, TYPE_RRSIG), text)
