"""How a zone denies: the parameters of NSEC3, and what its Opt-Out spans."""
from typing import Iterator, List, Set

from ..capturing.messages import TYPE_DS, TYPE_NSEC3, lower
from ..explaining.values import counted, owned
from ..zones.chain import OPT_OUT, hash_of
from ..zones.names import Hashing
from .kinds import Odd
from .records import ITERATIONS_MOST, Nsec3, Rrset
from .scene import Link, Scene, Zone

MANY = 100  # iterations, with more of which validators take a zone for unsigned, or fail it


def records_of(scene: Scene, zone: Zone) -> Iterator[Nsec3]:
    return (record for rrset in scene.nsec3_of(zone) for record in rrset.nsec3)


def of_nsec3(word: str, zone: Zone, text: str) -> Odd:
    return Odd(word, owned(zone.name, TYPE_NSEC3), text)


def iterations_of(scene: Scene, zone: Zone) -> List[int]:
    return sorted({record.iterations for record in records_of(scene, zone)})


def nsec3_iterations(scene: Scene, zone: Zone) -> Iterator[Odd]:
    """Above none; above many is a kind of its own."""
    for count in iterations_of(scene, zone):
        if 0 < count <= MANY:
            yield of_nsec3("nsec3-iterations", zone, f"it has {counted(count, 'iteration')}, and is to have none")


def nsec3_many_iterations(scene: Scene, zone: Zone) -> Iterator[Odd]:
    for count in iterations_of(scene, zone):
        if count > MANY:
            text = f"it has {count} iterations: by that the zone is unsigned for some validators, or fails"
            yield of_nsec3("nsec3-many-iterations", zone, text)


def nsec3_salt(scene: Scene, zone: Zone) -> Iterator[Odd]:
    salts: Set[bytes] = {record.salt for record in records_of(scene, zone) if record.salt}
    for salt in sorted(salts):
        yield of_nsec3("nsec3-salt", zone, f"it has the salt {salt.hex()}, and is to have none")


def opt_out_over_signed(scene: Scene, link: Link) -> Iterator[Odd]:
    """A delegation with a DS record whose hash lies in a span of Opt-Out, by which it may as well be unsigned."""
    if link.rrset.kind == TYPE_DS and any(is_opted_out(link, each) for each in scene.nsec3_of(link.zone)):
        text = f"it is signed, and a record of {link.zone.name} with Opt-Out spans it"
        yield Odd("opt-out-over-signed", owned(link.rrset.owner, TYPE_DS), text)


def is_opted_out(link: Link, rrset: Rrset) -> bool:
    owner = hash_of(lower(rrset.labels)[0]) if rrset.labels else None
    return owner is not None and any(spans(owner, each, link) for each in rrset.nsec3)


def spans(owner: bytes, record: Nsec3, link: Link) -> bool:
    """Whether the record has Opt-Out, and the hash of the delegation is between its owner's and the next one."""
    if not record.flags & OPT_OUT or record.iterations > ITERATIONS_MOST:
        return False
    digest = Hashing(record.salt, record.iterations).digest(link.rrset.labels)
    if owner < record.following:
        return owner < digest < record.following
    return digest > owner or digest < record.following
