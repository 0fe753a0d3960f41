"""The incidents: how each zone breaks, and what is asked of it."""

from __future__ import annotations

from datetime import datetime, timedelta, timezone
from typing import Callable, NamedTuple

from .zones import FORM, PARENT, RELAY, RSA, SERVER, Keys, Room
from .zones import covering, exchanged, kind_of, of_kinds, without, zone_text


class Zone(NamedTuple):
    """A zone as it is served, and the DS records that its parent has of it; where it has none, the signature of its
    proof of that is over."""

    name: str
    lines: list[str]
    ds: str
    server: str = SERVER


class Incident(NamedTuple):
    """What is broken, what is asked, and how the zone of that name is made."""

    what: str
    zone: str
    owner: str
    make: Callable[[Room, str], Zone]

    @property
    def question(self) -> str:
        return f"{self.owner}.{self.zone}"


def moment(**ahead: int) -> str:
    """A moment that lies so far ahead, as the signer reads it."""
    return (datetime.now(timezone.utc) + timedelta(**ahead)).strftime(FORM)


def over() -> tuple[str, ...]:
    """What the signer is told for signatures whose time is over."""
    return "-i", moment(days=-60), "-e", moment(days=-30)


def whole(
    room: Room, name: str, *options: str, server: str = SERVER, others: tuple[str, ...] = ()
) -> tuple[Keys, Zone]:
    """A zone in order."""
    keys = room.new_keys(name)
    lines = room.signed(name, zone_text(name, server, *others), keys, *options)
    return keys, Zone(name, lines, room.ds(keys), server)


def stale_ds(room: Room, name: str) -> Zone:
    """The zone has new keys, of which its parent doesn't know."""
    former, _ = whole(room, name)
    return whole(room, name)[1]._replace(ds=room.ds(former))


def expired(room: Room, name: str) -> Zone:
    return whole(room, name, *over())[1]


def gost_alone(room: Room, name: str) -> Zone:
    """The one DS record has a digest type that hardly anybody reads."""
    zone = whole(room, name)[1]
    front, digest_type, digest = zone.ds.rsplit(maxsplit=2)
    assert digest_type == "2"
    return zone._replace(ds=f"{front} 3 {digest}\n")


def algorithm_half_rolled(room: Room, name: str) -> Zone:
    """The keys and the DS are of the new algorithm, and all else is signed by the old one."""
    old = room.signed(name, zone_text(name, SERVER), room.new_keys(name, RSA))
    _, new = whole(room, name)
    return new._replace(lines=exchanged(old, new.lines, of_kinds("DNSKEY")))


def ds_too_early(room: Room, name: str) -> Zone:
    """The DS names the key that is to come, which is published and signs nothing yet."""
    coming = room.new_keys(name)
    return whole(room, name, others=(room.dnskey(coming.keys).strip(),))[1]._replace(ds=room.ds(coming))


def nsec3_hole(room: Room, name: str) -> Zone:
    """The NSEC3 record is gone in whose gap the hash of the name is that is asked for; it isn't that of the apex."""
    zone = whole(room, name, "-n", "-t", "0")[1]
    lost = covering(f"{IN_HOLE}.{name}", zone.lines)
    return zone._replace(lines=without(zone.lines, lambda line: line.startswith(lost)))


def no_nsec3(room: Room, name: str) -> Zone:
    zone = whole(room, name, "-n", "-t", "0")[1]
    return zone._replace(lines=without(zone.lines, of_kinds("NSEC3", "NSEC3PARAM")))


def no_signature(room: Room, name: str) -> Zone:
    zone = whole(room, name)[1]
    is_lost = {f"www.{name}.", "RRSIG A"}
    return zone._replace(lines=without(zone.lines, lambda line: is_lost == {line.split()[0], kind_of(line)}))


def signed_ahead(room: Room, name: str) -> Zone:
    """The signer's clock goes three hours fast."""
    return whole(room, name, "-i", moment(hours=3), "-e", moment(days=28))[1]


def unsigned(room: Room, name: str) -> Zone:
    keys = room.new_keys(name)
    return Zone(name, zone_text(name, SERVER).splitlines(), room.ds(keys))


def alias(room: Room, name: str) -> Zone:
    return whole(room, name, others=(f"web CNAME www.{EXPIRED}.",))[1]


def wildcard(room: Room, name: str) -> Zone:
    """The zone has lost its NSEC records, without which no answer from its wildcard counts."""
    zone = whole(room, name, others=("*.w A 192.0.2.2",))[1]
    return zone._replace(lines=without(zone.lines, of_kinds("NSEC")))


def truncated(room: Room, name: str) -> Zone:
    """Keys that don't fit into a datagram, of a server to which nobody comes by TCP."""
    keys = room.new_keys(name, RSA)
    lines = room.signed(name, zone_text(name, RELAY), keys)
    return Zone(name, lines, room.ds(keys), RELAY)


def standby_key(room: Room, name: str) -> Zone:
    """The parent has a DS of a key on standby as well, which is published and signs nothing. The signature over the
    keys, by the other one, is over; all else was signed again since. The key on standby has the greater key tag,
    since it is the one with the greater that unbound tells of."""
    keys, standby = sorted((room.new_keys(name), room.new_keys(name)))
    text = zone_text(name, SERVER, room.dnskey(standby.keys).strip())
    former = room.signed(name, text, keys, *over())
    lines = exchanged(room.signed(name, text, keys), former, lambda line: kind_of(line) == "RRSIG DNSKEY")
    return Zone(name, lines, room.ds(standby) + room.ds(keys))


def island(room: Room, name: str) -> Zone:
    """The zone signs, and its parent has no DS of it, which the parent doesn't prove any more."""
    return whole(room, name)[1]._replace(ds="")


EXPIRED, IN_HOLE = f"expired.{PARENT}", "mail"
INCIDENTS = (
    Incident("stale DS", f"stale.{PARENT}", "www", stale_ds),
    Incident("expired", EXPIRED, "www", expired),
    Incident("GOST alone", f"gost.{PARENT}", "www", gost_alone),
    Incident("algorithm roll half done", f"half.{PARENT}", "www", algorithm_half_rolled),
    Incident("DS moved too early", f"early.{PARENT}", "www", ds_too_early),
    Incident("NSEC3 hole", f"hole.{PARENT}", IN_HOLE, nsec3_hole),
    Incident("no NSEC3 sent", f"bare.{PARENT}", "web", no_nsec3),
    Incident("one RRSIG missing", f"lost.{PARENT}", "www", no_signature),
    Incident("signed three hours ahead", f"ahead.{PARENT}", "www", signed_ahead),
    Incident("unsigned with a DS", f"unsig.{PARENT}", "www", unsigned),
    Incident("alias into an expired zone", f"alias.{PARENT}", "web", alias),
    Incident("wildcard without its proof", f"wild.{PARENT}", "any.w", wildcard),
    Incident("DNSKEY truncated", f"big.{PARENT}", "www", truncated),
    Incident("expired beside a standby key", f"standby.{PARENT}", "www", standby_key),
    Incident("island whose proof expired", f"island.{PARENT}", "www", island),
)
