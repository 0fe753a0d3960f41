"""What is odd of times, of answers and of denials, each beside what just isn't."""

from __future__ import annotations

from datetime import timedelta

from breaking.zones import Room, kind_of, of_kinds, without

from .asking import UNSIGNED
from .signing import Ldns, Made, by_bind, by_ldns, new_keys, text_of, whole

DAYS = timedelta(days=1)


def ends_soon(room: Room, zone: str, is_odd: bool) -> Made:
    """By a day on either side of a week."""
    return whole(room, zone, how=Ldns(end=6 * DAYS if is_odd else 8 * DAYS))


def ends_before_ttl(room: Room, zone: str, is_odd: bool) -> Made:
    """A TTL of a day, and half a day or one and a half."""
    made = whole(room, zone, "long 86400 A 192.0.2.1", how=Ldns(end=DAYS / 2 if is_odd else 3 * DAYS / 2))
    return made._replace(question=(f"long.{zone}", "A"))


def begins_soon(room: Room, zone: str, is_odd: bool) -> Made:
    """A second signature, which begins in two days, or in eight."""
    keys = new_keys(room, zone)
    made = whole(room, zone, keys=keys)
    ahead = by_ldns(room, zone, text_of(zone), keys, Ldns(begin=2 * DAYS if is_odd else 8 * DAYS))
    more = [line for line in ahead if (line.split()[0], kind_of(line)) == (f"www.{zone}.", "RRSIG A")]
    return made._replace(lines=made.lines + more)


def ends_at_once(room: Room, zone: str, is_odd: bool) -> Made:
    """No such name, by a signer that spreads ends or doesn't."""
    keys, text = new_keys(room, zone), text_of(zone)
    lines = by_ldns(room, zone, text, keys) if is_odd else by_bind(room, zone, text, keys, "-j", "2000000")
    return Made(zone, lines, [room.ds(keys).strip()], (f"other.{zone}", "A"))


def ttl_differs(room: Room, zone: str, is_odd: bool) -> Made:
    """The TTL of one of two addresses is lower, behind the signer."""
    made = whole(room, zone, "www A 192.0.2.2")
    return made._replace(
        lines=[with_ttl(line, "200") if is_odd and "192.0.2.2" in line else line for line in made.lines]
    )


def ttl_above_original(room: Room, zone: str, is_odd: bool) -> Made:
    """The TTL was raised behind the signer; or the signer knows of it."""
    made = whole(room, zone, f"high {300 if is_odd else 600} A 192.0.2.2")
    is_high = f"high.{zone}."
    lines = [with_ttl(line, "600") if line.split()[0] == is_high else line for line in made.lines]
    return made._replace(lines=lines, question=(f"high.{zone}", "A"))


def with_ttl(line: str, ttl: str) -> str:
    owner, _, *rest = line.split()
    return " ".join([owner, ttl, *rest])


def alias_chain(room: Room, zone: str, is_odd: bool) -> Made:
    made = whole(room, zone, "web CNAME site", f"site {'CNAME www' if is_odd else 'A 192.0.2.1'}")
    return made._replace(question=(f"web.{zone}", "A"))


def alias_into_unsigned(room: Room, zone: str, is_odd: bool) -> Made:
    made = whole(room, zone, f"web CNAME www{'.' + UNSIGNED + '.' if is_odd else ''}")
    besides = ((UNSIGNED, "DS"), (f"www.{UNSIGNED}", "A")) if is_odd else ()
    return made._replace(question=(f"web.{zone}", "A"), besides=besides)


def hashed(room: Room, zone: str, *options: str) -> Made:
    """No such type, by NSEC3."""
    return whole(room, zone, how=Ldns(("-n", *options)))._replace(question=(f"www.{zone}", "TXT"))


def nsec3_iterations(room: Room, zone: str, is_odd: bool) -> Made:
    return hashed(room, zone, "-t", "1" if is_odd else "0")


def nsec3_many_iterations(room: Room, zone: str, is_odd: bool) -> Made:
    return hashed(room, zone, "-t", "101" if is_odd else "100")


def nsec3_salt(room: Room, zone: str, is_odd: bool) -> Made:
    return hashed(room, zone, "-t", "0", *(("-s", "abcd") if is_odd else ()))


def opt_out_over_signed(room: Room, zone: str, is_odd: bool) -> Made:
    """The delegation got its DS record, and the chain is still the one of before, or was made anew."""
    keys, how, below = new_keys(room, zone), ("-3", "-", "-H", "0", "-A"), f"sub.{zone}"
    unsigned = [f"sub NS ns.{below}.", "ns.sub A 192.0.2.3"]
    before = by_bind(room, zone, text_of(zone, *unsigned), keys, *how)
    after = by_bind(room, zone, text_of(zone, *unsigned, room.ds(new_keys(room, below)).strip()), keys, *how)
    hashes = of_kinds("NSEC3")
    lines = without(after, hashes) + [line for line in (before if is_odd else after) if hashes(line)]
    besides = tuple((f"no{number}.{zone}", "A") for number in range(6))
    return Made(zone, lines, [room.ds(keys).strip()], (below, "DS"), besides)


def chain_gap(room: Room, zone: str, is_odd: bool) -> Made:
    """A record of the chain is gone."""
    made = whole(room, zone, "mail A 192.0.2.2")
    is_lost = {f"mail.{zone}.", "NSEC"}
    lines = [line for line in made.lines if not (is_odd and {line.split()[0], kind_of(line).split()[-1]} == is_lost)]
    return made._replace(lines=lines)
