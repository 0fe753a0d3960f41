"""What is odd of keys, and of the records that name them, each beside what just isn't."""

from __future__ import annotations

import base64
import hashlib
from breaking.processes import ran
from breaking.zones import RSA, Keys, Room

from .numbers import KSK, ZSK, curve_keys_of_one_tag, rsa_key
from .signing import Ldns, Made, by_knot, by_ldns, dnskey, ds_by, new_key, new_keys, text_of, whole

RSA_SHA_1, RSA_SHA_512, GOST, GOST_DIGEST = "RSASHA1", "RSASHA512", 12, 3
LENGTH = ("-b", "2048")
SMALL_EXPONENT, COMMON_EXPONENT, LARGE_EXPONENT = 3, 65537, (1 << 32) + 15


def noise(zone: str, size: int) -> bytes:
    """Octets that look like a key or a digest of an algorithm that no signer makes any more."""
    return hashlib.shake_256(zone.encode()).digest(size)


def sha1_key(room: Room, zone: str, is_odd: bool) -> Made:
    return whole(room, zone, keys=new_keys(room, zone, *LENGTH, algorithm=RSA_SHA_1 if is_odd else RSA))


def sha1_ds(room: Room, zone: str, is_odd: bool) -> Made:
    keys = new_keys(room, zone)
    digests = ["-1"] if is_odd else ["-1", "-2"]
    return whole(room, zone, keys=keys)._replace(ds=[ds_by(room, keys.keys, each) for each in digests])


def gost_key(room: Room, zone: str, is_odd: bool) -> Made:
    """A key that is published, and signs nothing."""
    gost = f"@ DNSKEY {ZSK} 3 {GOST} {base64.b64encode(noise(zone, 64)).decode()}"
    return whole(room, zone, gost if is_odd else dnskey(room, new_key(room, zone)))


def gost_ds(room: Room, zone: str, is_odd: bool) -> Made:
    """One besides that is read."""
    keys = new_keys(room, zone)
    made = whole(room, zone, keys=keys)
    front = made.ds[0].rsplit(maxsplit=2)[0]
    gost = f"{front} {GOST_DIGEST} {noise(zone, 32).hex()}"
    return made._replace(ds=[*made.ds, gost if is_odd else ds_by(room, keys.keys, "-1")])


def old_key(room: Room, zone: str, is_odd: bool) -> Made:
    return whole(room, zone, keys=new_keys(room, zone, *LENGTH, algorithm=RSA_SHA_512 if is_odd else RSA))


def rsa_short(room: Room, zone: str, is_odd: bool) -> Made:
    return whole(room, zone, keys=new_keys(room, zone, "-b", "1024" if is_odd else "2048", algorithm=RSA))


def with_exponent(room: Room, zone: str, exponent: int) -> Made:
    keys = Keys(rsa_key(room, zone, KSK, exponent), rsa_key(room, zone, ZSK, COMMON_EXPONENT))
    lines = by_ldns(room, zone, text_of(zone), keys)
    return Made(zone, lines, [ds_by(room, keys.keys, "-2")])


def rsa_exponent(room: Room, zone: str, is_odd: bool) -> Made:
    return with_exponent(room, zone, SMALL_EXPONENT if is_odd else COMMON_EXPONENT)


def rsa_exponent_large(room: Room, zone: str, is_odd: bool) -> Made:
    return with_exponent(room, zone, LARGE_EXPONENT if is_odd else (1 << 31) + 11)


def ds_without_key(room: Room, zone: str, is_odd: bool) -> Made:
    made = whole(room, zone)
    return made._replace(ds=[*made.ds, room.ds(new_keys(room, zone)).strip()] if is_odd else made.ds)


def standby_key(room: Room, zone: str, is_odd: bool) -> Made:
    """A second key for all but the keys, which is only published, or signs too."""
    other = new_key(room, zone)
    return whole(room, zone, dnskey(room, other)) if is_odd else whole(room, zone, more=(other,))


def revoked_key(room: Room, zone: str, is_odd: bool) -> Made:
    """A second key that signs the keys, and is revoked or not."""
    other = new_key(room, zone, "-k")
    if is_odd:
        ran(["ldns-revoke", f"{other}.key"], room.folder)
    return whole(room, zone, how=Ldns(("-A",)), more=(other,))


def sep_flag(room: Room, zone: str, is_odd: bool) -> Made:
    """One key for all, without the flag or with it."""
    key = new_key(room, zone, *(() if is_odd else ("-k",)))
    return Made(zone, by_ldns(room, zone, text_of(zone), (key,)), [ds_by(room, key, "-2")])


def same_tag(room: Room, zone: str, is_odd: bool) -> Made:
    """Two keys for all but the keys."""
    both = curve_keys_of_one_tag(room, zone) if is_odd else (new_key(room, zone), new_key(room, zone))
    entry = new_key(room, zone, "-k")
    text = text_of(zone, *(dnskey(room, key) for key in both))
    return Made(zone, by_ldns(room, zone, text, (entry, *both)), [ds_by(room, entry, "-2")])


def algorithm_unsigned(room: Room, zone: str, is_odd: bool) -> Made:
    """Keys of two algorithms, of which the second signs nothing yet."""
    coming = new_keys(room, zone, *LENGTH, algorithm=RSA)
    if is_odd:
        return whole(room, zone, dnskey(room, coming.keys), dnskey(room, coming.others))
    return whole(room, zone, how=Ldns(("-U", "-A")), more=coming)


def large_keys(room: Room, zone: str, is_odd: bool) -> Made:
    """Three keys of 2048 bits besides, or two."""
    entry, other = (new_key(room, zone, *LENGTH, *option, algorithm=RSA) for option in (("-k",), ()))
    more = [dnskey(room, new_key(room, zone, *LENGTH, algorithm=RSA)) for _ in range(2 if is_odd else 1)]
    lines = by_ldns(room, zone, text_of(zone, *more), (entry, other))
    return Made(zone, lines, [ds_by(room, entry, "-2")])


def cds_and_keys(room: Room, zone: str, is_odd: bool) -> Made:
    """Of another key, or of the one that leads into the zone."""
    keys = new_keys(room, zone)
    named = new_key(room, zone, "-k") if is_odd else keys.keys
    cds = " ".join(ds_by(room, named, "-2").split()[3:])
    made = whole(room, zone, f"@ CDS {cds}", f"@ CDNSKEY {dnskey(room, named).split(maxsplit=3)[3]}", keys=keys)
    return made._replace(besides=((zone, "CDS"), (zone, "CDNSKEY")))


def cds_and_ds(room: Room, zone: str, is_odd: bool) -> Made:
    """Knot asks for SHA-256; the parent has SHA-384 or that."""
    lines = by_knot(room, zone, text_of(zone))
    key = next(line for line in lines if line.split()[2:4] == ["DNSKEY", str(KSK)])
    room.write(f"{zone}-entry.key", key + "\n")
    ds = ds_by(room, f"{zone}-entry", "-4" if is_odd else "-2")
    return Made(zone, lines, [ds], besides=((zone, "CDS"), (zone, "CDNSKEY")))
