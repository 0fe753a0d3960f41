"""Zones signed by ldns, BIND and Knot, around a moment."""

from __future__ import annotations

from datetime import datetime, timedelta, timezone
from typing import NamedTuple, Optional

from breaking.processes import ran
from breaking.zones import ECDSA, FORM, Keys, Room, zone_text

SERVER = "127.0.78.2"
NOW = datetime.now(timezone.utc).replace(microsecond=0)
BEGIN, END = timedelta(days=-10), timedelta(days=60)
KNOT = """database:
  storage: "{folder}/knot"
policy:
  - id: odd
    algorithm: ecdsap256sha256
    cds-cdnskey-publish: always
    rrsig-lifetime: 60d
template:
  - id: default
    storage: "{folder}"
zone:
  - domain: {zone}
    file: "{zone}.zone"
    dnssec-signing: on
    dnssec-policy: odd
"""


class Made(NamedTuple):
    """A zone as it is served, the DS records that its parent has of it, what is asked of it, and what is asked besides
    for the capture: names and types."""

    name: str
    lines: list[str]
    ds: list[str]
    question: tuple[str, str] = ("", "A")
    besides: tuple[tuple[str, str], ...] = ()

    @property
    def asked(self) -> tuple[str, str]:
        name, kind = self.question
        return name or f"www.{self.name}", kind


def moment(ahead: timedelta) -> str:
    """A moment so far from now, as signers read it."""
    return (NOW + ahead).strftime(FORM)


def new_key(room: Room, zone: str, *options: str, algorithm: str = ECDSA) -> str:
    """A key by the name of its files; `-k` has the flag SEP."""
    return ran(["ldns-keygen", "-a", algorithm, *options, zone], room.folder).strip()


def new_keys(room: Room, zone: str, *options: str, algorithm: str = ECDSA) -> Keys:
    entry, other = (new_key(room, zone, *options, *flag, algorithm=algorithm) for flag in (("-k",), ()))
    return Keys(entry, other)


def text_of(zone: str, *others: str) -> str:
    return zone_text(zone, SERVER, *others)


class Ldns(NamedTuple):
    """How ldns-signzone is run."""

    options: tuple[str, ...] = ()
    begin: timedelta = BEGIN
    end: timedelta = END


PLAIN = Ldns()


def by_ldns(room: Room, zone: str, text: str, keys: tuple[str, ...], how: Ldns = PLAIN) -> list[str]:
    """The lines of the signed zone, a record each."""
    window = ("-i", moment(how.begin), "-e", moment(how.end))
    room.write(f"{zone}.zone", text)
    ran(["ldns-signzone", *how.options, *window, "-f", f"{zone}.signed", f"{zone}.zone", *keys], room.folder)
    return records_in(room.text(f"{zone}.signed"))


def by_bind(room: Room, zone: str, text: str, keys: tuple[str, ...], *options: str) -> list[str]:
    """The same by dnssec-signzone, whose ends jitter where an option says so."""
    room.write(f"{zone}.zone", text + "".join(room.dnskey(key) for key in keys))
    window = ("-s", moment(BEGIN), "-e", moment(END))
    words = ["dnssec-signzone", "-O", "full", "-o", zone, *window, *options, "-f", f"{zone}.signed", f"{zone}.zone"]
    ran([*words, *keys], room.folder)
    return records_in(room.text(f"{zone}.signed"))


def by_knot(room: Room, zone: str, text: str) -> list[str]:
    """The same by kzonesign, which makes keys, and the CDS and CDNSKEY records of them."""
    room.write(f"{zone}.zone", text)
    room.write("knot.conf", KNOT.format(folder=room.folder, zone=zone))
    (room.folder / "knot").mkdir(exist_ok=True)
    ran(["kzonesign", "-c", "knot.conf", "-o", "knot", zone], room.folder)
    return records_in(room.text(f"knot/{zone}.zone"))


def records_in(text: str) -> list[str]:
    return [line for line in text.splitlines() if line and not line.startswith(";")]


def whole(
    room: Room, zone: str, *others: str, keys: Optional[Keys] = None, how: Ldns = PLAIN, more: tuple[str, ...] = ()
) -> Made:
    """A zone in order, signed by ldns; `more` are keys that sign besides."""
    keys = keys or new_keys(room, zone)
    lines = by_ldns(room, zone, text_of(zone, *others), (*keys, *more), how)
    return Made(zone, lines, [room.ds(keys).strip()])


def dnskey(room: Room, key: str) -> str:
    """The record of a key, as a line of its zone."""
    return room.dnskey(key).split(";")[0].strip()


def ds_by(room: Room, key: str, digest: str) -> str:
    """A DS record of the key by `-1`, `-2` or `-4`, without a TTL."""
    owner, _, *rest = ran(["ldns-key2ds", "-f", "-n", digest, f"{key}.key"], room.folder).split()
    return " ".join([owner, *rest])
