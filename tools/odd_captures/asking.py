"""The zones served by NSD on loopback, and asked: each capture has the answers for one question."""

from __future__ import annotations

import contextlib
import socket
from typing import Iterator, Sequence

import dns.flags
import dns.message

from breaking.processes import running, wait_for_server
from breaking.zones import PARENT, Room
from dnssec_check_tools.capturing.frames import framed

from .signing import SERVER, Made, by_ldns, new_keys, text_of

SECONDS, PAYLOAD, DNS = 10, 4096, 53
UNSIGNED = f"plain.{PARENT}"
NSD = """server:
  ip-address: {address}
  zonesdir: "{folder}"
  pidfile: "{folder}/nsd.pid"
  xfrdfile: ""
  zonelistfile: "{folder}/nsd.list"
  database: ""
  username: root
  minimal-responses: yes
remote-control:
  control-enable: no
"""
ZONE = """zone:
  name: {name}
  zonefile: {name}.served
  provide-xfr: 127.0.0.0/8 NOKEY
"""


def asked(name: str, kind: str) -> bytes:
    """The answer to a question, with signatures, as it came over TCP."""
    question = dns.message.make_query(name, kind, want_dnssec=True, payload=PAYLOAD)
    question.flags &= ~dns.flags.RD
    return raw(question.to_wire())


def raw(question: bytes) -> bytes:
    """The octets of the answer."""
    with socket.create_connection((SERVER, DNS), SECONDS) as stream:
        stream.sendall(len(question).to_bytes(2, "big") + question)
        with stream.makefile("rb") as file:
            return file.read(int.from_bytes(file.read(2), "big"))


def captured(made: Made) -> bytes:
    """The chain of a zone, and the answers."""
    chain = [(PARENT, "DNSKEY"), (made.name, "DS"), (made.name, "DNSKEY")]
    return framed(asked(*each) for each in [*chain, *made.besides, made.asked])


def transferred(made: Made) -> bytes:
    """The chain of a zone, and its transfer."""
    chain = [(PARENT, "DNSKEY"), (made.name, "DS")]
    return framed([*(asked(*each) for each in chain), raw(dns.message.make_query(made.name, "AXFR").to_wire())])


@contextlib.contextmanager
def served(room: Room, zones: Sequence[Made]) -> Iterator[None]:
    """All zones, and their parent, whose key is the anchor, in the file `anchor`."""
    delegations = [f"plain NS ns.plain\nns.plain A {SERVER}"]
    for zone in zones:
        label = zone.name.removesuffix(f".{PARENT}")
        delegations += [f"{label} NS ns.{label}", f"ns.{label} A {SERVER}", *zone.ds]
    keys = new_keys(room, PARENT)
    parent = by_ldns(room, PARENT, text_of(PARENT, *delegations), keys)
    room.write("anchor", " ".join(room.ds(keys).split()) + "\n")
    texts = {PARENT: parent, UNSIGNED: text_of(UNSIGNED).splitlines(), **{zone.name: zone.lines for zone in zones}}
    for name, lines in texts.items():
        room.write(f"{name}.served", "\n".join(lines) + "\n")
    conf = NSD.format(address=SERVER, folder=room.folder) + "".join(ZONE.format(name=name) for name in texts)
    room.write("nsd.conf", conf)
    with running(["nsd", "-d", "-c", "nsd.conf"], room.folder) as process:
        wait_for_server(process, (SERVER, DNS))
        yield
