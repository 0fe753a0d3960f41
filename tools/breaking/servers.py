"""Servers on loopback alone: of the zones, and a resolver that validates by the key of the parent."""

from __future__ import annotations

import contextlib
import socket
import socketserver
import threading
from pathlib import Path
from typing import Iterator, Sequence

from .incidents import INCIDENTS, Zone, over
from .processes import running, wait_for_server
from .zones import PARENT, PARENT_SERVER, RELAY, SERVER, Keys, Room, exchanged, kind_of, zone_text

RESOLVER, DNS, BEHIND_RELAY = "127.0.77.1", 53, 5377
SMALL = 512  # octets of the largest datagram of the server behind the relay
SECONDS = 2

NSD = """server:
  ip-address: {address}@{port}
  zonesdir: "{folder}"
  pidfile: "{folder}/{name}.pid"
  xfrdfile: ""
  zonelistfile: "{folder}/{name}.list"
  database: ""
  username: root
  ipv4-edns-size: {size}
remote-control:
  control-enable: no
"""
UNBOUND = """server:
  interface: {address}
  directory: "{folder}"
  pidfile: "{folder}/unbound.pid"
  chroot: ""
  username: ""
  use-syslog: no
  do-daemonize: no
  do-not-query-localhost: no
  local-zone: "." static
  local-zone: "{parent}." transparent
  trust-anchor-file: "{parent}.ds"
stub-zone:
  name: {parent}
  stub-addr: {server}
remote-control:
  control-enable: no
"""


class Relay(socketserver.BaseRequestHandler):
    """Hands a datagram to the server behind it, and what comes back to who sent it."""

    def handle(self) -> None:
        octets, back = self.request
        with socket.socket(socket.AF_INET, socket.SOCK_DGRAM) as ahead, contextlib.suppress(OSError):
            ahead.settimeout(SECONDS)
            ahead.sendto(octets, (RELAY, BEHIND_RELAY))
            back.sendto(ahead.recv(65535), self.client_address)


@contextlib.contextmanager
def relay() -> Iterator[None]:
    with socketserver.ThreadingUDPServer((RELAY, DNS), Relay) as server:
        thread = threading.Thread(target=server.serve_forever, args=(0.1,), daemon=True)
        thread.start()
        try:
            yield
        finally:
            server.shutdown()
            thread.join()


@contextlib.contextmanager
def nsd(room: Room, name: str, zones: Sequence[str], address: str, port: int = DNS, size: int = 1232) -> Iterator[None]:
    """NSD with these zones, each of which lies in a file of its name."""
    text = NSD.format(folder=room.folder, name=name, address=address, port=port, size=size)
    for zone in zones:
        text += f"zone:\n  name: {zone}\n  zonefile: {zone}.served\n"
    room.write(f"{name}.conf", text)
    with running(["nsd", "-d", "-c", f"{name}.conf"], room.folder) as process:
        wait_for_server(process, (address, port))
        yield


@contextlib.contextmanager
def resolver(folder: Path) -> Iterator[None]:
    """A resolver with an empty cache."""
    with running(["unbound", "-d", "-c", "unbound.conf"], folder) as process:
        wait_for_server(process, (RESOLVER, DNS))
        yield


def laid(room: Room) -> list[Zone]:
    """The zones of all incidents, and their parent, in the files that are served; and what trusts the parent."""
    zones = [each.make(room, each.zone) for each in INCIDENTS]
    delegations = []
    for zone in zones:
        room.write(f"{zone.name}.served", "\n".join(zone.lines) + "\n")
        label = zone.name.removesuffix(f".{PARENT}")
        delegations += [f"{label} NS ns.{label}", f"ns.{label} A {zone.server}", zone.ds.strip()]
    keys = room.new_keys(PARENT)
    lines = parent_of(zones, room, zone_text(PARENT, PARENT_SERVER, *delegations), keys)
    room.write(f"{PARENT}.served", "\n".join(lines) + "\n")
    lay_anchors(room, room.ds(keys), room.dnskey(keys.keys))
    return zones


def parent_of(zones: Sequence[Zone], room: Room, text: str, keys: Keys) -> list[str]:
    """The parent's lines; where it has no DS of a zone, the signature of the record that says so is over."""
    islands = {f"{zone.name}." for zone in zones if not zone.ds}
    lines, former = room.signed(PARENT, text, keys), room.signed(PARENT, text, keys, *over())
    return exchanged(lines, former, lambda line: line.split()[0] in islands and kind_of(line) == "RRSIG NSEC")


def lay_anchors(room: Room, ds: str, dnskey: str) -> None:
    """The parent's key as an anchor, in the form of each program that takes it."""
    room.write(f"{PARENT}.ds", ds)
    room.write(f"{PARENT}.key", dnskey)
    tag, algorithm, kind, digest = ds.split()[-4:]
    anchor = f'trust-anchors {{ {PARENT} static-ds {tag} {algorithm} {kind} "{digest}"; }};\n'
    room.write("delv.anchors", anchor)
    values = {"folder": room.folder, "parent": PARENT, "server": PARENT_SERVER, "address": RESOLVER}
    room.write("unbound.conf", UNBOUND.format(**values))


@contextlib.contextmanager
def served(room: Room) -> Iterator[None]:
    """All zones with their servers."""
    zones = laid(room)
    by_server: dict[str, list[str]] = {}
    for zone in zones:
        by_server.setdefault(zone.server, []).append(zone.name)
    with contextlib.ExitStack() as stack:
        stack.enter_context(nsd(room, "parent", [PARENT], PARENT_SERVER))
        stack.enter_context(nsd(room, "children", by_server[SERVER], SERVER))
        stack.enter_context(nsd(room, "behind", by_server[RELAY], RELAY, BEHIND_RELAY, SMALL))
        stack.enter_context(relay())
        yield
