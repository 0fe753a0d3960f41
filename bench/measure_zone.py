#!/usr/bin/env python3
"""Measures `dnssec_check-judge --zone` over the transfer of a large zone, and over the same without one record.

ldns-signzone (Debian's ldnsutils) signs the zone with NSEC. It has its own name, its name server's and so many hosts.
All of it has to be proved; then the address of the host in the middle is taken out, and has to be told by its name. For
each of the two it prints what the tool says, the seconds of a processor that this and the programs that it runs took,
by one process (--jobs 1), and those of the clock. To make the zone isn't counted. It needs the built program (make),
ldnsutils and PYTHONPATH=tools.

exit status: 0, all is measured; 1, a run failed, or ended otherwise than it has to; 2, the command line is wrong; 130,
it was interrupted.
"""

from __future__ import annotations

import os
import pathlib
import subprocess
import sys
import tempfile
import time
from typing import NamedTuple, Sequence

import dns.rdata
from dns.rdataclass import IN
from dns.rdatatype import RdataType
from measure_shapes import PROGRAM

from breaking.processes import Broken
from breaking.zones import Room, zone_text
from dnssec_check_tools import command
from dnssec_check_tools.capturing.frames import framed
from dnssec_check_tools.wire import header, name_octets, question, record, written

JUDGE = pathlib.Path(__file__).resolve().parent.parent / "tools" / "judge"
ZONE, HOSTS = "big.test", 20_000
WINDOW = ("-i", "20261101000000", "-e", "20270301000000")
DAY = "2026-12-01"  # within
RECORDS = 200  # of a message
AXFR = 252
SECURE, BOGUS = 0, 5


class Record(NamedTuple):
    """A record of the zone: its owner and type as text, and its octets."""

    owner: str
    kind: str
    octets: bytes


class Zone(NamedTuple):
    """A signed zone, and the anchor of its keys, a line of the program's."""

    records: list[Record]
    anchor: str


class Costs(NamedTuple):
    """How a run ended, what it said, and the seconds of a processor and of the clock that it took."""

    status: int
    lines: list[str]
    processor: float
    clock: float


def host(number: int) -> str:
    return f"h{number}"


def record_of(line: str) -> Record:
    owner, ttl, _, kind, rdata = line.split(None, 4)
    octets = written(dns.rdata.from_text(IN, kind, rdata))
    return Record(owner, kind, record(name_octets(owner), RdataType.make(kind), octets, int(ttl)))


def signed(folder: pathlib.Path, hosts: int) -> Zone:
    room = Room(folder)
    keys = room.new_keys(ZONE)
    addresses = (f"{host(number)} A 10.{number >> 16}.{number >> 8 & 255}.{number & 255}" for number in range(1, hosts))
    lines = room.signed(ZONE, zone_text(ZONE, "192.0.2.53", *addresses), keys, *WINDOW)
    return Zone([record_of(line) for line in lines], f"DS {ZONE}. {' '.join(room.ds(keys).split()[3:7])}\n")


def transfer(records: Sequence[Record]) -> bytes:
    """A capture of the transfer (RFC 5936 2.2), in whose first message alone the question is."""
    soa = [each.octets for each in records if each.kind == "SOA"]
    ordered = [*soa, *(each.octets for each in records if each.kind != "SOA"), *soa]
    messages = []
    for place in range(0, len(ordered), RECORDS):
        asked, some = b"" if place else question(name_octets(ZONE), AXFR), ordered[place : place + RECORDS]
        messages.append(header(1, (1 if asked else 0, len(some), 0, 0)) + asked + b"".join(some))
    return framed(messages)


def processor_seconds() -> float:
    """That the processes that this one waited for had of a processor."""
    had = os.times()
    return had.children_user + had.children_system


def judged(folder: pathlib.Path, zone: Zone) -> Costs:
    (folder / "transfer.cap").write_bytes(transfer(zone.records))
    (folder / "anchors").write_text(zone.anchor)
    given = ["--program", str(PROGRAM), "--jobs", "1", "--at", DAY, "--anchors", str(folder / "anchors"), "--zone"]
    before, begin = processor_seconds(), time.monotonic()
    words = [sys.executable, str(JUDGE), *given, str(folder / "transfer.cap")]
    done = subprocess.run(words, capture_output=True, check=False)
    took = time.monotonic() - begin
    sys.stderr.write(done.stderr.decode())
    return Costs(done.returncode, done.stdout.decode().splitlines(), processor_seconds() - before, took)


def say(what: str, costs: Costs) -> None:
    for line in costs.lines:
        print(f"  {line}")
    print(f"{what}: {costs.processor:.1f} seconds of a processor, {costs.clock:.1f} by the clock", flush=True)


def measure(folder: pathlib.Path, hosts: int) -> bool:
    """Whether all of the zone is proved, and what is taken out is told."""
    zone = signed(folder, hosts)
    whole = judged(folder, zone)
    say("all of it", whole)
    lost = f"{host(hosts // 2)}.{ZONE}."
    left = [each for each in zone.records if (each.owner, each.kind) != (lost, "A")]
    without = judged(folder, Zone(left, zone.anchor))
    say(f"without {lost} A", without)
    verdict, sentence = f"{lost} A: Bogus", f"  FAIL {lost} A: nobody asked for it, or its answer was lost"
    if len(left) + 1 != len(zone.records) or whole.status != SECURE:
        command.tell(f"the whole zone: status {whole.status}")
        return False
    is_told = without.lines[:1] == [verdict] and any(line.startswith(sentence) for line in without.lines)
    if without.status != BOGUS or not is_told:
        command.tell(f"without {lost} A: status {without.status}, and not {BOGUS} with `{verdict}` and its sentence")
        return False
    return True


def main(words: Sequence[str]) -> int:
    parser = command.parser_of(__doc__)
    parser.add_argument(
        "hosts", metavar="HOSTS", type=int, nargs="?", default=HOSTS, help="how many; 20,000 by default"
    )
    hosts = parser.parse_args(words).hosts
    if not 2 <= hosts < 1 << 24:
        parser.error("there are two hosts at least, and fewer than 16,777,216")
    try:
        with tempfile.TemporaryDirectory() as folder:
            return 0 if measure(pathlib.Path(folder), hosts) else 1
    except (Broken, OSError) as fault:
        command.tell(fault)
        return 1


if __name__ == "__main__":
    command.run(main)
