"""Zones that ldns-signzone signs, and their transfers as a server sends them."""
import pathlib
import shutil
import struct
import subprocess
import tempfile

import dns.message
import dns.rdatatype
import dns.zone

SIGNER = shutil.which("ldns-signzone")
ZONE = "example."
BEGIN, NOON, END = "20261101000000", 1796126400, "20270301000000"  # within is 2026-12-01, noon
AXFR, SOA, RRSIG = 252, 6, 46
RESPONSE = 0x8400
NSEC, NSEC3, OPT_OUT = (), ("-n", "-t", "5", "-s", "abcd"), ("-n", "-p", "-t", "0")
SMALL = """
@ IN SOA ns.example. host.example. 1 7200 3600 1209600 600
@ IN NS ns
ns IN A 192.0.2.1
www IN A 192.0.2.2
www IN A 192.0.2.3
www IN AAAA 2001:db8::2
mail IN MX 10 www
alias IN CNAME www
a.b.c IN TXT "deep"
*.wild IN TXT "any"
wild IN A 192.0.2.9
signed IN NS ns.signed
ns.signed IN A 192.0.2.11
signed IN DS 12345 13 2 0123456789abcdef0123456789abcdef0123456789abcdef0123456789abcdef
plain IN NS ns.plain
ns.plain IN A 192.0.2.12
moved IN DNAME other.example.
"""


def run(folder, *words):
    return subprocess.run(words, cwd=folder, check=True, capture_output=True, text=True).stdout.split()


def signed(text, options):
    """The records of the zone, each an owner, a TTL and RDATA, and its anchor, a line of the program's."""
    with tempfile.TemporaryDirectory() as room:
        folder = pathlib.Path(room)
        (folder / "zone").write_text(f"$ORIGIN {ZONE}\n$TTL 3600{text}")
        algorithm = ("-a", "ECDSAP256SHA256")
        keys = [run(folder, "ldns-keygen", *algorithm, *kind, ZONE)[0] for kind in (("-k",), ())]
        run(folder, SIGNER, *options, "-i", BEGIN, "-e", END, "-f", "signed", "zone", *keys)
        anchor = (folder / f"{keys[0]}.ds").read_text().split()
        found = dns.zone.from_file(str(folder / "signed"), ZONE, relativize=False, check_origin=False)
    return list(found.iterate_rdatas()), f"DS {ZONE} {' '.join(anchor[3:7])}\n"


def octets_of(record):
    owner, ttl, rdata = record
    octets = rdata.to_wire()
    return owner.to_wire() + struct.pack("!HHIH", rdata.rdtype, 1, ttl, len(octets)) + octets


def message(records, question=b""):
    header = struct.pack("!6H", 77, RESPONSE, 1 if question else 0, len(records), 0, 0)
    return header + question + b"".join(map(octets_of, records))


def transfer(records, count=20):
    """The messages of a transfer (RFC 5936 2.2), with so many records each; the question is in the first alone."""
    soa = [each for each in records if each[2].rdtype == SOA]
    ordered = [*soa, *(each for each in records if each[2].rdtype != SOA), *soa]
    asked = dns.name.from_text(ZONE).to_wire() + struct.pack("!HH", AXFR, 1)
    return [message(ordered[place:place + count], b"" if place else asked) for place in range(0, len(ordered), count)]


def kind_of(record):
    """Its type by mnemonic; of a signature what it covers too."""
    rdata = record[2]
    kind = dns.rdatatype.to_text(rdata.rdtype)
    return f"{kind} {dns.rdatatype.to_text(rdata.covers())}" if rdata.rdtype == RRSIG else kind
