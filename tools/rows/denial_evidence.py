"""The messages of evidence of the rows of dnsv_denial, each of one RRset but where a whole chain is in one."""

from __future__ import annotations

from typing import Iterable, Iterator, Sequence

from denial_zones import DS, LOOSE, MIXED, NODES, NSECS, RFC5155, SMALL
from dnssec_check_tools.capturing.frames import framed
from dnssec_check_tools.wire import header, name_octets, nsec
from messages import DNSKEY, key_message, message, record, rrsig, signed
from zones import Hashing, Node, Zone, nsec3_chain, nsec_chain


def let(name: str, *records: bytes) -> str:
    return f"let {name} {message(*records).hex()}"


def lines() -> Iterator[str]:
    yield "let key " + key_message("example.").hex()
    for part in [by_nsec, by_ds, circles, by_rfc5155, chains]:
        yield from part()


def by_nsec() -> Iterator[str]:
    for each, (owner, following, types) in NSECS.items():
        yield let(each, signed(owner, "NSEC", nsec(following, types)))
    to_ns, to_a = NSECS["example>ns"], NSECS["example>a"]
    yield let("example>ns+example>a", *(signed(owner, "NSEC", nsec(*rest)) for owner, *rest in [to_ns, to_a]))
    last = nsec("example.", "A RRSIG NSEC")
    yield let("z>example:expanded", signed("z.example.", "NSEC", last, labels=1))
    yield let("z>example:bad", signed("z.example.", "NSEC", last, signature="00"))
    yield let("z>example:unknown", signed("z.example.", "NSEC", last, signature="ff"))
    own = nsec("sub.example.", "NS SOA RRSIG NSEC DNSKEY")
    yield let("sub:key", signed("sub.example.", "DNSKEY", DNSKEY, signer="sub.example."))
    yield let("sub>sub", signed("sub.example.", "NSEC", own, signer="sub.example."))
    yield "let x>x:two " + by_two_zones("x.example.", nsec("x.example.", "A RRSIG NSEC")).hex()


def by_two_zones(owner: str, rdata: bytes) -> bytes:
    """A message of an NSEC record that `example.` signed, and the root zone too."""
    root = record(name_octets(owner), "RRSIG", rrsig("NSEC", 2, "."))
    return framed([header(1, (0, 3, 0, 0)) + signed(owner, "NSEC", rdata) + root])


def by_ds() -> Iterator[str]:
    """DS records of `sub.example.`, those of one RRset in one message; and of other names and signers."""
    sets = [
        "sha256",
        "sha1",
        "gost",
        "of-gost",
        "gost+of-gost",
        "gost+of-gost+sha256",
        "gost+of-gost+sha256+sha1",
        "of-gost+sha1",
    ]
    for each in sets:
        yield let(f"ds:{each}", *(signed("sub.example.", "DS", DS[kind]) for kind in each.split("+")))
    gost = DS["gost"]
    yield let("ds:gost:by-sub", signed("sub.example.", "DS", gost, signer="sub.example."))
    yield let("ds:gost:expanded", signed("sub.example.", "DS", gost, labels=1))
    yield let("ds:gost:by-root", signed("sub.example.", "DS", gost, signer="."))
    for owner in ["example", "s.example", "a.sub.example"]:
        yield let(f"ds:gost:{owner}", signed(f"{owner}.", "DS", gost))


APEX = "NS SOA RRSIG DNSKEY"
TWELVE = Hashing(12, "aabbccdd")
# The hash of `example.` with these, as RFC 5155 appendix A has it.
HASH = "0P9MHAVEQVM6T7VBL5LOP2U3T2RP3TOM"


def circle(name: str, hashing: Hashing, owner: str = f"{HASH}.example.", labels: int | None = None, **rest: int) -> str:
    """A record whose next hash is that one."""
    return let(name, signed(owner, "NSEC3", hashing.nsec3(TWELVE.hash_of("example."), APEX, **rest), labels))


def circles() -> Iterator[str]:
    """Records of a zone with one name, as they are and as they can't be used."""
    yield circle("circle", TWELVE)
    yield circle("circle:open", Hashing(12, "aabbccdd", flags=1))
    yield circle("circle:501", Hashing(501, "aabbccdd"))
    yield circle("circle:flags-2", Hashing(12, "aabbccdd", flags=2))
    yield circle("circle:algorithm-2", TWELVE, algorithm=2)
    yield circle("circle:13", Hashing(13, "aabbccdd"))
    yield circle("circle:a.example", TWELVE, owner=f"{HASH}.a.example.")
    yield circle("circle:no-hash", TWELVE, owner=f"W{HASH[1:]}.example.")
    yield circle("circle:expanded", TWELVE, labels=1)
    for part in [plain_circles, covering]:
        yield from part()


def plain_circles() -> Iterator[str]:
    """Such records without iterations or salt: a circle, one with Opt-Out, and one whose gap is empty."""
    plain, opened = Hashing(), Hashing(flags=1)
    at = plain.hash_of("example.")
    owner = nsec3_chain([("example.", "")], plain)[0][0] + ".example."
    behind = (int.from_bytes(at, "big") + 1).to_bytes(20, "big")
    yield let("plain", signed(owner, "NSEC3", plain.nsec3(at, APEX)))
    yield let("plain:open", signed(owner, "NSEC3", opened.nsec3(at, "NS SOA")))
    yield let("plain:narrow", signed(owner, "NSEC3", plain.nsec3(behind, APEX)))


def covering() -> Iterator[str]:
    """Of twelve iterations, from 00..00 to ff..ff: it matches no name, and covers each."""
    yield let("covering", signed("0" * 32 + ".example.", "NSEC3", TWELVE.nsec3(b"\xff" * 20, "")))


def hashed(nodes: Sequence[Node], hashing: Hashing) -> list[bytes]:
    """The records of the chain of these nodes, each with its signature."""
    return [signed(f"{label}.example.", "NSEC3", rdata) for label, rdata in nsec3_chain(nodes, hashing)]


def by_rfc5155() -> Iterator[str]:
    """RFC 5155 appendix A: its NSEC3 records, and the same without the Opt-Out flag."""
    for zone, flags in [("rfc5155", 1), ("firm", 0)]:
        records = hashed(RFC5155, Hashing(12, "aabbccdd", flags))
        for (owner, _), each in zip(RFC5155, records):
            yield let(f"{zone}:{owner.removesuffix('.example.').rstrip('.')}", each)


def chains() -> Iterator[str]:
    """Whole chains, in one message each."""
    yield let("hashed", *hashed(NODES, TWELVE))
    yield let("hashed:open", *hashed(NODES[:6], Hashing(12, "aabbccdd", flags=1)))
    for name, zone in [("small", SMALL), ("mixed", MIXED)]:
        yield let(f"{name}:nsec", *(signed(owner, "NSEC", rdata) for owner, rdata in nsec_chain(zone)))
        yield let(f"{name}:nsec3", *hashed(typed(zone, zone.nodes()), Hashing(1, "ab")))
    for name, zone in [("small", SMALL), ("loose", LOOSE)]:
        yield let(f"{name}:open", *hashed(typed(zone, zone.signed_nodes()), Hashing(1, "ab", flags=1)))


def typed(zone: Zone, nodes: Iterable[str]) -> list[Node]:
    return [(node, " ".join(zone.types.get(node, []))) for node in nodes]
