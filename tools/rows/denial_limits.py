"""Evidence at the limits of a capture and of names, and what has to come for the questions that are asked of it."""

from __future__ import annotations

from typing import Iterable, Iterator, Sequence

from dnssec_check_tools.capturing.frames import framed
from dnssec_check_tools.capturing.messages import HEADER_SIZE
from dnssec_check_tools.wire import header, label, nsec, pointer
from messages import key_message, message, name, record, rrsig, signed
from zones import Hashing, Node, child, hash_text, is_between, nsec3_chain, suffix, successors

# A zone of 1,025 names, so that each record of its chain is one of more than 1,000.
LARGE = [("example.", "NS SOA RRSIG")] + [(f"n{number:04}.example.", "A RRSIG") for number in range(1, 1025)]

# The root zone with a name of 126 labels, and all names above it.
DEEP = [(".", "NS SOA RRSIG")] + [("a." * labels, "A RRSIG" if labels == 126 else "") for labels in range(1, 127)]
DEEPEST = "b." + "a." * 126

SALTS = [f"{number:016x}" for number in range(1, 10)]


def lines() -> Iterator[str]:
    yield "let large " + ",".join(packed(part).hex() for part in parts(nsec3_chain(LARGE, Hashing())))
    yield "let root:key " + key_message(".").hex()
    yield "let circle:root " + message(signed(".", "NSEC", nsec(".", "NS SOA RRSIG NSEC"), signer=".")).hex()
    yield "let deep " + message(*deep_answer()).hex()
    for number, salt in enumerate(SALTS, 1):
        yield f"let salt:{number} " + message(of_salt(Hashing(500, salt), number == 8)).hex()
    yield "let salt:501 " + message(of_salt(Hashing(501, SALTS[8]), False)).hex()


def deep_answer() -> Iterator[bytes]:
    """The records that show that there is no DEEPEST, in the order of the zone's names."""
    hashing = Hashing(500, SALTS[0])
    chain = nsec3_chain(DEEP, hashing)
    for place in Chain(DEEP, hashing).no_name(DEEPEST, 126):
        hashed, rdata = chain[place - 2]
        yield signed(f"{hashed}.", "NSEC3", rdata, signer=".")


def parts(chain: list[tuple[str, bytes]]) -> list[list[tuple[str, bytes]]]:
    """The records in parts whose messages a pointer reaches all of (RFC 1035 4.1.4)."""
    return [chain[first : first + 140] for first in range(0, len(chain), 140)]


def packed(chain: list[tuple[str, bytes]]) -> bytes:
    """A message of records of `example.`, in which the owners after the first are written by pointers."""
    octets = b""
    zone = 0  # where the zone's name stands, once it does
    for each, rdata in chain:
        place, front = HEADER_SIZE + len(octets), label(each.encode())
        owner = front + (pointer(zone) if zone else name("example."))
        zone = zone or place + len(front)
        octets += record(owner, "NSEC3", rdata)
        octets += record(pointer(place), "RRSIG", rrsig("NSEC3", 2, "example."))
    return framed([header(1, (0, 2 * len(chain), 0, 0)) + octets])


def of_salt(hashing: Hashing, is_circle: bool) -> bytes:
    """A record of the root: a circle that covers all else, or one whose gap is empty."""
    at = hashing.hash_of(".")
    following = at if is_circle else (int.from_bytes(at, "big") + 1).to_bytes(20, "big")
    return signed(f"{hash_text(at)}.", "NSEC3", hashing.nsec3(following, "NS SOA"), signer=".")


class Chain:
    """The chain of all nodes of a zone, whose records are the RRsets of a capture from the second on."""

    def __init__(self, nodes: Sequence[Node], hashing: Hashing) -> None:
        self.hashing = hashing
        self.places = {hashing.hash_of(owner): place for place, (owner, _) in enumerate(nodes, 2)}
        self.following = successors(self.places)

    def match(self, owner: str) -> int | None:
        return self.places.get(self.hashing.hash_of(owner))

    def cover(self, owner: str) -> int:
        hashed = self.hashing.hash_of(owner)
        return [self.places[each] for each, end in self.following.items() if is_between(each, end, hashed)][0]

    def no_name(self, owner: str, labels: int) -> list[int]:
        """The records of the proof by the closest encloser with so many labels (RFC 5155 8.4)."""
        encloser, wildcard = suffix(owner, labels), child("*", suffix(owner, labels))
        matching = self.match(encloser)
        assert matching and not self.match(wildcard)
        return sorted({matching, self.cover(suffix(owner, labels + 1)), self.cover(wildcard)})


def told(zone: str, places: Iterable[int]) -> str:
    return " ".join([zone] + [f"{place}.1" for place in places])


def answers() -> Iterator[str]:
    """For the rows of `large`, in their order."""
    large = Chain(LARGE, Hashing())
    for owner, labels in [("z.example.", 1), ("x.n0001.example.", 2), ("y.x.n1024.example.", 2)]:
        yield told("example.", large.no_name(owner, labels)) + ", none, none"
    for owner in ["n0001.example.", "n0512.example.", "n1024.example."]:
        yield f"none, {told('example.', [large.match(owner) or 0])}, none"
    yield told("example.", [large.cover("x.n0512.example.")]) + ", none"
