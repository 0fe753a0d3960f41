"""Worked denials in the zone `example.`, and each of their RRsets left out: what isn't there proves nothing."""

from __future__ import annotations

import hashlib
from typing import Any, Iterator, NamedTuple, Sequence

from .documented import VERDICTS, kind_of, verdict_of
from .evidence import ANCHOR, DNSKEY, KEY, MOMENT, Rrset, TYPES, ds, name
from .runs import Answer, Bench, Case, Tried
from .tally import Tally

# pylint: disable=wrong-import-order
from dnssec_check_tools.wire import nsec
from zones import Hashing  # behind .evidence, which says where it is


class Worked(NamedTuple):
    title: str
    owner: str
    rtype: int
    wanted: list[str]
    rrsets: tuple[Rrset, ...]


def by_nsec(owner: str, following: str, types: str) -> Rrset:
    return Rrset(owner, "NSEC", (nsec(following, f"{types} RRSIG NSEC"),))


def circle(iterations: int, flags: int = 0) -> Rrset:
    """The one NSEC3 record of a zone of one name, whose hash RFC 5155 appendix A has."""
    following = Hashing(12, "aabbccdd").hash_of("example.")
    rdata = Hashing(iterations, "aabbccdd", flags).nsec3(following, "NS SOA RRSIG DNSKEY")
    return Rrset("0P9MHAVEQVM6T7VBL5LOP2U3T2RP3TOM.example.", "NSEC3", (rdata,))


ADDRESS = bytes.fromhex("c0000201")
APEX = by_nsec("example.", "ns.example.", "NS SOA DNSKEY")
LAST = by_nsec("z.example.", "example.", "A")
INNER = by_nsec("a.example.", "x.b.example.", "A")
SIGNED_CUT = by_nsec("sub.example.", "t.example.", "NS DS")
CUT = by_nsec("sub.example.", "t.example.", "NS")
EXPANDED = Rrset("a.example.", "A", (ADDRESS,), labels=1)
EXPANDED_NSEC = INNER._replace(labels=1)
ALIAS = Rrset("c.example.", "CNAME", (name("d.example."),))
CHILD_KEY = Rrset("sub.example.", "DNSKEY", (DNSKEY,), "sub.example.")
CHILD = Rrset("sub.example.", "A", (ADDRESS,), "sub.example.")
SHA1 = ds(1, hashlib.sha1(name("sub.example.") + DNSKEY).digest())
STRONGER = Rrset("sub.example.", "DS", (SHA1, ds(2, bytes(32))))
WEAK = Rrset("sub.example.", "DS", (SHA1,))
UNKNOWN_DIGEST = Rrset("sub.example.", "DS", (ds(3, b"\xaa"),))
HASH = "record 0p9mhaveqvm6t7vbl5lop2u3t2rp3tom.example. 50"

WORKED = [
    Worked("no name", "zz.example.", 1, ["SecureNoName", "record z.example. 47", "record example. 47"], (LAST, APEX)),
    Worked("an empty non-terminal", "b.example.", 1, ["SecureNoData", "record a.example. 47"], (INNER,)),
    Worked("below a signed delegation", "x.sub.example.", 1, ["Bogus"], (SIGNED_CUT,)),
    Worked("below an unsigned one", "x.sub.example.", 1, ["Insecure", "cut sub.example."], (CUT,)),
    Worked("no DS", "sub.example.", 43, ["SecureNoData", "record sub.example. 47"], (CUT,)),
    Worked("no type, hashed", "example.", 16, ["SecureNoData", HASH], (circle(12),)),
    Worked("too many iterations", "example.", 16, ["Bogus"], (circle(501),)),
    Worked("no name, hashed", "a.example.", 1, ["SecureNoName", HASH], (circle(12),)),
    Worked("opt-out", "a.example.", 1, ["Insecure", "cut a.example."], (circle(12, flags=1),)),
    Worked("an answer from a wildcard", "a.example.", 1, ["SecureAnswer", "rrset 2 signature 1"], (EXPANDED, APEX)),
    Worked("the wildcard's answer alone", "a.example.", 1, ["Bogus"], (EXPANDED,)),
    Worked("a denial from a wildcard", "b.example.", 1, ["Bogus"], (EXPANDED_NSEC,)),
    Worked("a stronger digest", "sub.example.", 1, ["Bogus"], (STRONGER, CHILD_KEY, CHILD)),
    Worked("a weak digest", "sub.example.", 1, ["SecureAnswer", "rrset 4 signature 1"], (WEAK, CHILD_KEY, CHILD)),
    Worked("an alias", "c.example.", 1, ["Bogus", "alias c.example. rrset 2 signature 1"], (ALIAS,)),
    Worked("the alias itself", "c.example.", 5, ["SecureAnswer", "rrset 2 signature 1"], (ALIAS,)),
    Worked("an unknown digest", "www.sub.example.", 1, ["Insecure", "cut sub.example."], (UNKNOWN_DIGEST,)),
]


def jobs(cases: list[Case]) -> Iterator[tuple[Any, ...]]:
    for worked in WORKED:
        yield left_out, worked
    for case in cases:
        yield messages_left_out, case


def answer_of(bench: Bench, worked: Worked, rrsets: Sequence[Rrset]) -> Answer:
    files = {
        "capture": b"".join(each.message() for each in rrsets),
        "anchors": ANCHOR,
        "statements": b"".join(sorted({each.statement() for each in rrsets})),
    }
    words = [word for option, octets in files.items() for word in (f"--{option}", str(bench.file(option, octets)))]
    question = ["--moment", str(MOMENT), "--name", worked.owner, "--type", str(worked.rtype)]
    return bench.answer(["check", *words, *question])


def left_out(tried: Tried, worked: Worked) -> Tally:
    """The denial as it is, and without each of its RRsets and of the zone's key."""
    tally, row, whole = Tally(), "left-out: worked denials", (KEY, *worked.rrsets)
    kind, *lines = worked.wanted
    text = "".join(f"{line}\n" for line in [f"{kind} {worked.owner} {worked.rtype}", *lines])
    wanted = Answer(VERDICTS[kind.encode()][0], text.encode(), b"")
    with Bench(tried) as bench:
        answer = answer_of(bench, worked, whole)
        tally.take(f"{row}, whole", kind if answer == wanted else None, worked.title, answer)
        for left in whole:
            rest = [each for each in whole if each is not left]
            answer = answer_of(bench, worked, rest)
            there = {(each.owner.lower(), TYPES[each.rtype]) for each in rest}
            end = verdict_of(answer) if records_of(answer) <= there else None
            tally.take(row, end, f"{worked.title} without {left.owner} {left.rtype}", answer)
    return tally


def records_of(answer: Answer) -> set[tuple[str, int]]:
    """The records that a denial names, by owner and type."""
    lines = (line.split(" ") for line in answer.output.decode(errors="replace").splitlines())
    return {(fields[1], int(fields[2])) for fields in lines if fields[0] == "record" and len(fields) == 3}


def messages_of(octets: bytes) -> list[bytes]:
    """Each message behind its length."""
    found = []
    while octets:
        length = 2 + int.from_bytes(octets[:2], "big")
        found.append(octets[:length])
        octets = octets[length:]
    return found


def messages_left_out(tried: Tried, case: Case) -> Tally:
    """The real capture without each of its messages; what is there `show` tells."""
    tally, parts = Tally(), messages_of(case.files["capture"].read_bytes())
    with Bench(tried) as bench:
        for place in range(len(parts)):
            capture = bench.file("capture", b"".join(parts[:place] + parts[place + 1 :]))
            answer = bench.answer(case.words_with(capture=capture))
            there = records_shown(bench.answer(["show", "--capture", str(capture)])) if records_of(answer) else set()
            end = kind_of(answer) if records_of(answer) <= there and answer.status != 1 else None
            tally.take("left-out: messages of real captures", end, f"{case.name} without message {place + 1}", answer)
    return tally


def records_shown(answer: Answer) -> set[tuple[str, int]]:
    lines = (line.split(" ") for line in answer.output.decode().splitlines())
    return {(fields[2].lower(), int(fields[3])) for fields in lines if fields[0] == "record"}
