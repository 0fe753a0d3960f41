"""Sound chains from an anchor of `test.` to an answer or a denial of `shop.test.`, as links that a test can break. Nothing
is signed: the statements say of each signature what it is."""
import copy
import hashlib
import itertools
import random

from dnssec_check_tools import wire
from dnssec_check_tools.capturing.frames import framed
from dnssec_check_tools.capturing.messages import key_tag
from messages import TYPES, counted, name, record
from zones import Hashing, Zone, hash_text, nsec3_chain, nsec_chain

SOUND, OVER, AHEAD = (1000, 2000), (500, 1400), (1600, 2400)
PARENT, ZONE = "test.", "shop.test."
HASHING = Hashing(5)


class Key:
    """A key of a zone; its tag is that of its octets."""

    def __init__(self, flags, number):
        self.flags, self.octets = flags, random.Random(number).randbytes(64)

    def rdata(self):
        return wire.dnskey(self.flags, self.octets)

    def tag(self):
        return key_tag(self.rdata())


class Entry:
    """A DS record or an anchor that names a key; `off` is added to its tag, and a wrong digest is of other octets."""

    def __init__(self, zone, key):
        self.zone, self.key = zone, key
        self.algorithm, self.off, self.wrong = 13, 0, b""

    def fields(self):
        digest = hashlib.sha256(name(self.zone) + self.key.rdata() + self.wrong).digest()
        return (self.key.tag() + self.off) % 65536, self.algorithm, 2, digest

    def rdata(self):
        tag, algorithm, digest_type, digest = self.fields()
        return wire.ds(tag, digest_type, digest, algorithm)

    def line(self):
        *numbers, octets = self.fields()
        return f"DS {self.zone} {' '.join(map(str, numbers))} {octets.hex()}\n"


class Signature:
    """What the RRSIG record of an RRset says, and what the statements say of it."""

    def __init__(self, key, signer, labels):
        self.key, self.signer, self.labels = key, signer, labels
        self.times, self.algorithm, self.off, self.word = SOUND, 13, 0, "good"

    def rdata(self, rtype, octets):
        tag = (self.key.tag() + self.off) % 65536
        return wire.rrsig(TYPES[rtype], self.labels, name(self.signer), tag, octets, self.times, self.algorithm)


class Rrset:
    """An RRset with its signatures; `data` has octets, keys and entries."""

    def __init__(self, owner, rtype, data, key, signer, labels=None):
        self.owner, self.rtype, self.data = owner, rtype, data
        self.signatures = [Signature(key, signer, counted(owner) if labels is None else labels)]

    def about(self):
        return f"{self.owner} {TYPES[self.rtype]}"


class Chain:
    """The links by their names, in the order from the anchor down; a link that is None isn't there. What stands beside them
    comes behind them, each RRset in a message of its own, and other anchors behind the first."""

    def __init__(self, question, answer=None, denials=()):
        self.question = question
        parent, signing, child, self.key = Key(257, 1), Key(256, 2), Key(257, 3), Key(256, 4)
        self.anchor = Entry(PARENT, parent)
        self.links = {
            "parent": Rrset(PARENT, "DNSKEY", [parent, signing], parent, PARENT),
            "ds": Rrset(ZONE, "DS", [Entry(ZONE, child)], signing, PARENT),
            "zone": Rrset(ZONE, "DNSKEY", [child, self.key], child, ZONE)}
        if answer:
            self.links["answer"] = Rrset(question[0], question[1], [bytes(4)], self.key, ZONE, answer)
        for number, (owner, rtype, rdata) in enumerate(denials):
            self.links[f"denial {number}"] = Rrset(owner, rtype, [rdata], self.key, ZONE)
        self.beside, self.other_anchors = [], []

    def copied(self):
        return copy.deepcopy(self)

    def parts(self):
        """The RRsets of each message: its answers and its authority."""
        def of(*names):
            return [rrset for link, rrset in self.links.items() if rrset and link.startswith(names)]

        yield from ((of(link), []) for link in ("parent", "ds", "zone"))
        yield of("answer"), of("denial")
        yield from (([rrset], []) for rrset in self.beside)

    def rrsets(self):
        """All in the order in which the program numbers them."""
        return [rrset for answers, authority in self.parts() for rrset in answers + authority]

    def files(self):
        """The capture and the anchors, and the signatures of which a statement isn't `good`."""
        numbers, words = itertools.count(1), {}

        def records(rrset):
            yield from (record(name(rrset.owner), rrset.rtype, each if isinstance(each, bytes) else each.rdata())
                        for each in rrset.data)
            for signature in rrset.signatures:
                octets = next(numbers).to_bytes(4, "big")
                words[octets.hex()] = signature.word
                yield record(name(rrset.owner), "RRSIG", signature.rdata(rrset.rtype, octets))

        messages = [response(*([each for rrset in section for each in records(rrset)] for section in part))
                    for part in self.parts()]
        entries = ([self.anchor] if self.anchor else []) + self.other_anchors
        anchors = "".join(entry.line() for entry in entries) or "KEY other. 256 3 13 AQID\n"
        return b"".join(messages), anchors.encode(), words


def response(answers, authority):
    return framed([wire.header(1, (0, len(answers), len(authority), 0)) + b"".join(answers + authority)])


# The six shapes, of one zone.

WWW, DEEP, WILD, NOSUCH = "www." + ZONE, "x.wild." + ZONE, "*." + ZONE, "nosuch." + ZONE


def shop(types="A"):
    """The zone, where `www` has these types."""
    return Zone(ZONE, [(ZONE, "NS SOA DNSKEY"), ("mail." + ZONE, "A"), ("*.wild." + ZONE, "A"), (WWW, types)])


def by_name(zone, *owners):
    """The NSEC records of these owners."""
    records = dict(nsec_chain(zone))
    return [(owner, "NSEC", records[owner]) for owner in owners]


def by_hash(zone, hashing, names):
    """Of each name the NSEC3 record at its hash, or the one in whose gap that is."""
    nodes = [(owner, " ".join(zone.types.get(owner, []) + ["RRSIG"])) for owner in zone.nodes()]
    records = {label: (f"{label}.{ZONE}", "NSEC3", rdata) for label, rdata in nsec3_chain(nodes, hashing)}
    for wanted in (hash_text(hashing.hash_of(each)) for each in names):
        yield records[max((each for each in records if each <= wanted), default=max(records))]


def denied_by_three(hashing):
    """A name that isn't there, and the three records that its denial takes."""
    for number in itertools.count():
        asked = f"nosuch{number}.{ZONE}"
        records = list(by_hash(shop(), hashing, [ZONE, asked, WILD]))
        if len(set(records)) == 3:
            return asked, records


def of_www(is_hashed, types="A"):
    """The record at `www`, where it has these types."""
    return list(by_hash(shop(types), HASHING, [WWW])) if is_hashed else by_name(shop(types), WWW)


def shapes():
    """Each by its name: the chain, its denials in the order in which a proof takes them, and what is said first where one of
    these isn't there."""
    asked, records = denied_by_three(HASHING)
    return {
        "answer": (Chain((WWW, "A"), 3), []),
        "wildcard": (Chain((DEEP, "A"), 3, by_name(shop(), "*.wild." + ZONE)), [("no-closer", f"{DEEP} 1")]),
        "no name": (Chain((NOSUCH, "A"), None, by_name(shop(), "mail." + ZONE, ZONE)),
                    [("cover-missing", NOSUCH), ("cover-missing", WILD)]),
        "no data": (Chain((WWW, "AAAA"), None, of_www(False)), [("answer-missing", f"{WWW} 28")]),
        "no name by hashes": (Chain((asked, "A"), None, records),
                              [("encloser-missing", asked), ("cover-missing", asked), ("cover-missing", WILD)]),
        "no data by hashes": (Chain((WWW, "AAAA"), None, of_www(True)), [("answer-missing", f"{WWW} 28")])}
