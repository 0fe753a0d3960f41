"""What can be wrong with one link of a sound chain, each with what has to be said first: the word, and what it is said of."""
from dataclasses import dataclass
from typing import Callable

from messages import TYPES, counted

from .links import AHEAD, OVER, PARENT, WWW, ZONE, of_www, shapes

OTHER = "other."


@dataclass
class Fault:
    """A fault of a link; `breaks` changes the chain."""

    name: str
    link: str
    said: tuple
    breaks: Callable


def of_signature(link, **changes):
    """The signatures of the link with other fields."""
    def breaks(chain):
        for signature in chain.links[link].signatures:
            for field, value in changes.items():
                setattr(signature, field, value)
    return breaks


def without(link):
    return lambda chain: chain.links.update({link: None})


def without_signatures(link):
    return lambda chain: chain.links[link].signatures.clear()


def with_key(link, place):
    """The link's signature by another key of the same RRset."""
    def breaks(chain):
        rrset = chain.links[link]
        rrset.signatures[0].key = rrset.data[place]
    return breaks


def with_flags(link, place, flags):
    def breaks(chain):
        chain.links[link].data[place].flags = flags
    return breaks


def of_entry(entry_of, **changes):
    def breaks(chain):
        for field, value in changes.items():
            setattr(entry_of(chain), field, value)
    return breaks


def of_any_rrset(link, rrset):
    """What can be wrong with the signature of any RRset."""
    about, labels = rrset.about(), counted(rrset.owner)
    yield Fault("unsigned", link, ("unsigned", about), without_signatures(link))
    yield Fault("over", link, ("expired", about), of_signature(link, times=OVER))
    yield Fault("ahead", link, ("not-yet", about), of_signature(link, times=AHEAD))
    yield Fault("bad", link, ("bad", about), of_signature(link, word="bad"))
    yield Fault("another's", link, ("signer", about), of_signature(link, signer=OTHER))
    yield Fault("too many labels", link, ("labels", about), of_signature(link, labels=labels + 1))
    if rrset.rtype not in ("A", "CNAME"):
        yield Fault("expanded", link, ("expanded", about), of_signature(link, labels=labels - 1))


def of_keys(link, zone, rrset):
    yield Fault("no keys", link, ("dnskey-missing", zone), without(link))
    yield Fault("signed by the other key", link, ("not-self-signed", zone), with_key(link, 1))
    yield Fault("signed by another tag", link, ("not-self-signed", zone), of_signature(link, off=1))
    yield Fault("no zone key", link, ("not-zone-key", rrset.about()), with_flags(link, 0, 1))


def of_signed(link, rrset):
    """Of an RRset that isn't one of keys."""
    yield Fault("another tag", link, ("key-missing", rrset.about()), of_signature(link, off=1))
    yield Fault("unknown algorithm", link, ("algorithm", rrset.about()), of_signature(link, algorithm=250))


def of_names_of_keys(link, zone, entry_of):
    """What names a key: an anchor, or a DS record."""
    yield Fault("names another tag", link, ("key-missing", zone), of_entry(entry_of, off=1))
    yield Fault("names another algorithm", link, ("key-algorithm", zone), of_entry(entry_of, algorithm=15))
    yield Fault("another digest", link, ("digest-differs", zone), of_entry(entry_of, wrong=b"x"))


def with_octets(link, place, octets):
    """The link's RDATA with other octets from this place on."""
    def breaks(chain):
        rdata, = chain.links[link].data
        chain.links[link].data = [rdata[:place] + octets + rdata[place + len(octets):]]
    return breaks


def with_types(link, types):
    """The record at `www` as it is where the name has these types."""
    def breaks(chain):
        (_, _, rdata), = of_www(chain.links[link].rtype == "NSEC3", types)
        chain.links[link].data = [rdata]
    return breaks


def without_anchor(chain):
    chain.anchor = None


def faults_of(chain, missing):
    """All faults of a shape, from the anchor down."""
    links = chain.links
    yield Fault("no anchor", "anchor", ("no-anchor", chain.question[0]), without_anchor)
    anchored = chain.anchor.zone
    yield Fault("unknown algorithm", "anchor", ("algorithm", anchored), of_entry(lambda c: c.anchor, algorithm=250))
    yield from of_names_of_keys("anchor", anchored, lambda c: c.anchor)
    if "ds" in links:
        yield from of_names_of_keys("ds", ZONE, lambda c: c.links["ds"].data[0])
        yield Fault("no DS", "ds", ("ds-missing", ZONE), without("ds"))
    for link, zone in (("parent", PARENT), ("zone", ZONE)):
        if link in links:
            yield from of_keys(link, zone, links[link])
    for link, rrset in links.items():
        yield from of_any_rrset(link, rrset)
        if rrset.rtype != "DNSKEY":
            yield from of_signed(link, rrset)
    yield from of_zone_keys(links)
    yield from of_evidence(chain, missing)


def of_zone_keys(links):
    """The second key of each zone, which signs what isn't keys: what it signs first."""
    for link, zone in (("parent", PARENT), ("zone", ZONE)):
        signed = [rrset for rrset in links.values() if rrset.rtype != "DNSKEY" and rrset.signatures[0].signer == zone]
        if link in links and signed:
            yield Fault("second key no zone key", link, ("not-zone-key", signed[0].about()), with_flags(link, 1, 0))


def without_answer(chain):
    """What is said where a denial is left: by a wildcard's that the wildcard has the type, by another's that it isn't whole."""
    denial = chain.links["denial 0"].owner
    return ("type-held", denial) if denial.startswith("*.") else ("cover-missing", chain.question[0])


def of_evidence(chain, missing):
    """The answer and the denials themselves."""
    asked = f"{chain.question[0]} {TYPES[chain.question[1]]}"
    if "answer" in chain.links:
        yield Fault("no answer", "answer", without_answer(chain) if missing else ("answer-missing", asked), without("answer"))
    for number, said in enumerate(missing):
        yield Fault("no denial", f"denial {number}", said, without(f"denial {number}"))
    for link, rrset in chain.links.items():
        if rrset.rtype == "NSEC3":
            yield Fault("600 iterations", link, ("nsec3-iterations", rrset.about()), with_octets(link, 2, b"\x02\x58"))
            yield Fault("unknown hash", link, ("nsec3-unusable", rrset.about()), with_octets(link, 0, b"\x02"))
        if link == "denial 0" and chain.question == (WWW, "AAAA"):
            for name, types, word in (("has it", "A AAAA", "type-held"), ("has an alias", "CNAME", "type-held"),
                                      ("a delegation", "NS DS", "delegation")):
                yield Fault(name, link, (word, WWW), with_types(link, types))


def broken(chain, *faults):
    copy = chain.copied()
    for fault in faults:
        fault.breaks(copy)
    return copy


def with_faults(found):
    """Each shape with its chain and its faults."""
    for shape, (chain, missing) in found.items():
        yield shape, chain, list(faults_of(chain, missing))


def all_shapes():
    return with_faults(shapes())
