"""Seeded random worlds: a sound chain, of a shape or of a zone of random names, what stands beside it, and signatures of which
many are over, ahead, bad or unanswered."""
import random

from messages import counted, name
from zones import Hashing, Zone, child, nsec3_chain, nsec_chain

from .beside import BESIDE, signature_like
from .cuts import more_shapes, unsigned
from .links import AHEAD, OVER, SOUND, ZONE, Chain, shapes

CHAINS = {shape: chain for shape, (chain, _) in {**shapes(), **more_shapes()}.items()}


def keys_of(chain, zone):
    return [key for rrset in chain.rrsets() if (rrset.rtype, rrset.owner) == ("DNSKEY", zone) for key in rrset.data]


def with_more_signatures(chain, draw):
    """Up to two more of each RRset that is signed, by any keys of the same signer."""
    for rrset in chain.rrsets():
        for signature in rrset.signatures[:1]:
            keys = keys_of(chain, signature.signer)
            rrset.signatures += [signature_like(signature, key=draw.choice(keys)) for _ in range(draw.choice((0, 0, 1, 2)))]


def one_of_each(chain):
    """Leaves each zone one DNSKEY RRset."""
    seen = {link.owner for link in chain.links.values() if link.rtype == "DNSKEY"}
    for rrset in list(chain.beside):
        if rrset.rtype == "DNSKEY" and rrset.owner in seen:
            chain.beside.remove(rrset)
        seen |= {rrset.owner} if rrset.rtype == "DNSKEY" else set()


def harm(signature, draw):
    signature.times = draw.choice((SOUND, SOUND, OVER, AHEAD))
    signature.word = draw.choice(("good", "good", "bad", None))


def random_zone(draw):
    """Some of the names to a depth of two labels, with types."""
    labels = ["a", "b", "c", "*"]
    owners = [child(low, ZONE) for low in labels] + [child(low, child(high, ZONE)) for low in labels for high in labels[:3]]
    names = [(owner, draw.choice(("A", "A", "TXT", "NS" if "*" not in owner else "A"))) for owner in draw.sample(owners, 4)]
    return Zone(ZONE, [(ZONE, "NS SOA DNSKEY"), *names]), draw.choice(owners)


def denials_of(zone, draw):
    """All that the zone has, by names, by hashes, or with Opt-Out."""
    kind = draw.choice(("names", "hashes", "open"))
    if kind == "names":
        return [(owner, "NSEC", rdata) for owner, rdata in nsec_chain(zone)]
    nodes = zone.nodes() if kind == "hashes" else zone.signed_nodes()
    typed = [(owner, " ".join(zone.types.get(owner, []) + ["RRSIG"])) for owner in nodes]
    return [(f"{label}.{ZONE}", "NSEC3", rdata) for label, rdata in nsec3_chain(typed, Hashing(5, flags=kind == "open"))]


def random_chain(draw):
    """A question of a random zone with all its denials; what is below a branch has an answer without signatures."""
    zone, asked = random_zone(draw)
    labels, cut = None, zone.unsigned_cut(asked)
    if not cut and zone.has(asked, "A"):
        labels = counted(asked)
    elif not cut and not zone.is_node(asked) and zone.has(zone.wildcard(asked), "A"):
        labels = counted(zone.wildcard(asked))
    chain = Chain((asked, "A"), labels, denials_of(zone, draw))
    if cut:
        chain.beside = [unsigned(cut, "NS", name(ZONE)), *([unsigned(asked, "A")] if asked != cut else [])]
    return chain


def world(seed):
    """The chain as it is sound, and as it is."""
    draw = random.Random(seed)
    chain = random_chain(draw) if draw.random() < 0.5 else CHAINS[draw.choice(sorted(CHAINS))].copied()
    for beside in draw.sample(BESIDE, draw.choice((0, 1, 2))):
        beside.adds(chain)
    one_of_each(chain)
    sound = chain.copied()
    with_more_signatures(chain, draw)
    share = draw.choice((0.2, 0.5, 0.9))
    for rrset in chain.rrsets():
        for signature in rrset.signatures:
            if draw.random() < share:
                harm(signature, draw)
    return sound, chain


def mend(signature):
    signature.times, signature.word = SOUND, "good"
