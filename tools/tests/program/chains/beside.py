"""What may stand beside a sound chain, and isn't told: by each thing the dearest class that a fault of the same link may have
before the way by that thing is the cheaper one (classes rise from dear to cheap)."""
from dataclasses import dataclass
from typing import Callable

from zones import Zone, nsec_chain

from .links import OVER, ZONE, Entry, Key, Rrset, Signature

SECOND = Key(257, 6)
# The class of each word that may be said first, the dearest where it has several; of what is no fault of a signature or of what
# names a key, 1.
CLASSES = {
    "no-anchor": 1, "dnskey-missing": 1, "ds-missing": 1, "answer-missing": 1, "ds-unproved": 1, "no-closer": 1,
    "encloser-missing": 1, "cover-missing": 1, "type-held": 1, "delegation": 1, "nsec3-iterations": 1, "nsec3-unusable": 1,
    "unsigned": 2, "not-self-signed": 3, "labels": 4, "signer": 4, "expanded": 4, "algorithm": 2, "key-missing": 5,
    "key-algorithm": 5, "digest-differs": 5, "expired": 6, "not-yet": 6, "not-zone-key": 7, "bad": 8, "unanswered": 9}


@dataclass
class Beside:
    """Something beside the chain; `adds` changes the chain. A fault of these links, of any where none is named, is told first
    if its class is this one or a cheaper one."""

    name: str
    adds: Callable
    least: int = 1
    links: tuple = ()

    def leaves(self, fault):
        touched = not self.links or fault.link in self.links
        return not touched or CLASSES[fault.said[0]] >= self.least


def copies(chain, change):
    """Beside each link a copy of its RRset, of the same keys and entries, with other signatures."""
    for rrset in list(chain.links.values()):
        copy = Rrset(rrset.owner, rrset.rtype, rrset.data, None, "")
        copy.signatures = change(rrset)
        chain.beside.append(copy)


def signature_like(signature, **changes):
    other = Signature(signature.key, signature.signer, signature.labels)
    for field, value in changes.items():
        setattr(other, field, value)
    return other


def unsigned_copies(chain):
    copies(chain, lambda rrset: [])


def copies_of_yesterday(chain):
    copies(chain, lambda rrset: [signature_like(each, times=OVER) for each in rrset.signatures])


def leftovers(chain, **changes):
    """Behind the signature of each link one that is over."""
    for rrset in chain.links.values():
        rrset.signatures.append(signature_like(rrset.signatures[0], times=OVER, **changes))


def key_rrsets(chain):
    return [rrset for rrset in chain.rrsets() if rrset.rtype == "DNSKEY"]


def standby_keys(chain):
    for number, rrset in enumerate(key_rrsets(chain)):
        rrset.data.append(Key(257, 20 + number))


def second_anchor(chain, published):
    zone = chain.anchor.zone
    chain.other_anchors.append(Entry(zone, SECOND))
    if published:
        next(rrset for rrset in key_rrsets(chain) if rrset.owner == zone).data.append(SECOND)


def second_ds(chain, published):
    if "ds" in chain.links:
        chain.links["ds"].data.append(Entry(ZONE, SECOND))
        if published:
            chain.links["zone"].data.append(SECOND)


def denial_of_another(chain):
    """The zone's record that says what isn't between two names of which neither is asked for."""
    rdata = dict(nsec_chain(Zone(ZONE, [(owner + ZONE, "A") for owner in ("y1.", "y2.")])))["y1." + ZONE]
    chain.beside.append(Rrset("y1." + ZONE, "NSEC", [rdata], chain.key, ZONE))


BESIDE = [
    Beside("standby keys", standby_keys),
    Beside("a second anchor", lambda chain: second_anchor(chain, True), 4, ("anchor",)),
    Beside("an anchor of a key to come", lambda chain: second_anchor(chain, False), 5, ("anchor", "parent", "zone")),
    Beside("a second DS record", lambda chain: second_ds(chain, True), 4, ("ds",)),
    Beside("a DS record of a key to come", lambda chain: second_ds(chain, False), 4, ("ds", "zone")),
    Beside("copies without signatures", unsigned_copies, 3),
    Beside("copies of yesterday", copies_of_yesterday, 6),
    Beside("signatures that are over", leftovers, 6),
    Beside("signatures by a key that is gone", lambda chain: leftovers(chain, key=Key(256, 30)), 6),
    Beside("a denial of another name", denial_of_another, 6)]
