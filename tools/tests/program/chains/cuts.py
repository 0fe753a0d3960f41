"""More sound chains: unsigned cuts with their proof, islands, aliases, and questions for DS records."""
import itertools

from messages import name
from zones import Hashing, Zone

from .links import PARENT, WWW, ZONE, Chain, Entry, Key, Rrset, by_hash, by_name, shop

BRANCH, WEB, LOW = "branch." + ZONE, "web." + ZONE, "www.branch." + ZONE
OPEN = Hashing(5, flags=1)
BRANCHES = Zone(ZONE, [(ZONE, "NS SOA DNSKEY"), (BRANCH, "NS"), ("mail." + ZONE, "A"), (WWW, "A")])
ABOVE = Zone(PARENT, [(PARENT, "NS SOA DNSKEY"), (ZONE, "NS"), ("ns." + PARENT, "A")])


def unsigned(owner, rtype, data=bytes(4)):
    rrset = Rrset(owner, rtype, [data], None, ZONE)
    rrset.signatures.clear()
    return rrset


def cut(branch, denials, asked=None):
    """A question below a branch without DS, which its NS records show and these records prove."""
    low = "www." + branch
    chain = Chain((asked or low, "A"), None, denials)
    chain.beside = [unsigned(branch, "NS", name(low)), unsigned(low, "A")]
    return chain


def open_cut():
    """A branch that Opt-Out leaves out, and the two records that show it."""
    for number in itertools.count():
        branch = f"branch{number}.{ZONE}"
        records = list(by_hash(shop(), OPEN, [ZONE, branch]))
        if len(set(records)) == 2:
            return branch, records


def of_ds():
    """A DS record of a branch, which is asked for."""
    chain = Chain((BRANCH, "DS"), 3)
    chain.links["answer"].data = [Entry(BRANCH, Key(257, 5))]
    return chain


def alias(chain, target):
    """The chain's answer is an alias of `www`, and its target another answer."""
    chain.links["answer"] = Rrset(WWW, "CNAME", [name(target)], chain.key, ZONE)
    chain.links = {link: chain.links[link] for link in sorted(chain.links, key=lambda link: link.startswith("denial"))}
    return chain


def with_target(chain):
    chain.links["answer of the target"] = Rrset(WEB, "A", [bytes(4)], chain.key, ZONE)
    return chain


def island():
    """A zone with an anchor of its own, and nothing above it."""
    chain = Chain((WWW, "A"), 3)
    chain.anchor = Entry(ZONE, chain.links["zone"].data[0])
    del chain.links["parent"], chain.links["ds"]
    return chain


def below_unsigned():
    """A signed zone without DS, which the zone above proves."""
    chain = Chain((WWW, "A"), 3)
    _, signing = chain.links["parent"].data
    (owner, rtype, rdata), = by_name(ABOVE, ZONE)
    chain.beside = [chain.links["zone"], chain.links["answer"]]
    chain.links = {"parent": chain.links["parent"], "denial 0": Rrset(owner, rtype, [rdata], signing, PARENT)}
    return chain


def more_shapes():
    """Each by its name: the chain, and what is said first where one of its denials isn't there."""
    open_branch, open_records = open_cut()
    proof = by_name(BRANCHES, BRANCH)
    unproved = [("ds-unproved", BRANCH)]
    open_unproved = [("encloser-missing", open_branch), ("cover-missing", open_branch)]
    return {
        "cut": (cut(BRANCH, proof), unproved),
        "open cut": (cut(open_branch, open_records), open_unproved),
        "below unsigned": (below_unsigned(), [("ds-missing", ZONE)]),
        "alias of a cut": (alias(cut(BRANCH, proof, WWW), LOW), unproved),
        "alias": (with_target(alias(Chain((WWW, "A")), WEB)), []),
        "island": (island(), []),
        "DS": (of_ds(), []),
        "no DS": (Chain((BRANCH, "DS"), None, proof), [("answer-missing", f"{BRANCH} 43")])}
