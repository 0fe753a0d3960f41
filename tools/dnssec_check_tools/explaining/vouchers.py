"""What is wrong with a trust anchor or a DS record: what it names, and what the zone has instead."""
from .explanation import Explanation, Line
from .said import Words
from .values import DNSKEY, DS, algorithm_name, all_of, digest_name, key_name, owned


def is_voucher(line: Line) -> bool:
    """Whether a line of a zone is about an anchor or a DS record."""
    return "zone" in line and ("anchor" in line or "digest_type" in line)


def voucher(line: Line) -> str:
    return f"anchor {line['anchor']}" if "anchor" in line else "the DS"


def itself(line: Line) -> str:
    """What the sentence is about where the anchor or DS record itself is at fault."""
    return f"{line['zone']} anchor {line['anchor']}" if "anchor" in line else owned(line["zone"], DS)


def named(line: Line) -> str:
    return f"{voucher(line)} names {key_name(line['tag'], line['algorithm'])}"


def algorithm(_told: Explanation, line: Line) -> Words:
    name = algorithm_name(line["algorithm"])
    return itself(line), f"{voucher(line)} names key {line['tag']} of {name}, which isn't supported"


def digest_type(_told: Explanation, line: Line) -> Words:
    return itself(line), f"{named(line)} by {digest_name(line['digest_type'])}, which isn't supported"


def digest_ignored(_told: Explanation, line: Line) -> Words:
    return itself(line), f"{named(line)} by {digest_name(line['digest_type'])}, and a stronger digest stands beside it"


def key_missing(told: Explanation, line: Line) -> Words:
    return owned(line["zone"], DNSKEY), f"{voucher(line)} names key {line['tag']}; {beside(told, line)}"


def beside(told: Explanation, line: Line) -> str:
    """The keys that the zone has; one that an anchor writes out may have the tag, and be another."""
    tags = told.keys.tags(line["zone"])
    if line["tag"] in tags:
        return f"the zone's key {line['tag']} is another"
    return f"the zone has {all_of(map(str, tags))}" if tags else "the zone has no such key"


def key_algorithm(told: Explanation, line: Line) -> Words:
    others = told.keys.algorithms(line["zone"], line["tag"])
    instead = f"the zone's is of {all_of(map(algorithm_name, others))}" if others else "the zone's is of another"
    return owned(line["zone"], DNSKEY), f"{named(line)}; {instead}"


def digest_differs(_told: Explanation, line: Line) -> Words:
    digest = f"its {digest_name(line['digest_type'])} digest" if "digest_type" in line else "its digest"
    return owned(line["zone"], DNSKEY), f"{named(line)}; {digest} isn't that of the zone's key"
