"""What isn't there, and what is there and proves something else."""
import re
from typing import Optional, Tuple

from ..asking.hashes import nsec3_hash
from .explanation import Asked, Explanation, Line
from .replies import NO_NAME, Reply
from .said import Words
from .values import DNSKEY, DS, all_of, key_name, owned

SOA, DNAME, NSEC, NSEC3 = 6, 39, 47, 50
# What a part of a proof is for.
ROLES = {
    "closest-encloser": "closest encloser",
    "next-closer": "next closer name",
    "wildcard": "wildcard",
    "name": "name asked for",
    "cut": "delegation",
}
# What a record would have to do with a name that is covered by none.
COVERS = {
    "closest-encloser": "proves that it isn't there",
    "next-closer": "proves that it isn't there",
    "name": "proves that it isn't there",
    "wildcard": "is at it, or proves that it isn't there",
    "cut": "is at it, or leaves open by Opt-Out whether it is unsigned",
}
FIRST_LABEL = re.compile(r"(?:[^.\\]|\\.)*\.")
UNASKED = "nobody asked for it, or its answer was lost or truncated"
# The words of what a zone lacks, by type; and of what is needed of a denial.
OF_ZONES = {"dnskey-missing": DNSKEY, "ds-missing": DS}
# Those that a record of a proof isn't there, can't be used or says something else.
OF_PROOFS = {
    *("match-missing", "encloser-missing", "cover-missing"),
    *("type-held", "delegation", "nsec3-iterations", "nsec3-unusable"),
}
UNPROVED = {"denial-unproved", "ds-unproved"}
OF_DENIALS = {"match-missing", "encloser-missing", "cover-missing", "answer-missing", *UNPROVED}


def is_unasked(told: Explanation, line: Line) -> bool:
    """Whether a reason is there for nobody asked: that isn't what is wrong where something else is. Nobody had to where
    all is there that would prove what isn't proved."""
    asked = asked_of(told, line)
    is_there = line["word"] in UNPROVED and is_proof_whole(told)
    return asked is not None and told.is_unasked(*asked) and not is_there


def is_proof_whole(told: Explanation) -> bool:
    """Whether the records of a proof are there, and would do if their signatures did."""
    reasons = told.of("reason")
    has_records = any(line.get("type") in (NSEC, NSEC3) for line in reasons)
    return has_records and not any(line["word"] in OF_PROOFS for line in reasons)


def is_beside_no_name(told: Explanation, line: Line) -> bool:
    """Whether a reason is that no record is at a name of which the server says that there is none: with one, the name
    would be there."""
    reply = told.reply(*told.denied) if told.denied and line["word"] == "match-missing" else None
    return reply is not None and reply.rcode == NO_NAME and reply.name == line["name"]


def asked_of(told: Explanation, line: Line) -> Optional[Asked]:
    """What has to be asked so that the line isn't told; None where it isn't a matter of that."""
    if line["word"] in OF_ZONES:
        return line["zone"], OF_ZONES[line["word"]]
    return told.denied if line["word"] in OF_DENIALS else None


def answered(told: Explanation, asked: Asked, none: str = "that there is none") -> Optional[str]:
    """What was answered to who asked, or that nobody did; None where nothing is known of it."""
    reply = told.reply(*asked)
    return reply.text(none) if reply else UNASKED if told.is_unasked(*asked) else None


def no_anchor(_told: Explanation, line: Line) -> Words:
    return line["zone"], "no trust anchor is at or above it"


def dnskey_missing(told: Explanation, line: Line) -> Words:
    zone = line["zone"]
    text = answered(told, (zone, DNSKEY), "that there are none") or "the capture has no keys of the zone"
    return owned(zone, DNSKEY), text + without_keys(told, zone)


def without_keys(told: Explanation, zone: str) -> str:
    """What to do with a zone that says that it has no keys, and has a DS."""
    reply = told.reply(zone, DNSKEY)
    of_ds = (line for line in told.lines if "signer" in line and (line["owner"], line["type"]) == (zone, DS))
    parents = [line["signer"] for line in of_ds]
    is_unsigned = reply is not None and reply.is_of_none() and parents
    return f": take the DS out of {parents[0]}, or sign the zone" if is_unsigned else ""


def ds_missing(told: Explanation, line: Line) -> Words:
    text = answered(told, (line["zone"], DS)) or "the capture has no DS of the zone"
    return owned(line["zone"], DS), f"{text}, and there is no anchor for it"


def not_self_signed(told: Explanation, line: Line) -> Words:
    """The key that an anchor or a DS names, and which keys sign instead."""
    tags = told.keys.signing_tags(line["zone"], line["rrset"])
    others = [f"another key {tag}" if tag == line["tag"] else str(tag) for tag in tags]
    beside = f"{all_of(others)} {'does' if len(tags) == 1 else 'do'}" if tags else "none does by a good signature"
    key = key_name(line["tag"], line["algorithm"])
    named = [each for each in told.keys.vouched(line["zone"]) if each["tag"] == line["tag"] and "anchor" in each]
    namer = voucher_of(named[0]) if named else "the DS"
    return owned(line["zone"], DNSKEY), f"{namer} names {key}, which doesn't sign the keys; {beside}"


def voucher_of(key: Line) -> str:
    """What a line `key` names that matches it: an anchor, or else a DS record."""
    return f"anchor {key['anchor']}" if "anchor" in key else "the DS"


def not_vouched(told: Explanation, line: Line) -> Words:
    """The keys that nothing names, and what is named instead, which another copy of the keys has."""
    tags = sorted({each["tag"] for each in told.keys.of(line["zone"]) if each["rrset"] == line["rrset"]})
    keys = f" ({all_of(map(str, tags))})" if tags else ""
    others = dict.fromkeys(f"{voucher_of(each)} names {each['tag']}" for each in told.keys.vouched(line["zone"]))
    instead = f"; {all_of(others)}, which isn't among them" if others else ""
    return owned(line["zone"], DNSKEY), f"no trust anchor and no DS of the zone names one of these keys{keys}{instead}"


def unsigned(told: Explanation, line: Line) -> Words:
    text = "it has no signature beside it"
    zone = zone_without_keys(told, line["owner"])
    asks = f"; nobody asked whether {zone}, which has a DS, has keys: ask for {owned(zone, DNSKEY)}" if zone else ""
    return owned(line["owner"], line["type"]), text + asks


def zone_without_keys(told: Explanation, name: str) -> Optional[str]:
    """The zone at or above the name that has a DS by what holds, and of whose keys nobody asked: a zone may be unsigned
    altogether."""
    with_ds = {line["owner"] for line in told.of("signed") if line["type"] == DS}
    lacking = (
        line["zone"] for line in told.of("reason") if line["word"] == "dnskey-missing" and is_unasked(told, line)
    )
    return next((zone for zone in lacking if zone in with_ds and f".{name}".endswith(f".{zone}")), None)


def dname(_told: Explanation, line: Line) -> Words:
    return owned(line["name"], DNAME), "names below it stand for others by DNAME, which isn't followed"


def nsec3_iterations(_told: Explanation, line: Line) -> Words:
    return owned(line["owner"], line["type"]), f"{line['iterations']} iterations are too many: no more than 500 count"


def nsec3_unusable(_told: Explanation, line: Line) -> Words:
    return owned(line["owner"], line["type"]), "the record isn't one that can be used"


def source(line: Line) -> str:
    """The records that could prove a denial, by their kind and zone."""
    kind = line["kind"].upper()
    if "salt" not in line:
        return f"{kind} of {line['zone']}"
    salt = line["salt"] if line["salt"] != "-" else "none"
    return f"{kind} of {line['zone']} (iterations {line['iterations']}, salt {salt})"


def delegation(_told: Explanation, line: Line) -> Words:
    return line["name"], f"it is a delegation by the {source(line)}, which proves nothing at or below it"


def type_held(_told: Explanation, line: Line) -> Words:
    kind = owned("", line["held"]).strip()
    apart = ": that is the zone's own record, which says nothing of its DS" if line["held"] == SOA else ""
    return line["name"], f"it has {kind} by the {source(line)}{apart}"


def match_missing(_told: Explanation, line: Line) -> Words:
    return line["name"], f"no {source(line)} is at it{hashed(line, line['name'])}"


def hashed(line: Line, name: str) -> str:
    """By which hash the record of the name would stand, where it's one by hashes."""
    if "salt" not in line:
        return ""
    return f": its hash is {nsec3_hash(name, line['salt'], line['iterations'])}"


def encloser_missing(told: Explanation, line: Line) -> Words:
    above = encloser_of(told, line)
    if above is None:
        return line["name"], f"no {source(line)} shows which name above it is there"
    return line["name"], f"no {source(line)} shows that {above}, right above it, is there{hashed(line, above)}"


def encloser_of(told: Explanation, line: Line) -> Optional[str]:
    """The name that has to be shown where none is: of a delegation that Opt-Out covers that right above it; None where
    any above it would do."""
    cuts = (each["name"] for each in told.of("reason") if each["word"] == "ds-unproved")
    return FIRST_LABEL.sub("", line["name"], count=1) or "." if line["name"] in cuts else None


def sought(told: Explanation, line: Line) -> Tuple[str, ...]:
    """The name of which a proof lacks a record, and what that is for."""
    if line["word"] == "encloser-missing":
        above = encloser_of(told, line)
        return (above, ROLES["closest-encloser"]) if above else (f"above {line['name']}",)
    return (line["name"], *([ROLES[line["role"]]] if "role" in line else []))


def cover_missing(_told: Explanation, line: Line) -> Words:
    return line["name"], f"no {source(line)} {COVERS[line['role']]} ({ROLES[line['role']]}){hashed(line, line['name'])}"


def answer_missing(told: Explanation, line: Line) -> Words:
    name, kind = line["name"], line["type"]
    by = f" by {line['zone']}" if "zone" in line else ""
    text = f"the capture has no such record, and no proof{by} that there is none"
    said, reply = answered(told, (name, kind)), told.reply(name, kind)
    if said and reply and reply.is_of_none():
        said += without_denials(reply, line.get("zone", "a zone above it"))
    return owned(name, kind), said or text


def without_denials(reply: Reply, zone: str) -> str:
    return " with no NSEC or NSEC3 record" + (f" of {zone}" if reply.has_denials else "")


def denial_unproved(told: Explanation, line: Line) -> Words:
    text = f"what {line['zone']} says doesn't prove that there is none"
    return owned(line["name"], line["type"]), with_answer(told, line, (line["name"], line["type"]), text)


def ds_unproved(told: Explanation, line: Line) -> Words:
    text = f"nothing that {line['zone']} says proves that there is none, which a zone without DS needs"
    return owned(line["name"], DS), with_answer(told, line, (line["name"], DS), text)


def with_answer(told: Explanation, line: Line, asked: Asked, text: str) -> str:
    """What isn't proved, behind what was answered; or that it follows, where nobody had to ask for more."""
    if told.is_unasked(*asked) and not is_unasked(told, line):
        return f"so {text}"
    said = answered(told, asked)
    return f"{said}; {text}" if said else text
