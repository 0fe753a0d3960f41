"""The objects of `why` for what fails, for the keys of a zone, and for what follows."""
from .fields import Fields, Members, numbers, options, signature

# The reasons that aren't about a signature, an anchor or a DS record, by what their fields begin with.
SOURCED = ("delegation", "type-held", "match-missing", "encloser-missing", "cover-missing")
ZONED = ("no-anchor", "dnskey-missing", "ds-missing")
RECORDS = ("nsec3-iterations", "nsec3-unusable")


def entry(fields: Fields) -> Members:
    """ZONE anchor A wants TAG ALG [digest D], or ZONE rrset R record K wants TAG ALG digest D."""
    zone, *rest = fields
    return {
        "zone": zone,
        **options(
            rest,
            {
                "anchor": ["anchor"],
                "rrset": ["rrset"],
                "record": ["record"],
                "wants": ["tag", "algorithm"],
                "digest": ["digest_type"],
            },
        ),
    }


def source(fields: Fields) -> tuple[Members, list[str]]:
    """nsec ZONE, or nsec3 ZONE iterations N salt HEX; and what follows."""
    kind, zone, *rest = fields
    if kind == "nsec":
        return {"kind": kind, "zone": zone}, rest
    _, iterations, _, salt, *rest = rest
    return {"kind": kind, "zone": zone, "iterations": int(iterations), "salt": salt}, rest


def sourced(fields: Fields) -> Members:
    said, rest = source(fields)
    words = dict(zip(rest[::2], rest[1::2]))
    for word, member in (
        ("role", "role"),
        ("name", "name"),
        ("rrset", "rrset"),
        ("record", "record"),
        ("holds", "held"),
    ):
        if word in words:
            said[member] = words[word] if word in ("role", "name") else int(words[word])
    return said


def of_signature(fields: Fields) -> Members:
    said, rest = signature(fields)
    words = dict(zip(rest[::2], rest[1::2]))
    for word, member in (("from", "inception"), ("to", "expiration"), ("by", "by")):
        if word in words:
            said[member] = int(words[word])
    return said | ({"name": words["name"]} if "name" in words else {})


def record(fields: Fields) -> Members:
    owner, rtype, *rest = fields
    return {
        "owner": owner,
        "type": int(rtype),
        **options(rest, {"rrset": ["rrset"], "record": ["record"], "iterations": ["iterations"]}),
    }


def answer(fields: Fields) -> Members:
    name, rtype, *rest = fields
    return {"name": name, "type": int(rtype)} | ({"zone": rest[1]} if rest else {})


def dname(fields: Fields) -> Members:
    name, *rest = fields
    return {"name": name, **options(rest, {"rrset": ["rrset"], "record": ["record"]})}


def self_signed(fields: Fields) -> Members:
    zone, _, rrset, _, tag, algorithm = fields
    return {"zone": zone, **numbers((rrset, tag, algorithm), "rrset", "tag", "algorithm")}


def not_vouched(fields: Fields) -> Members:
    zone, _, rrset = fields
    return {"zone": zone, "rrset": int(rrset)}


def ds_unproved(fields: Fields) -> Members:
    name, _, zone = fields
    return {"name": name, "zone": zone}


OTHERS = {
    "not-self-signed": self_signed,
    "not-vouched": not_vouched,
    "unsigned": record,
    "dname": dname,
    "answer-missing": answer,
    "denial-unproved": answer,
    "ds-unproved": ds_unproved,
}
OTHERS |= {word: lambda fields: {"zone": fields[0]} for word in ZONED}
OTHERS |= {word: sourced for word in SOURCED} | {word: record for word in RECORDS}


def reason(fields: Fields) -> Members:
    error, word, *rest = fields
    said = OTHERS.get(word) or (entry if "wants" in rest else of_signature)
    return {"word": word, "ede": int(error), **said(rest)}


def follows(fields: Fields) -> Members:
    word, *rest = fields
    return {"word": word, **signature(rest)[0]}


def key(fields: Fields) -> Members:
    zone, *rest = fields
    return {
        "zone": zone,
        **options(
            rest,
            {
                "rrset": ["rrset"],
                "record": ["record"],
                "tag": ["tag"],
                "algorithm": ["algorithm"],
                "flags": ["flags"],
                "signature": ["signature"],
                "anchor": ["anchor"],
                "ds": ["ds_rrset", "ds_record"],
            },
        ),
    }
