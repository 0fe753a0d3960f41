"""The objects of `why`: what each line of an explanation says, by its words."""
from .fails import follows, key, reason
from .fields import Fields, Members, numbers, options, signature


def trusted(fields: Fields) -> Members:
    zone, _, rrset, _, number, _, tag, algorithm, *rest = fields
    said = {"zone": zone, **numbers((rrset, number, tag, algorithm), "rrset", "signature", "tag", "algorithm")}
    return said | options(
        rest, {"anchor": ["anchor"], "ds": ["ds_rrset", "ds_record"], "digest": ["digest_type"], "todo": ["todo"]}
    )


def signed(fields: Fields) -> Members:
    said, rest = signature(fields)
    return said | options(rest, {"keys": ["keys"], "todo": ["todo"]})


def proof(fields: Fields) -> Members:
    form, kind, _, zone, *rest = fields
    return {"form": form, "kind": kind, "zone": zone} | ({"encloser": rest[1]} if rest else {})


def part(fields: Fields) -> Members:
    role, relation, name, *rest = fields
    said = {"role": role, "relation": relation, "name": name}
    if rest:
        _, owner, rtype, _, rrset, _, number = rest
        said |= {"owner": owner, **numbers((rtype, rrset, number), "type", "rrset", "record")}
    return said


def case(fields: Fields) -> Members:
    number, _, cut, *rest = fields
    return {"case": int(number), "cut": cut} | ({"zone": rest[1]} if rest else {})


def unusable(fields: Fields) -> Members:
    cause, owner, _, rrset, _, number, _, tag, algorithm, _, digest = fields
    return {
        "why": cause,
        "owner": owner,
        **numbers((rrset, number, tag, algorithm, digest), "rrset", "record", "tag", "algorithm", "digest_type"),
    }


def place(fields: Fields) -> Members:
    rrset, _, message, _, section, owner, rtype = fields
    return {**numbers((rrset, message, section), "rrset", "message", "section"), "owner": owner, "type": int(rtype)}


LINES = {
    "trusted": trusted,
    "signed": signed,
    "proof": proof,
    "part": part,
    "case": case,
    "unusable": unusable,
    "hope": lambda fields: {"kind": fields[0]},
    "holds": lambda fields: {"from": int(fields[1]), "to": int(fields[3])},
    "rrset": place,
    "reason": reason,
    "follows": follows,
    "key": key,
}


def why(line: Fields) -> Members:
    """The object of a line, from its words."""
    word, *fields = line
    return {"line": word} | LINES[word](fields)
