"""The object of a compact list."""
from .fields import Fields, Members, numbers, octets


def key(fields: Fields) -> Members:
    """The entry of a line `key`, whose number is its place."""
    _, algorithm, field = fields
    return {"algorithm": int(algorithm), "key": octets(field)}


def rrset(fields: Fields) -> Members:
    """That of a line `rrset`, without signatures yet."""
    number, owner, rtype, *rdata = fields
    return {
        "rrset": int(number),
        "owner": owner,
        "type": int(rtype),
        "rdata": list(map(octets, rdata)),
        "signatures": [],
    }


def signature(fields: Fields) -> Members:
    """That of a line `signature`, which stands behind its RRset."""
    _, number, front, field = fields
    return {"signature": int(number), "front": front, "octets": octets(field)}


def todo(fields: Fields) -> Members:
    """That of a line `todo`, whose number is its place."""
    return numbers(fields[1:], "key", "rrset", "signature")


def compact(lines: list[list[str]]) -> Members:
    """The members behind the moment."""
    said: Members = {"keys": [], "rrsets": [], "todo": []}
    for word, *fields in lines:
        if word == "key":
            said["keys"].append(key(fields))
        elif word == "rrset":
            said["rrsets"].append(rrset(fields))
        elif word == "signature":
            said["rrsets"][-1]["signatures"].append(signature(fields))
        else:
            said["todo"].append(todo(fields))
    return said
