"""The object of a timeline: its intervals, without what derives them, and the signatures between them."""
from .fields import Fields, Members, numbers, signature

STATUSES = {"Insecure": 3, "Pending": 4, "Bogus": 5, "Indeterminate": 6}
EDGES = ("ends", "begins")


def timeline(moments: Members, lines: list[list[str]], is_of_kinds: bool) -> Members:
    """From the lines, of which the first has the question."""
    (_, name, rtype), *others = lines
    asked: Members = {"command": "timeline", "name": name, "type": int(rtype), **moments}
    edges = [edge(line) for line in others if line[0] in EDGES]
    intervals = [interval(line, is_of_kinds) for line in others if line[0] not in EDGES]
    return asked | {"intervals": intervals, "edges": edges}


def edge(fields: Fields) -> Members:
    """ends MOMENT OWNER TYPE rrset R signature S key TAG ALG zone Z from I to E, and the same of one that begins."""
    word, moment, *rest = fields
    said, (_, inception, _, expiration) = signature(rest)
    times = numbers((inception, expiration), "inception", "expiration")
    return {"edge": word, "moment": int(moment), **said, **times}


def interval(fields: Fields, is_of_kinds: bool) -> Members:
    """FROM TO, and what is said at these moments."""
    first, last, word, *rest = fields
    span: Members = {"from": int(first), "to": int(last)}
    if word == "refused":
        return span | {"refused": int(rest[0]), "status": 7}
    proved: Members = {"verdict": word, "status": STATUSES.get(word, 0)}
    return span | proved | ({} if is_of_kinds else carried(word, rest))


def carried(verdict: str, fields: Fields) -> Members:
    """The aliases, and what stands behind them."""
    aliases: list[Members] = []
    while fields[:1] == ["alias"]:
        _, name, _, rrset, _, number, *fields = fields
        aliases.append({"name": name, **numbers((rrset, number), "rrset", "signature")})
    said: Members = {"aliases": aliases}
    if verdict in ("SecureNoName", "SecureNoData"):
        pairs = zip(fields[1::3], fields[2::3])
        return said | {"records": [{"owner": owner, "type": int(rtype)} for owner, rtype in pairs]}
    if verdict == "Insecure":
        return said | {"cut": fields[1]}
    return said | ({"rrset": int(fields[1]), "signature": int(fields[3])} if fields else {})
