"""Explanations for the tests: those of data/, which a plain program wrote, and one of each form that the schema has."""
import itertools
import json

from dnssec_check_tools.explaining.explanation import Explanation
from tool import DATA, TOOLS

NOON = 1795348800  # 2026-11-22T12:00:00Z
DAY = 86400
SCHEMA = json.loads((TOOLS.parent / "docs" / "schema.json").read_text())
FORMS = SCHEMA["definitions"]["line"]["oneOf"]
# Values of members of which the schema says only that they are numbers.
NUMBERS = {"case": (1, 2, 3, 4), "flags": (0, 256, 257, 385), "type": (1, 65280), "algorithm": (13, 99),
           "digest_type": (2, 99), "from": (NOON - DAY,), "to": (NOON, NOON + 30 * DAY), "by": (1, 4536000)}


def told_of(name):
    return Explanation(json.loads((DATA / "explain" / f"{name}.json").read_text()))


def incident_of(name, replies=None):
    """What a plain program wrote of a real incident: zones that ldns-signzone, dnssec-signzone or kzonesign signed, broken as
    happens, and what their servers said."""
    return Explanation(json.loads((DATA / "incidents" / f"{name}.json").read_text()), replies)


def told_by(*lines, verdict="Bogus", moment=NOON, replies=None, **others):
    """An explanation of these lines."""
    value = {"command": "explain", "name": "www.example.", "type": 1, "moment": moment, "verdict": verdict, "status": 5,
             "aliases": [], **others, "why": list(lines)}
    return Explanation(value, replies)


def values_of(key, form):
    """Values that a member may have."""
    if "const" in form:
        return (form["const"],)
    if "enum" in form:
        return tuple(form["enum"])
    if form["type"] == "integer":
        return NUMBERS.get(key, (7,))
    return ("-", "aabb") if key == "salt" else (f"{key}.example.",)


def lines_of(form):
    """Lines of the form: with each value of each member, with all that may be left out, and with none of it."""
    members, needed = form["properties"], form["required"]
    for keys in (list(members), [key for key in members if key in needed]):
        for values in itertools.product(*(values_of(key, members[key]) for key in keys)):
            yield dict(zip(keys, values))
