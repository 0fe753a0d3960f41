"""What holds, a sentence for each line that says it."""
from .explanation import Explanation, Line
from .missing import ROLES
from .said import HAS, HOLDS, WHY, Said
from .values import DNSKEY, DS, SECTIONS, algorithm_name, date, digest_name, flag_names, key_name, owned, until

FORMS = {
    "no-name": "there is no such name",
    "no-data-1": "the name is there, without the type",
    "no-data-2": "the name is there only for the names below it",
    "no-data-3": "a wildcard stands for the name, without the type",
    "no-data-4": "a wildcard stands for the name, and is there only for the names below it",
    "no-closer": "no name is closer than the wildcard that answers",
    "opt-out": "the name may be unsigned",
}
RELATIONS = {
    "matched": "is at it",
    "exists": "shows that it is there",
    "covered": "proves that it isn't there",
    "non-terminal": "shows that it is there only for the names below it",
    "opt-out": "leaves open whether it is an unsigned delegation (Opt-Out)",
}
CASES = {
    1: "it is delegated without DS",
    2: "none of its DS records can be used",
    3: "Opt-Out leaves open whether it is an unsigned delegation",
    4: "a wildcard answers, and Opt-Out leaves open whether the name itself is an unsigned delegation",
}
UNUSABLE = {
    "algorithm": "the algorithm isn't supported",
    "digest-type": "the digest type isn't supported",
    "digest-ignored": "a stronger digest stands beside it",
}
# What a signature of the keys is by which none of them signs.
FLAWS = {
    "expired": "that has expired",
    "not-yet": "that begins later",
    "bad": "that is bad",
    "unanswered": "that could not be verified",
}
USELESS = "that doesn't count"


def unverified(line: Line) -> str:
    """Said of what holds only if a signature is good that nobody verified yet."""
    return f", if signature {line['todo']} of those to verify is good" if "todo" in line else ""


def trusted(told: Explanation, line: Line) -> Said:
    named = f"anchor {line['anchor']}" if "anchor" in line else "the DS"
    digest = f" by {digest_name(line['digest_type'])}" if "digest_type" in line else ""
    text = f"signed by its {key_name(line['tag'], line['algorithm'])}, which {named} names{digest}"
    return Said(HOLDS, told.named(line, owned(line["zone"], DNSKEY)), text + unverified(line))


def signed(told: Explanation, line: Line) -> Said:
    text = f"signed by {key_name(line['tag'], line['algorithm'])} of {line['signer']}"
    return Said(HOLDS, told.named(line, owned(line["owner"], line["type"])), text + unverified(line))


def proof(_told: Explanation, line: Line) -> Said:
    encloser = f"; the closest encloser is {line['encloser']}" if "encloser" in line else ""
    return Said(HOLDS, line["zone"], f"its {line['kind'].upper()} records prove that {FORMS[line['form']]}{encloser}")


def part(_told: Explanation, line: Line) -> Said:
    role = ROLES[line["role"]]
    if line["relation"] == "apex":
        return Said(HOLDS, line["name"], f"it is the zone itself ({role})")
    by = owned(line["owner"], line["type"]) if "owner" in line else "a record"
    return Said(HOLDS, line["name"], f"{by} {RELATIONS[line['relation']]} ({role})")


def case(_told: Explanation, line: Line) -> Said:
    by = f", says {line['zone']}" if "zone" in line else ""
    return Said(WHY, line["cut"], CASES[line["case"]] + by)


def unusable(_told: Explanation, line: Line) -> Said:
    named, digest = key_name(line["tag"], line["algorithm"]), digest_name(line["digest_type"])
    text = f"it names {named} by {digest}; {UNUSABLE[line['why']]}"
    return Said(WHY, owned(line["owner"], DS), text)


def hope(told: Explanation, line: Line) -> Said:
    return Said(WHY, told.value["name"], f"{line['kind']}, if the signatures that nobody verified yet are good")


def holds(told: Explanation, line: Line) -> Said:
    text = f"from {date(line['from'], told.now)} {until(line['to'], told.now)}"
    return Said(HOLDS, told.value["name"], text)


def key(told: Explanation, line: Line) -> Said:
    """What the zone has."""
    name = f"key {line['tag']} ({algorithm_name(line['algorithm'])}, {flag_names(line['flags'])})"
    lack = told.keys.lack(line["zone"], line)
    zone_key = f"; it is no zone key: {lack}" if lack else ""
    about = told.named(line, owned(line["zone"], DNSKEY))
    return Said(HAS, about, f"{name} {signs(told, line)}; {matched_by(line)}{zone_key}")


def signs(told: Explanation, line: Line) -> str:
    """Whether the key signs the keys, and by what signature, where that isn't good."""
    if "signature" in line:
        return "signs the keys"
    flaws, may_have_signed = told.keys.flaws(line), told.keys.may_have_signed(line)
    if flaws:
        return "signs the keys by a signature " + next((FLAWS[each] for each in flaws if each in FLAWS), USELESS)
    if may_have_signed is None:
        return "has no good signature over the keys"
    return f"signs the keys by a signature {USELESS}" if may_have_signed else "doesn't sign the keys"


def matched_by(line: Line) -> str:
    """What matches the key: anchors and DS records may name it by its tag, and be of another."""
    anchor, has_ds = line.get("anchor"), "ds_record" in line
    if anchor and has_ds:
        return f"anchor {anchor} and the DS match it"
    if anchor or has_ds:
        return f"{f'anchor {anchor}' if anchor else 'the DS'} matches it"
    return "neither an anchor nor a DS matches it"


def rrset(_told: Explanation, line: Line) -> Said:
    text = f"RRset {line['rrset']}, in the {SECTIONS[line['section']]} section of message {line['message']}"
    return Said(HAS, owned(line["owner"], line["type"]), text)
