"""The boxes and edges that each line of an explanation puts into the picture of the chain."""
from typing import Dict, List, Set, Tuple
from .explanation import Explanation, Line
from .chain import ABSENT, FAILS, FOLLOWS, HOLDS, MISSING, PLAIN, QUESTION, RELATIONS, SHORT
from .chain import Chain, Key, anchor_box, ds_box, key_box, keys_box, rrset_box
from .frames import lay_under, signers_of
from .holding import UNUSABLE
from .missing import DNAME, ROLES, is_unasked, sought
from .values import DNSKEY, DS, date, owned
from .vouchers import is_voucher

# The types that only lead on to a zone; all others are what is asked for, or deny it.
OF_ZONES = (DS, DNSKEY)


def chain_of(told: Explanation) -> Chain:
    """The chain of an explanation."""
    chain = Chain(told)
    scene = Scene(told, chain, signers_of(told))
    for line in told.lines:
        DRAWN[line["line"]](scene, line)
    value = told.value
    chain.add(QUESTION, None, (owned(value["name"], value["type"]), value["verdict"]), state_of(value["verdict"]))
    scene.join_question()
    return chain.with_copies_together()


def state_of(verdict: str) -> str:
    """How the question's own box stands."""
    if verdict in ("Bogus", "Indeterminate"):
        return FAILS
    return HOLDS if verdict.startswith("Secure") else PLAIN


class Scene:
    """A chain as it is drawn: who signs which RRset by lines that hold, and what leads to the question."""

    def __init__(self, told: Explanation, chain: Chain, signers: Dict[int, str]) -> None:
        self.told, self.chain, self.signers = told, chain, signers
        self.leading: List[Tuple[Key, str, str, Key]] = []
        # How RRsets stand by the lines of their signatures: a DS record of one that has none may match a key.
        self.states = {line["rrset"]: FOLLOWS for line in told.of("follows")}
        self.states.update((line["rrset"], HOLDS) for line in told.of("signed"))

    def lead(self, box: Key, state: str, text: str = "", head: Key = QUESTION) -> None:
        """An edge to the question, or to what leads to it."""
        self.leading.append((box, state, text, head))

    def join_question(self) -> None:
        self.lead_over_aliases()
        for box, state, text, head in self.leading:
            if box in self.chain.boxes and head in self.chain.boxes:
                self.chain.join(box, head, state, text)
        links = self.told.of("trusted")
        lay_under(self.chain, ("rrset", links[-1]["rrset"]) if links else None)

    def lead_over_aliases(self) -> None:
        """From each link of the way to the next, and from the last, or the answer, to the question."""
        value = self.told.value
        way = [("rrset", link["rrset"]) for link in value["aliases"]]
        way += [("rrset", value["rrset"])] if "rrset" in value else []
        for place, box in enumerate(way):
            self.lead(box, HOLDS, "alias" if place < len(value["aliases"]) else "", (way + [QUESTION])[place + 1])

    def voucher(self, line: Line, zone: str, state: str) -> Key:
        """The box of the anchor or DS record that a line names by `anchor`, or by `ds_rrset` and `ds_record`."""
        if "anchor" in line:
            return anchor_box(self.chain, line["anchor"], zone, state, line.get("digest_type"))
        place, told = (line["ds_rrset"], line["ds_record"]), line if "digest_type" in line else None
        return ds_box(self.chain, self.signers, place, zone, state, told)

    def of_signature(self, line: Line, state: str, text: str = "") -> None:
        """The edge from the key that signs to the RRset, whichever zone that is in."""
        is_missing = line["line"] == "reason" and line["word"] == "key-missing"
        tail = key_box(
            self.chain, line["signer"], line, MISSING if is_missing else FOLLOWS if state == FOLLOWS else PLAIN
        )
        for head in signed_boxes(self, line, state):
            if line["type"] not in OF_ZONES:
                self.lead(head, state)
            self.chain.join(tail, head, state, text)


def trusted(scene: Scene, line: Line) -> None:
    zone = line["zone"]
    signing = key_box(scene.chain, zone, line, HOLDS)
    scene.chain.join(scene.voucher(line, zone, HOLDS), signing, HOLDS)
    scene.chain.join(signing, keys_box(scene.chain, zone, line["rrset"], HOLDS), HOLDS)


def signed(scene: Scene, line: Line) -> None:
    zone = line["signer"]
    signing, keys = key_box(scene.chain, zone, line, HOLDS), ("rrset", line["keys"])
    if (signing, keys, "") not in scene.chain.edges:
        scene.chain.join(keys_box(scene.chain, zone, line["keys"], HOLDS), signing, HOLDS)
    for head in signed_boxes(scene, line, HOLDS):
        scene.chain.join(signing, head, HOLDS)


def signed_boxes(scene: Scene, line: Line, state: str, *behind: str) -> List[Key]:
    """The RRset, or of a DS RRset the records that lines name."""
    number, owner = line["rrset"], line["owner"]
    records = sorted(records_of(scene.told, number)) if line["type"] == DS else []
    if not records:
        zone = line.get("signer") or scene.signers.get(number)
        return [rrset_box(scene.chain, zone, number, owner, line["type"], state, behind)]
    places = ((number, record) for record in records)
    return [ds_box(scene.chain, scene.signers, place, owner, state, None, behind) for place in places]


def records_of(told: Explanation, number: int) -> Set[int]:
    """The numbers of the records of the DS RRset that are in the picture."""
    by_ds = {line["ds_record"] for line in told.lines if line.get("ds_rrset") == number}
    return by_ds | {line["record"] for line in told.lines if line.get("rrset") == number and names_ds(line)}


def names_ds(line: Line) -> bool:
    return line["line"] == "unusable" or (line["line"] == "reason" and "record" in line and is_voucher(line))


def proof(_scene: Scene, _line: Line) -> None:
    """Its parts have the boxes."""


def part(scene: Scene, line: Line) -> None:
    if "owner" in line:
        cuts = [("cut", each["cut"]) for each in scene.told.of("case")]
        text = f"{ROLES[line['role']]}\n{RELATIONS[line['relation']]}"
        scene.lead(("rrset", line["rrset"]), HOLDS, text, cuts[0] if cuts else QUESTION)


def cut_box(scene: Scene, name: str) -> Key:
    """The name from which on nothing has to be signed."""
    return scene.chain.add(("cut", name), None, (name, "may be unsigned"), PLAIN)


def case(scene: Scene, line: Line) -> None:
    scene.lead(cut_box(scene, line["cut"]), PLAIN)


def unusable(scene: Scene, line: Line) -> None:
    box = ds_box(scene.chain, scene.signers, (line["rrset"], line["record"]), line["owner"], PLAIN, line)
    scene.chain.join(box, cut_box(scene, line["owner"]), PLAIN, UNUSABLE[line["why"]])


def unseen(_scene: Scene, _line: Line) -> None:
    """Nothing of the picture."""


def key(scene: Scene, line: Line) -> None:
    zone = line["zone"]
    box = key_box(scene.chain, zone, line, PLAIN)
    keys = keys_box(scene.chain, zone, line["rrset"], PLAIN)
    if "signature" in line:
        scene.chain.join(box, keys, HOLDS)
    if "anchor" in line:
        scene.chain.join(anchor_box(scene.chain, line["anchor"], zone, HOLDS), box, HOLDS)
    if "ds_record" in line:
        place, state = (line["ds_rrset"], line["ds_record"]), scene.states.get(line["ds_rrset"], PLAIN)
        scene.chain.join(ds_box(scene.chain, scene.signers, place, zone, state), box, state)


def reason(scene: Scene, line: Line) -> None:
    if "signer" in line:
        scene.of_signature(line, FAILS, signature_text(scene.told, line))
    elif is_voucher(line):
        of_voucher(scene, line)
    else:
        REASONS[line["word"]](scene, line)


def signature_text(told: Explanation, line: Line) -> str:
    """The word, and the window where it is what fails."""
    if line["word"] == "expired":
        return f"expired {date(told.now - line['by'], told.now)}"
    if line["word"] == "not-yet":
        return f"from {date(told.now + line['by'], told.now)}"
    return f"{SHORT[line['word']]} {line['name']}" if line["word"] == "no-closer" else SHORT[line["word"]]


def of_voucher(scene: Scene, line: Line) -> None:
    """What names a key that isn't there, or isn't the one that it names."""
    zone = line["zone"]
    if "anchor" in line:
        tail = anchor_box(scene.chain, line["anchor"], zone, FAILS, line.get("digest_type"))
    else:
        tail = ds_box(scene.chain, scene.signers, (line["rrset"], line["record"]), zone, FAILS, line)
    known = {(each["tag"], each["algorithm"]) for each in scene.told.keys.of(zone)}
    is_there = (line["tag"], line["algorithm"]) in known
    head = key_box(scene.chain, zone, line, PLAIN if is_there else MISSING)
    scene.chain.join(tail, head, MISSING, SHORT[line["word"]])


def not_self_signed(scene: Scene, line: Line) -> None:
    box = key_box(scene.chain, line["zone"], line, PLAIN)
    keys = keys_box(scene.chain, line["zone"], line["rrset"], PLAIN)
    scene.chain.join(box, keys, MISSING, SHORT[line["word"]])


def not_vouched(scene: Scene, line: Line) -> None:
    """What isn't there, above the keys that sign theirs, or all where none does."""
    box = scene.chain.add((line["word"], line["zone"]), line["zone"], absent(scene, line), MISSING)
    keys_box(scene.chain, line["zone"], line["rrset"], FAILS)
    among = [each for each in scene.told.keys.of(line["zone"]) if each["rrset"] == line["rrset"]]
    for each in [each for each in among if "signature" in each] or among:
        scene.chain.join(box, key_box(scene.chain, line["zone"], each, PLAIN), MISSING)


def unsigned(scene: Scene, line: Line) -> None:
    for box in signed_boxes(scene, line, FAILS, "unsigned"):
        if line["type"] not in OF_ZONES:
            scene.lead(box, FAILS)


def at_zone(scene: Scene, line: Line) -> None:
    """What a zone lacks, as an empty box."""
    scene.chain.add((line["word"], line["zone"]), line["zone"], absent(scene, line), MISSING)


def absent(scene: Scene, line: Line) -> Tuple[str, ...]:
    """What isn't there, and whether that is since nobody asked."""
    return (ABSENT[line["word"]], *(["nobody asked"] if is_unasked(scene.told, line) else []))


def at_name(scene: Scene, line: Line) -> None:
    """What a proof lacks, as an empty box with the name."""
    text = (f"no {line['kind'].upper()}", *sought(scene.told, line))
    scene.lead(scene.chain.add((line["word"], line["zone"], line["name"]), line["zone"], text, MISSING), MISSING)


def record(scene: Scene, line: Line) -> None:
    """A record that says something else, or that can't be used."""
    zone, name = line.get("zone"), line["name"] if line.get("name") else line["owner"]
    kind = line["kind"].upper() if "kind" in line else owned("", line["type"]).strip()
    box = scene.chain.add(
        ("record", line["rrset"], line["record"]), zone, (f"{kind}, record {line['record']}", name), FAILS
    )
    scene.lead(box, FAILS, SHORT[line["word"]])


def dname(scene: Scene, line: Line) -> None:
    box = rrset_box(scene.chain, None, line["rrset"], line["name"], DNAME, FAILS)
    scene.lead(box, FAILS, SHORT[line["word"]])


def question(scene: Scene, line: Line) -> None:
    box = scene.chain.add((line["word"],), line.get("zone"), absent(scene, line), MISSING)
    scene.lead(box, MISSING)


def cut(scene: Scene, line: Line) -> None:
    """A delegation of which nothing proves that it is unsigned, as an empty box with its name."""
    text = (*absent(scene, line), line["name"])
    box = scene.chain.add((line["word"], line["name"]), line["zone"], text, MISSING)
    scene.lead(box, MISSING)


def follows(scene: Scene, line: Line) -> None:
    scene.of_signature(line, FOLLOWS)


REASONS = {
    "no-anchor": at_zone,
    "dnskey-missing": at_zone,
    "ds-missing": at_zone,
    "not-self-signed": not_self_signed,
    "not-vouched": not_vouched,
    "unsigned": unsigned,
    "dname": dname,
    "nsec3-iterations": record,
    "nsec3-unusable": record,
    "delegation": record,
    "type-held": record,
    "match-missing": at_name,
    "encloser-missing": at_name,
    "cover-missing": at_name,
    "answer-missing": question,
    "denial-unproved": question,
    "ds-unproved": cut,
}
DRAWN = {
    "trusted": trusted,
    "signed": signed,
    "proof": proof,
    "part": part,
    "case": case,
    "unusable": unusable,
    "hope": unseen,
    "holds": unseen,
    "rrset": unseen,
    "key": key,
    "reason": reason,
    "follows": follows,
}
